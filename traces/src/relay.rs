//! The calls of a trace, run on the proved library.
use crate::answer::{After, Answer, status_numbers};
use crate::call::{Call, Class, Grant};
use crate::file::Places;
use crate::replay::Machine;
use crate::state::State;
use lekchnam_host::lent::{self, Packet, RelayPacket, Runtime, Tables};
use lekchnam_host::{
    Admission, HnsrActionId, HnsrPacket, HnsrPeerId, HnsrRuntimeError, OpaqueRelayRuntime, RandomSource,
};
use std::cell::RefCell;
use std::rc::Rc;

/// The random bytes of the call that runs.
#[derive(Clone, Default)]
struct Draws(Rc<RefCell<Vec<u8>>>);

impl RandomSource for Draws {
    fn supply(&mut self, room: &mut [u8]) -> usize {
        let given = self.0.borrow();
        let count = given.len().min(room.len());
        room[..count].copy_from_slice(&given[..count]);
        count
    }
}

type Library = OpaqueRelayRuntime<Draws>;

/// The library as what runs a trace.
pub struct Relay {
    places: Places,
    draws: Draws,
    library: Option<Library>,
}

impl Relay {
    pub fn new(places: Places) -> Self {
        Self { places, draws: Draws::default(), library: None }
    }

    /// Runs a call; the output words of one that is taken.
    fn run(&mut self, call: &Call) -> Result<Vec<u32>, HnsrRuntimeError> {
        match call {
            Call::New { session, generation, config, now } => {
                let (ledger, draws) = (self.places.ledger, self.draws.clone());
                self.library = Some(OpaqueRelayRuntime::new_with(*session, *generation, *config, *now, ledger, draws)?);
            }
            Call::Handle { .. } => return self.handle(call),
            Call::Acknowledge { generation, sequence, delivered } => {
                let action_id = HnsrActionId { generation: *generation, sequence: *sequence };
                _ = self.library().acknowledge(action_id, *delivered)?;
            }
            Call::Disconnect { peer } => match HnsrPeerId::new(&peer[..]) {
                Ok(peer) => _ = self.library().disconnect(&peer)?,
                Err(_) => return self.by_parts(|tables, out, runtime| lent::disconnect(tables, out, runtime, peer)),
            },
            Call::Revoke { reservation } => _ = self.library().revoke_reservation(*reservation)?,
            Call::Expire { now } => _ = self.library().expire(*now)?,
            Call::Observe { now } => self.library().observe_time(*now)?,
            Call::Replace { expected, enabled } => _ = self.library().replace_enabled(*expected, *enabled)?,
            Call::Poke { sequence } => return self.poke(*sequence),
        }
        Ok(self.words())
    }

    fn handle(&mut self, call: &Call) -> Result<Vec<u32>, HnsrRuntimeError> {
        let Call::Handle { source, opcode, context, body, now, key_valid, admission, random } = call else {
            unreachable!("a packet is given")
        };
        self.draws.0.replace(random.clone());
        let Ok(peer) = HnsrPeerId::new(&source[..]) else {
            let head = RelayPacket {
                opcode: *opcode,
                context_id: u64::from_be_bytes(*context),
                now: *now,
                ..RelayPacket::default()
            };
            let packet = Packet { head, source, body, ..Packet::default() };
            return self.by_parts(|tables, out, runtime| lent::handle(tables, out, runtime, &packet));
        };
        let packet = HnsrPacket { opcode: (*opcode).into(), context_id: *context, body };
        let admission = match admission {
            _ if !key_valid => Admission::KeyInvalid,
            None => Admission::Refused,
            Some(grant) => Admission::Granted(grant.lent()),
        };
        Ok(self.library().handle(&admission, &peer, &packet, *now)?.words().to_vec())
    }

    /// Does what the relay's own calls do not let through: a name that is none goes to the library all
    /// the same, and a number is set.
    fn by_parts(
        &mut self,
        call: impl FnOnce(&mut Tables, &mut [u32], &mut Runtime) -> Result<usize, HnsrRuntimeError>,
    ) -> Result<Vec<u32>, HnsrRuntimeError> {
        let (mut runtime, mut tables) = self.library.take().expect("a taken new first").into_parts();
        let mut out = vec![0; tables.most_words()];
        let answer = call(&mut tables, &mut out, &mut runtime);
        self.library = Some(OpaqueRelayRuntime::from_parts(runtime, tables, self.draws.clone())?);
        out.truncate(answer?);
        Ok(out)
    }

    fn poke(&mut self, sequence: u64) -> Result<Vec<u32>, HnsrRuntimeError> {
        self.by_parts(|_, _, runtime| {
            runtime.next_action_sequence = sequence;
            Ok(0)
        })
    }

    fn library(&mut self) -> &mut Library {
        self.library.as_mut().expect("a taken new first")
    }

    /// The output words of the last call.
    fn words(&mut self) -> Vec<u32> {
        self.library().words().to_vec()
    }
}

impl Grant {
    /// As the library takes it.
    pub fn lent(&self) -> lekchnam_host::Grant<'_> {
        lekchnam_host::Grant {
            endpoint: &self.endpoint,
            reservation_id: self.reservation_id,
            expires_at: self.expires_at,
            max_active_circuits: self.max_active_circuits,
            max_bytes_per_circuit: self.max_bytes_per_circuit,
            max_total_bytes: self.max_total_bytes,
        }
    }
}

fn after(library: &Library) -> After {
    After {
        status: status_numbers(&library.status()),
        due: library.next_due(),
        ledger: library.tables().in_use().ledger.iter().filter(|usage| usage.used).count(),
    }
}

impl Machine for Relay {
    fn call(&mut self, _: Class, call: &Call) -> Answer {
        let answer = self.run(call);
        Answer::of(answer, self.library.as_ref().map(after))
    }

    fn state(&self) -> Option<State> {
        self.library.as_ref().map(|library| State::stored(library.runtime(), library.tables()))
    }

    fn action_capacity(&self, peer: &[u8], circuit: [u8; 8]) -> Option<usize> {
        self.library.as_ref()?.action_capacity(&HnsrPeerId::new(peer).ok()?, circuit).ok()
    }
}
