//! The calls of a trace, run on the Rust.
use crate::{Oracle, Outcome, Packet, action_capacity};
use lekchnam_traces::replay::Machine;
use lekchnam_traces::words::words;
use lekchnam_traces::{Answer, Call, Cause, Class, State, Words};

/// The Rust as what runs a trace.
#[derive(Default)]
pub struct Rust {
    relay: Option<Oracle>,
}

impl Rust {
    pub fn run(&mut self, class: Class, call: &Call) -> Outcome {
        if let Call::New { session, generation, config, now } = call {
            self.relay = Some(Oracle::new(*session, *generation, *config, *now)?);
            return Ok(Vec::new());
        }
        let relay = self.relay.as_mut().expect("a taken new first");
        match call {
            Call::New { .. } => unreachable!("it is above"),
            Call::Handle { source, opcode, context, body, now, key_valid, admission, random } => {
                relay.handle(&Packet {
                    source,
                    opcode: if class == 'o' { 0 } else { *opcode },
                    context: *context,
                    body,
                    now: *now,
                    key_valid: *key_valid,
                    admission: admission.clone(),
                    random,
                })
            }
            Call::Acknowledge { generation, sequence, delivered } => {
                relay.acknowledge(*generation, *sequence, *delivered)
            }
            Call::Disconnect { peer } => relay.disconnect(peer),
            Call::Revoke { reservation } => relay.revoke_reservation(*reservation),
            Call::Expire { now } => relay.expire(*now),
            Call::Observe { now } => relay.observe_time(*now),
            Call::Replace { expected, enabled } => relay.replace_enabled(*expected, *enabled),
            Call::Poke { sequence } => {
                relay.poke_sequence(*sequence);
                Ok(Vec::new())
            }
        }
    }

    /// The relay, once a `new` is taken.
    pub fn relay(&self) -> Option<&Oracle> {
        self.relay.as_ref()
    }

    /// What a trace says of an outcome, and of the relay after it.
    pub fn answer(&self, outcome: &Outcome) -> Answer {
        let (number, cause, list) = match outcome {
            Ok(routes) => (0, Cause::None, words(routes)),
            Err(refusal) => (refusal.number, refusal.cause.clone(), Vec::new()),
        };
        Answer { number, cause, words: Words::of(list), after: self.relay.as_ref().map(Oracle::after) }
    }
}

impl Machine for Rust {
    fn call(&mut self, class: Class, call: &Call) -> Answer {
        let outcome = self.run(class, call);
        self.answer(&outcome)
    }

    fn state(&self) -> Option<State> {
        self.relay.as_ref().map(Oracle::probe)
    }

    fn action_capacity(&self, peer: &[u8], circuit: [u8; 8]) -> Option<usize> {
        self.state().map(|state| action_capacity(&state, peer, circuit))
    }
}
