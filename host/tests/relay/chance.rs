//! Relays with small limits, and packets by chance that run into every one of them.
use crate::fixture::{peer, START};
use crate::random::Random;
use lekchnam_host::lent::{Runtime, Tables};
use lekchnam_host::limits::{MAX_DATA_SIZE, MAX_WINDOW, MIN_WINDOW};
use lekchnam_host::{
    Admission, Grant, HnsrActionId, HnsrOpcode, HnsrPacket, HnsrRuntimeError, OpaqueRelayConfig, OpaqueRelayRuntime,
    RandomSource, Row,
};

/// The peers' names, and one that never is a peer.
pub const NAMES: [&[u8]; 4] = [b"a", b"b", b"c", b"d"];
pub const NOBODY: &[u8] = b"z";

/// Ids and contexts are so few that they meet: below this.
const IDS: usize = 8;

/// Ids drawn by chance, some of them zero or taken; or one that never is taken.
#[derive(Clone, Copy)]
pub enum Draws {
    Few(u64),
    Free,
}

pub const FREE_ID: u64 = 1_000;

impl RandomSource for Draws {
    fn supply(&mut self, room: &mut [u8]) -> usize {
        let mut drawn = [FREE_ID; 3];
        if let Self::Few(seed) = self {
            let mut random = Random::new(*seed);
            *seed += 1;
            drawn = drawn.map(|_| random.below(IDS) as u64);
        }
        let bytes = drawn.map(u64::to_be_bytes);
        room[..24].copy_from_slice(bytes.as_flattened());
        24
    }
}

pub type Drawing = OpaqueRelayRuntime<Draws>;

/// What `handle` is handed.
#[derive(Clone, Debug)]
pub struct Call {
    pub admission: Admission<'static>,
    pub source: &'static [u8],
    pub opcode: HnsrOpcode,
    pub context: u64,
    pub body: Vec<u8>,
    pub now: u64,
}

impl Call {
    fn packet(&self) -> HnsrPacket<'_> {
        HnsrPacket { opcode: self.opcode, context_id: self.context.to_be_bytes(), body: &self.body }
    }

    pub fn made(&self, relay: &mut Drawing) -> Result<(), HnsrRuntimeError> {
        relay.handle(&self.admission, &peer(self.source), &self.packet(), self.now).map(drop)
    }

    pub fn why(&self, relay: &Drawing, refused: HnsrRuntimeError) -> Option<Row> {
        relay.why(refused, &self.admission, &peer(self.source), &self.packet(), self.now)
    }

    /// The grant, if there is one.
    pub fn grant(&mut self) -> Option<&mut Grant<'static>> {
        match &mut self.admission {
            Admission::Granted(grant) => Some(grant),
            _ => None,
        }
    }
}

/// A relay as it stands, to be tried again.
#[derive(Clone)]
pub struct Parts {
    pub runtime: Runtime,
    pub tables: Tables,
    pub draws: Draws,
}

impl Parts {
    pub fn of(relay: &Drawing) -> Self {
        Self { runtime: *relay.runtime(), tables: relay.tables().clone(), draws: *relay.random() }
    }

    pub fn relay(self) -> Drawing {
        Drawing::from_parts(self.runtime, self.tables, self.draws).expect("places enough")
    }
}

/// A host that does not know what it does.
pub struct Chance {
    pub random: Random,
    pub relay: Drawing,
    now: u64,
    /// Of a hundred calls so many are followed by an acknowledge.
    acknowledges: usize,
}

impl Chance {
    pub fn new(seed: u64) -> Self {
        let mut random = Random::new(seed);
        let config = limits(&mut random);
        let now = if seed % 8 == 7 { u64::MAX - 300 } else { START };
        let draws = Draws::Few(seed << 32);
        let places = random.pick(&[1, 2, 6]);
        let relay = Drawing::new_with([1; 16], 1, config, now, places, draws).expect("a new relay");
        let mut parts = Parts::of(&relay);
        if seed % 8 == 3 {
            parts.runtime.next_action_sequence = u64::MAX - 40;
        }
        let acknowledges = random.pick(&[5, 30, 80]);
        Self { relay: parts.relay(), now, acknowledges, random }
    }

    /// The next packet.
    pub fn call(&mut self) -> Call {
        use HnsrOpcode::{Accept, Close, Data, Error, Open, Window};
        let random = &mut self.random;
        let any = HnsrOpcode::from(random.byte());
        let status = self.relay.status();
        let opcode = match random.below(20) {
            0 => random.pick(&[Close, Error, any]),
            1..=4 => Open,
            5..=7 => Accept,
            _ if status.active_circuits == 0 => random.pick(&[Open, Accept]),
            _ => random.pick(&[Data, Data, Window]),
        };
        self.now = self.now.saturating_add(if random.below(40) == 0 { 11 } else { random.pick(&[0, 0, 0, 0, 1]) });
        self.now = self.now.min(u64::MAX - 1);
        let now = if random.below(50) == 0 { self.now - 1 } else { self.now };
        let (source, context) = self.named(opcode);
        let random = &mut self.random;
        let mut body = good_body(random.below(1 << 20) as u64, opcode);
        if random.below(20) == 0 {
            body = random.damaged(&body);
        }
        Call { admission: self.admission(), source, opcode, context, body, now }
    }

    /// Sender and context: mostly of a record that is there.
    fn named(&mut self, opcode: HnsrOpcode) -> (&'static [u8], u64) {
        let random = &mut self.random;
        let seen = self.relay.tables().in_use();
        let mut known = Vec::new();
        if opcode != HnsrOpcode::Accept {
            for circuit in seen.circuits.iter().filter(|circuit| circuit.used) {
                known.push((circuit.requester, circuit.circuit_id));
                known.push((circuit.endpoint, circuit.circuit_id));
            }
        }
        if !matches!(opcode, HnsrOpcode::Data | HnsrOpcode::Window) {
            for pending in seen.pending.iter().filter(|pending| pending.used) {
                known.push((pending.endpoint, pending.circuit_id));
            }
        }
        if known.is_empty() || opcode == HnsrOpcode::Open || random.below(8) == 0 {
            let context = if random.below(20) == 0 { 0 } else { 1 + random.below(IDS) as u64 };
            return (random.pick(&NAMES), context);
        }
        let (name, context) = random.pick(&known);
        let source = NAMES.into_iter().find(|source| *source == name.as_bytes()).expect("one of them");
        (source, context)
    }

    fn admission(&mut self) -> Admission<'static> {
        let random = &mut self.random;
        match random.below(20) {
            0 => return Admission::KeyInvalid,
            1 => return Admission::Refused,
            _ => {}
        }
        let next = (self.now / 100 + 1).saturating_mul(100).min(u64::MAX - 50);
        Admission::Granted(Grant {
            endpoint: if random.below(30) == 0 { b"" } else { random.pick(&NAMES) },
            reservation_id: reservation(random),
            expires_at: if random.below(30) == 0 { self.now } else { random.pick(&[next, next, next, next + 50]) },
            max_active_circuits: random.pick(&[1, 2, 100, 100]),
            max_bytes_per_circuit: random.pick(&[2_000, 1 << 40, 1 << 40]),
            max_total_bytes: if random.below(30) == 0 { 0 } else { random.pick(&[1_000, 40_000, 1 << 40, 1 << 40]) },
        })
    }

    /// What a host does between packets.
    pub fn between(&mut self) {
        let Self { random, relay, now, .. } = self;
        if random.below(100) < self.acknowledges {
            let outstanding = relay.tables().in_use().inflight.iter().filter(|action| action.used);
            let numbers: Vec<_> = outstanding.map(|action| (action.generation, action.sequence)).collect();
            if !numbers.is_empty() {
                let (generation, sequence) = random.pick(&numbers);
                // refused where the ERROR for an undelivered INCOMING finds no room
                let _ = relay.acknowledge(HnsrActionId { generation, sequence }, random.below(20) != 0);
            }
        }
        let generation = relay.status().generation;
        let answer = match random.below(300) {
            0 => relay.disconnect(&peer(random.pick(&NAMES))),
            1 => relay.revoke_reservation(reservation(random)),
            2..=6 => relay.expire(*now),
            7 => relay.replace_enabled(generation, random.below(3) != 0),
            8..40 => relay.replace_enabled(generation, true),
            _ => return,
        };
        assert!(answer.is_ok());
    }
}

fn reservation(random: &mut Random) -> [u8; 16] {
    [random.pick(&[5, 6, 7]); 16]
}

/// Limits that are soon reached.
fn limits(random: &mut Random) -> OpaqueRelayConfig {
    let per_circuit = random.pick(&[2, 3, 8]);
    let per_peer = per_circuit + random.pick(&[0, 2, 4]);
    OpaqueRelayConfig {
        maximum_pending: random.pick(&[1, 3, 5]),
        maximum_circuits: random.pick(&[1, 3, 5]),
        maximum_circuits_per_peer: random.pick(&[1, 2, 3, 32]),
        maximum_queue_bytes: random.pick(&[1_000, 20_000, 65_536]),
        maximum_inflight_actions: per_peer + random.pick(&[0, 2, 12]),
        maximum_inflight_actions_per_circuit: per_circuit,
        maximum_inflight_actions_per_peer: per_peer,
        maximum_bytes_per_circuit: 1 << 40,
        accept_timeout_seconds: random.pick(&[1, 10]),
    }
}

/// A body that its reader takes.
pub fn good_body(seed: u64, opcode: HnsrOpcode) -> Vec<u8> {
    let mut random = Random::new(seed);
    let window: u32 = random.pick(&[MIN_WINDOW, MIN_WINDOW, 40_000, MAX_WINDOW]);
    match opcode {
        HnsrOpcode::Open => {
            let reservation = reservation(&mut random);
            [&[1; 32][..], &reservation, &[2; 33], &[1, 0], &[3; 16], &window.to_le_bytes()].concat()
        }
        HnsrOpcode::Accept => [&window.to_le_bytes()[..], &[4; 16]].concat(),
        HnsrOpcode::Data => vec![random.byte(); random.pick(&[1, 10, 400, 900, 5_000, MAX_DATA_SIZE])],
        HnsrOpcode::Window => random.pick(&[1_u32, 1_000, 16_384, MAX_WINDOW - 20_000]).to_le_bytes().to_vec(),
        HnsrOpcode::Close | HnsrOpcode::Error => {
            let detail = random.text(20);
            [&[random.byte(), random.byte(), detail.len() as u8], &detail[..]].concat()
        }
        _ => Vec::new(),
    }
}
