//! Calls by chance, most of them aimed at a record that stands in the tables with its mark set, below the number or
//! not.
use super::lent::{config, given_name, id, reservation, time};
use crate::reading::World;
use crate::rng::Rng;
use crate::{Call, Grant};
use lekchnam_host::HnsrOpcode;
use lekchnam_host::lent::StoredPeer;
use lekchnam_host::limits::{MAX_BODY_SIZE, MAX_DATA_SIZE, MAX_WINDOW, MIN_WINDOW};

/// Who sends, and the context.
type Aim = (Vec<u8>, u64);

impl World {
    pub(super) fn call_by_chance(&self, rng: &mut Rng) -> Call {
        match rng.below(100) {
            0..=19 => self.open_by_chance(rng),
            20..=33 => self.accept_by_chance(rng),
            34..=49 => self.data_by_chance(rng),
            50..=57 => self.window_by_chance(rng),
            58..=68 => self.close_by_chance(rng),
            69..=70 => self.other_by_chance(rng),
            71..=82 => self.acknowledge_by_chance(rng),
            83..=86 => Call::Disconnect { peer: given_name(rng) },
            87..=89 => Call::Revoke { reservation: reservation(rng).into() },
            90..=93 => Call::Expire { now: self.now(rng) },
            94 => Call::Observe { now: self.now(rng) },
            95..=97 => self.replace_by_chance(rng),
            _ => self.new_by_chance(rng),
        }
    }

    /// Mostly the time that it is, or later.
    fn now(&self, rng: &mut Rng) -> u64 {
        let clock = self.runtime.trusted_time_high_water;
        match rng.below(100) {
            0..=84 => clock,
            85..=94 => clock.saturating_add(rng.range(1, 3)),
            _ => time(rng, clock),
        }
    }

    fn packet(&self, rng: &mut Rng, (source, context): Aim, opcode: HnsrOpcode, body: Vec<u8>) -> Call {
        let (opcode, context, now) = (opcode.into(), context.to_be_bytes(), self.now(rng));
        Call::Handle {
            source,
            opcode,
            context,
            body,
            now,
            key_valid: rng.chance(50),
            admission: None,
            random: Vec::new(),
        }
    }

    fn open_by_chance(&self, rng: &mut Rng) -> Call {
        let now = self.now(rng);
        let window = *rng.pick(&[MIN_WINDOW, 2 * MIN_WINDOW, MAX_WINDOW]);
        let reservation_id: [u8; 16] = reservation(rng).into();
        let asked: [u8; 16] = if rng.chance(80) { reservation_id } else { reservation(rng).into() };
        let body = [&[1; 32][..], &asked, &[3; 33], &[1, 0], &[4; 16], &window.to_le_bytes()].concat();
        let grant = Grant {
            endpoint: given_name(rng),
            reservation_id,
            expires_at: self.expiry(rng, reservation_id, now),
            max_active_circuits: *rng.pick(&[0, 2, 5, 32, u16::MAX]),
            max_bytes_per_circuit: *rng.pick(&[0, 100, 1 << 20, u64::MAX]),
            max_total_bytes: *rng.pick(&[0, 100, 1 << 20, u64::MAX]),
        };
        Call::Handle {
            source: given_name(rng),
            opcode: HnsrOpcode::Open.into(),
            context: id(rng).to_be_bytes(),
            body: damaged(rng, body),
            now,
            key_valid: rng.chance(95),
            admission: rng.chance(95).then_some(grant),
            random: draws(rng),
        }
    }

    /// Often that of the ledger's record, which an OPEN must name again.
    fn expiry(&self, rng: &mut Rng, reservation_id: [u8; 16], now: u64) -> u64 {
        let usage = self.tables.ledger.iter().find(|usage| usage.used && usage.reservation_id == reservation_id.into());
        usage.filter(|_| rng.chance(70)).map_or_else(|| time(rng, now), |usage| usage.expires_at)
    }

    fn accept_by_chance(&self, rng: &mut Rng) -> Call {
        let window = *rng.pick(&[MIN_WINDOW, MIN_WINDOW, 2 * MIN_WINDOW, MAX_WINDOW]);
        let aim = self.at_pending(rng, false);
        let body = damaged(rng, [&window.to_le_bytes()[..], &[5; 16]].concat());
        self.packet(rng, aim, HnsrOpcode::Accept, body)
    }

    fn data_by_chance(&self, rng: &mut Rng) -> Call {
        let size = *rng.pick(&[0, 1, 2, 3, 4, 5, 40, 100, 101, 1_000, MAX_DATA_SIZE, MAX_DATA_SIZE + 1]);
        let aim = self.at_circuit(rng);
        let body = (0..size).map(|_| rng.byte()).collect();
        self.packet(rng, aim, HnsrOpcode::Data, body)
    }

    fn window_by_chance(&self, rng: &mut Rng) -> Call {
        let delta = *rng.pick(&[0, 1, 100, MAX_WINDOW - 100, MAX_WINDOW, MAX_WINDOW + 1]);
        let aim = self.at_circuit(rng);
        let body = damaged(rng, delta.to_le_bytes().to_vec());
        self.packet(rng, aim, HnsrOpcode::Window, body)
    }

    fn close_by_chance(&self, rng: &mut Rng) -> Call {
        let aim = if rng.chance(50) {
            self.at_circuit(rng)
        } else {
            let by_requester = rng.chance(50);
            self.at_pending(rng, by_requester)
        };
        let opcode = *rng.pick(&[HnsrOpcode::Close, HnsrOpcode::Error]);
        let body = damaged(rng, vec![9, 0, 3, b'b', b'y', b'e']);
        self.packet(rng, aim, opcode, body)
    }

    /// Any opcode.
    fn other_by_chance(&self, rng: &mut Rng) -> Call {
        let aim = (given_name(rng), id(rng));
        let opcode = if rng.chance(50) { rng.below(HnsrOpcode::COUNT.into()) as u8 } else { rng.byte() };
        let length = *rng.pick(&[0, 1, 40, MAX_BODY_SIZE, MAX_BODY_SIZE + 1]);
        self.packet(rng, aim, opcode.into(), vec![1; length])
    }

    /// Most times a pending record, as its requester or as its endpoint names it.
    fn at_pending(&self, rng: &mut Rng, by_requester: bool) -> Aim {
        let used: Vec<_> = self.tables.pending.iter().filter(|pending| pending.used).collect();
        if used.is_empty() || rng.chance(10) {
            return (given_name(rng), id(rng));
        }
        let p = rng.pick(&used);
        if by_requester { (name(&p.requester), p.requester_context) } else { (name(&p.endpoint), p.circuit_id) }
    }

    /// Most times a circuit, by one of its sides.
    fn at_circuit(&self, rng: &mut Rng) -> Aim {
        let used: Vec<_> = self.tables.circuits.iter().filter(|circuit| circuit.used).collect();
        if used.is_empty() || rng.chance(10) {
            return (given_name(rng), id(rng));
        }
        let c = rng.pick(&used);
        (name(if rng.chance(50) { &c.requester } else { &c.endpoint }), c.circuit_id)
    }

    fn acknowledge_by_chance(&self, rng: &mut Rng) -> Call {
        let used: Vec<_> = self.tables.inflight.iter().filter(|action| action.used).collect();
        let (generation, sequence) = match used.is_empty() || rng.chance(10) {
            true => (self.runtime.generation, rng.below(6)),
            false => {
                let action = rng.pick(&used);
                (action.generation, action.sequence)
            }
        };
        Call::Acknowledge { generation, sequence, delivered: rng.chance(40) }
    }

    fn replace_by_chance(&self, rng: &mut Rng) -> Call {
        let expected = if rng.chance(90) { self.runtime.generation } else { rng.below(4) };
        Call::Replace { expected, enabled: rng.chance(50) }
    }

    fn new_by_chance(&self, rng: &mut Rng) -> Call {
        let session = if rng.chance(90) { rng.bytes() } else { [0; 16] };
        let config = if rng.chance(50) { self.runtime.config } else { config(rng) };
        Call::New { session, generation: rng.below(4), config, now: time(rng, 100) }
    }
}

fn name(stored: &StoredPeer) -> Vec<u8> {
    stored.as_bytes().to_vec()
}

/// One in twelve: cut, longer, or with a byte changed.
fn damaged(rng: &mut Rng, mut body: Vec<u8>) -> Vec<u8> {
    let at = rng.below(body.len() as u64) as usize;
    match rng.below(36) {
        0 => body.truncate(at),
        1 => body.extend(rng.bytes::<3>()),
        2 => body[at] ^= rng.byte(),
        _ => {}
    }
    body
}

/// Draws of which some are zero and some are taken, and perhaps a tail.
fn draws(rng: &mut Rng) -> Vec<u8> {
    let many = *rng.pick(&[0, 1, 2, 8, 12, 20, 70]);
    let zeros = *rng.pick(&[0, 0, 80]);
    let draw = |rng: &mut Rng| if rng.chance(zeros) { 0 } else { id(rng) };
    let mut random: Vec<u8> = (0..many).flat_map(|_| draw(rng).to_be_bytes()).collect();
    if rng.chance(50) {
        random.extend(rng.bytes::<8>());
    }
    random.extend((0..rng.below(8)).map(|_| rng.byte()));
    random
}
