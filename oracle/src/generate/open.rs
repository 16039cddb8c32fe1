//! OPEN: what the requester asks, what the host grants, and the bytes that it draws ids from.
use super::{Generator, Reservation};
use lekchnam_host::HnsrOpcode;
use lekchnam_host::limits::{MAX_WINDOW, MAXIMUM_PEER, MIN_WINDOW};
use lekchnam_traces::bytes::unhex;
use lekchnam_traces::{Call, Grant, State};

const VALID_KEYS: [&str; 3] = [
    "0279be667ef9dcbbac55a06295ce870b07029bfcdb2dce28d959f2815b16f81798",
    "0379be667ef9dcbbac55a06295ce870b07029bfcdb2dce28d959f2815b16f81798",
    "02c6047f9441ed7d6d3045406e95c07cd85c778e4b8cef3ca7abac09b95c709ee5",
];
const INVALID_KEYS: [&str; 3] = [
    "000000000000000000000000000000000000000000000000000000000000000000",
    "0579be667ef9dcbbac55a06295ce870b07029bfcdb2dce28d959f2815b16f81798",
    "02ffffffffffffffffffffffffffffffffffffffffffffffffffffffffffffffff",
];

struct Offer {
    source: Vec<u8>,
    context: [u8; 8],
    ticket: [u8; 32],
    reservation: [u8; 16],
    key_valid: bool,
    profile: u16,
    nonce: [u8; 16],
    window: u32,
    admission: Option<Grant>,
    cut: bool,
}

impl Generator {
    /// New terms for a reservation.
    pub(super) fn renew(&mut self, index: usize) {
        let endpoint = self.rng.below(self.peers.len() as u64) as usize;
        let life = *self.rng.pick(&[2, 5, 12, 30, 30, 100, 1_000, 1_000]);
        self.reservations[index] = Reservation {
            id: self.reservations[index].id,
            endpoint,
            expires_at: self.now.saturating_add(life),
            max_active: *self.rng.pick(&[1, 1, 2, 3, 4, 4, 32, 65_535]),
            bytes: *self.rng.pick(&[10, 20_000, 40_000, 40_000, 100_000, 100_000, 1 << 20, 1 << 20, u64::MAX]),
            total: match self.rng.below(40) {
                0 => 0,
                1 => 150,
                _ => *self.rng.pick(&[30_000, 50_000, 200_000, 200_000, 1 << 20, 1 << 20, u64::MAX]),
            },
        };
    }

    pub(super) fn open(&mut self, state: &State) -> Call {
        let mut offer = self.offer(state);
        if self.bad() {
            self.spoil(&mut offer);
        }
        let body = self.open_body(&offer);
        let random = self.draws(state, offer.admission.as_ref());
        let now = self.tick(state);
        let Offer { source, context, key_valid, admission, .. } = offer;
        Call::Handle { source, opcode: HnsrOpcode::Open.into(), context, body, now, key_valid, admission, random }
    }

    fn offer(&mut self, state: &State) -> Offer {
        let mut grant = self.grant();
        let mut reservation = grant.reservation_id;
        if self.rng.chance(3) {
            reservation = self.rng.pick(&self.reservations).id;
        }
        let source = self.requester(state, &grant);
        let mut context = self.id();
        if self.rng.chance(70) && state.pending.iter().any(|p| p.requester == source && p.requester_context == context)
        {
            context = self.id();
        }
        // grants after now, or (class g) not
        if grant.expires_at <= self.now && self.rng.chance(50) {
            grant.expires_at = self.now.saturating_add(self.rng.range(1, 20));
        }
        Offer {
            source,
            context,
            ticket: self.rng.bytes(),
            reservation,
            key_valid: true,
            nonce: self.rng.bytes(),
            profile: self.rng.range(1, 4) as u16,
            window: self.window(),
            admission: Some(grant),
            cut: false,
        }
    }

    fn grant(&mut self) -> Grant {
        let index = self.rng.below(self.reservations.len() as u64) as usize;
        if self.reservations[index].expires_at <= self.now || self.rng.chance(1) {
            let late = self.rng.chance(6);
            if !late {
                self.renew(index);
            }
        }
        let terms = &self.reservations[index];
        let mut grant = Grant {
            endpoint: self.peers[terms.endpoint].clone(),
            reservation_id: terms.id,
            expires_at: terms.expires_at,
            max_active_circuits: terms.max_active,
            max_bytes_per_circuit: terms.bytes,
            max_total_bytes: terms.total,
        };
        // terms that vary under one id: ACCEPT's test of the reservation needs them
        if self.rng.chance(7) {
            grant.max_active_circuits = self.rng.range(1, 3) as u16;
        }
        grant
    }

    /// A peer that is not the endpoint and has room for work, if four tries find one.
    fn requester(&mut self, state: &State, grant: &Grant) -> Vec<u8> {
        let mut source = self.peer();
        for _ in 0..4 {
            let pending = state.pending.iter().filter(|p| p.requester == source || p.endpoint == source).count();
            let circuits = state.circuits.iter().filter(|c| c.requester == source || c.endpoint == source).count();
            if source != grant.endpoint && pending + circuits < usize::from(self.config.maximum_circuits_per_peer) {
                break;
            }
            source = self.peer();
        }
        source
    }

    fn spoil(&mut self, offer: &mut Offer) {
        let grant = offer.admission.as_mut().expect("a grant until it is spoiled");
        match self.rng.below(16) {
            0 => offer.ticket = [0; 32],
            1 => offer.reservation = [0; 16],
            2 | 3 => offer.key_valid = false,
            4 => offer.profile = 0,
            5 => offer.nonce = [0; 16],
            6 => offer.window = *self.rng.pick(&[0, MIN_WINDOW - 1, MAX_WINDOW + 1, u32::MAX]),
            7 | 8 => offer.cut = true,
            9 | 10 => offer.admission = None,
            11 => {
                grant.endpoint = vec![b'x'; *self.rng.pick(&[0, MAXIMUM_PEER + 1, MAXIMUM_PEER + 2, 2 * MAXIMUM_PEER])]
            }
            12 => grant.endpoint = offer.source.clone(),
            13 => grant.expires_at = grant.expires_at.saturating_add(self.rng.range(0, 2)),
            // OPEN names one reservation, the grant another
            14 => offer.reservation = self.rng.pick(&self.reservations).id,
            _ => grant.max_active_circuits = 0,
        }
    }

    fn open_body(&mut self, offer: &Offer) -> Vec<u8> {
        let keys = if offer.key_valid { VALID_KEYS } else { INVALID_KEYS };
        let key = *self.rng.pick(&keys);
        let (profile, window) = (offer.profile.to_le_bytes(), offer.window.to_le_bytes());
        let mut body = [
            &offer.ticket[..],
            &offer.reservation,
            &unhex(key).expect("a key in hex"),
            &profile,
            &offer.nonce,
            &window,
        ]
        .concat();
        if offer.cut {
            self.cut(&mut body);
        }
        body
    }

    fn draws(&mut self, state: &State, grant: Option<&Grant>) -> Vec<u8> {
        let used: Vec<[u8; 8]> =
            state.pending.iter().map(|p| p.id).chain(state.circuits.iter().map(|c| c.id)).collect();
        let fresh = self.fresh_id(state, grant, &used);
        let zeros = |count: u64| vec![0; 8 * count as usize];
        let mut out = Vec::new();
        match self.rng.below(100) {
            0..=69 => out.extend(fresh),
            70..=76 => {
                out.extend(zeros(self.rng.range(1, 8)));
                out.extend(fresh);
            }
            77..=85 if !used.is_empty() => {
                // taken ids, zeros between, then a good one
                for _ in 0..self.rng.range(1, 8) {
                    out.extend(zeros(self.rng.below(8).saturating_sub(4)));
                    out.extend(self.rng.pick(&used));
                }
                out.extend(fresh);
            }
            86..=87 => {}
            88..=89 => out.extend(&fresh[..7]),
            90..=91 => {
                out.extend(zeros(1));
                out.extend(&fresh[..self.rng.below(8) as usize]);
            }
            _ => {
                out.extend(fresh);
                out.extend((0..self.rng.below(13)).map(|_| self.rng.byte()));
            }
        }
        out
    }

    fn fresh_id(&mut self, state: &State, grant: Option<&Grant>, used: &[[u8; 8]]) -> [u8; 8] {
        let free: Vec<[u8; 8]> = self.ids.iter().copied().filter(|id| !used.contains(id)).collect();
        // an id which the endpoint uses as its own context: the two records that match
        let crossing: Vec<[u8; 8]> = state
            .pending
            .iter()
            .filter(|p| grant.is_some_and(|g| g.endpoint == p.requester))
            .map(|p| p.requester_context)
            .filter(|id| !used.contains(id))
            .collect();
        if !crossing.is_empty() && self.rng.chance(35) {
            *self.rng.pick(&crossing)
        } else if free.is_empty() || self.rng.chance(15) {
            self.rng.bytes()
        } else {
            *self.rng.pick(&free)
        }
    }
}
