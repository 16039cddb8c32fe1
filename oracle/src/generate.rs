//! Seed -> a run of calls, each chosen by looking at the oracle's state so that about half are taken and every check
//! bites.

mod details;
mod messages;
mod open;
mod run;
mod start;

pub use details::{invalid_details, valid_details};
use lekchnam_host::HnsrOpcode;
use lekchnam_host::limits::{MAX_BODY_SIZE, MAXIMUM_PEER};
use lekchnam_traces::bytes::pattern;
use lekchnam_traces::file::Places;
use lekchnam_traces::rng::Rng;
use lekchnam_traces::state::Kind;
use lekchnam_traces::words::Route;
use lekchnam_traces::{Call, Class, Config, State};
pub use run::Run;

/// What the relay takes.
const HANDLED: [HnsrOpcode; 6] =
    [HnsrOpcode::Open, HnsrOpcode::Accept, HnsrOpcode::Data, HnsrOpcode::Window, HnsrOpcode::Close, HnsrOpcode::Error];

struct Reservation {
    id: [u8; 16],
    endpoint: usize,
    expires_at: u64,
    max_active: u16,
    bytes: u64,
    total: u64,
}

pub struct Generator {
    rng: Rng,
    config: Config,
    peers: Vec<Vec<u8>>,
    ids: Vec<[u8; 8]>,
    reservations: Vec<Reservation>,
    now: u64,
    start: u64,
    generation: u64,
    /// Chance in a hundred that a call is made wrong on purpose.
    damage: u64,
    poke: bool,
    /// How eagerly routes are acknowledged.
    acks: u64,
    issued: Vec<(u64, u64)>,
    past: Vec<Call>,
}

/// What is done next.
#[derive(Clone, Copy)]
enum Step {
    Open,
    Accept,
    Data,
    Window,
    Close,
    Acknowledge,
    Disconnect,
    Revoke,
    Expire,
    Observe,
    Replace,
    OtherOpcode,
    Entry,
    Again,
}

impl Generator {
    pub fn new(seed: u64) -> Self {
        let mut rng = Rng::new(seed);
        let config = start::config(&mut rng);
        let mut peers = vec![
            b"a".to_vec(),
            b"a\0".to_vec(),
            vec![0],
            rng.bytes::<MAXIMUM_PEER>().to_vec(),
            rng.bytes::<33>().to_vec(),
        ];
        peers.truncate(rng.range(3, 5) as usize);
        let mut ids: Vec<[u8; 8]> = [1, 1 << 8, 1 << 56, 1 << 63 | 2, u64::MAX].map(u64::to_be_bytes).to_vec();
        ids.extend([rng.bytes(), rng.bytes()]);
        let start = match seed % 10 {
            7 => u64::MAX - rng.range(1, 60),
            8 => 0,
            _ => 100,
        };
        let generation = match seed % 10 {
            6 => u64::MAX - rng.range(0, 3),
            5 => 1 << 32,
            _ => 1 + rng.below(3),
        };
        let mut this = Self {
            config,
            peers,
            ids,
            reservations: Vec::new(),
            now: start,
            start,
            generation,
            damage: *rng.pick(&[4, 8, 14, 25]),
            poke: seed % 10 == 9,
            acks: *rng.pick(&[3, 10, 16, 24]),
            issued: Vec::new(),
            past: Vec::new(),
            rng,
        };
        this.reserve();
        this
    }

    /// Two or three reservations.
    fn reserve(&mut self) {
        for index in 0..self.rng.range(2, 3) {
            let mut id = [0; 16];
            id[if index == 0 { 0 } else { 15 }] = index as u8 + 1;
            self.reservations.push(Reservation { id, endpoint: 0, expires_at: 0, max_active: 0, bytes: 0, total: 0 });
            self.renew(index as usize);
        }
    }

    /// The table places that the trace needs.
    pub fn places(&self) -> Places {
        Places {
            pending: self.config.maximum_pending,
            circuits: self.config.maximum_circuits,
            actions: self.config.maximum_inflight_actions,
            ledger: self.reservations.len(),
        }
    }

    fn tick(&mut self, state: &State) -> u64 {
        if self.now > u64::MAX - 1_000 && self.rng.chance(75) {
            return self.now;
        }
        match self.rng.below(100) {
            0..=77 => {}
            78..=90 => self.now = self.now.saturating_add(1),
            91..=93 => self.now = self.now.saturating_add(self.rng.range(1, 4)),
            94..=97 => self.tick_to_an_end(state),
            _ => {
                let back = if self.rng.chance(70) { 1 } else { self.rng.range(1, 1_000) };
                return state.high_water.saturating_sub(back);
            }
        }
        self.now
    }

    /// To, or just before, the end of something.
    fn tick_to_an_end(&mut self, state: &State) {
        let near = |end: &u64| end.saturating_sub(self.now) < 40;
        let mut ends: Vec<u64> = state.pending.iter().map(|p| p.deadline).collect();
        ends.extend(state.circuits.iter().map(|c| c.expires_at).filter(near));
        ends.extend(state.ledger.iter().map(|l| l.expires_at).filter(near));
        if !ends.is_empty() {
            let end = *self.rng.pick(&ends);
            let to = if self.rng.chance(50) { end } else { end.saturating_sub(1) };
            self.now = self.now.max(to);
        }
    }

    fn peer(&mut self) -> Vec<u8> {
        self.rng.pick(&self.peers).clone()
    }

    fn id(&mut self) -> [u8; 8] {
        if self.rng.chance(4) {
            return self.rng.bytes();
        }
        *self.rng.pick(&self.ids)
    }

    fn bad(&mut self) -> bool {
        let damage = self.damage;
        self.rng.chance(damage)
    }

    fn handle(&mut self, state: &State, source: Vec<u8>, opcode: HnsrOpcode, context: [u8; 8], body: Vec<u8>) -> Call {
        let (opcode, now) = (opcode.into(), self.tick(state));
        // with other opcodes than OPEN these are not looked at
        let random = if self.rng.chance(3) { self.rng.bytes::<8>().to_vec() } else { Vec::new() };
        Call::Handle { source, opcode, context, body, now, key_valid: self.rng.chance(50), admission: None, random }
    }

    /// Shortens or lengthens.
    fn cut(&mut self, body: &mut Vec<u8>) {
        match self.rng.below(3) {
            0 => body.truncate(self.rng.below(body.len() as u64 + 1) as usize),
            1 => body.truncate(body.len().saturating_sub(1)),
            _ => body.extend((0..self.rng.range(1, 3)).map(|_| self.rng.byte())),
        }
    }

    fn acknowledge(&mut self, state: &State) -> Call {
        let (generation, sequence, percent) = if self.bad() || state.actions.is_empty() {
            let (generation, sequence) = self.stray_action(state);
            (generation, sequence, 70)
        } else {
            let action = if self.rng.chance(50) { &state.actions[0] } else { self.rng.pick(&state.actions) };
            (action.generation, action.sequence, 88)
        };
        Call::Acknowledge { generation, sequence, delivered: self.rng.chance(percent) }
    }

    fn stray_action(&mut self, state: &State) -> (u64, u64) {
        match self.rng.below(6) {
            0 => (state.generation.wrapping_add(1), 1),
            1 => (state.generation, state.next_sequence),
            2 => (state.generation, 0),
            3 => (state.generation.wrapping_sub(1), 1),
            _ if !self.issued.is_empty() => *self.rng.pick(&self.issued),
            _ => (state.generation, self.rng.draw()),
        }
    }

    /// What is refused at entry: a peer's length, a zero context, a packet too large.
    fn entry(&mut self, state: &State) -> (Class, Call) {
        let mut call = match self.rng.below(3) {
            0 => self.data(state),
            1 => self.open(state),
            _ => self.close(state),
        };
        let Call::Handle { source, opcode, context, body, .. } = &mut call else {
            unreachable!("all three are packets")
        };
        // 72 more: a seed gives the bytes that it has always given
        let peer = vec![b'q'; *self.rng.pick(&[0, MAXIMUM_PEER + 1, MAXIMUM_PEER + 72])];
        match self.rng.below(7) {
            0 => *source = peer,
            1 => *context = [0; 8],
            2 => *body = pattern(MAX_BODY_SIZE + 1, 3),
            3 => {
                *opcode = self.rng.range(0, u64::from(HnsrOpcode::COUNT) - 1) as u8;
                *context = [0; 8];
                if HnsrOpcode::from(*opcode) == HnsrOpcode::SampleRoutes {
                    return ('d', call); // the one that may: it meets the gate's 16
                }
            }
            4 => {
                // both: the peer comes first (ENTRY.2, ENTRY.3)
                *source = peer;
                *context = [0; 8];
            }
            5 => {
                // a zero context and too large: too large first
                *context = [0; 8];
                *body = pattern(MAX_BODY_SIZE + 1, 9);
            }
            _ => return ('e', Call::Disconnect { peer }),
        }
        ('e', call)
    }

    pub fn next(&mut self, state: &State) -> (Class, Call) {
        let (class, call) = match self.urgent(state) {
            Some(chosen) => chosen,
            None => self.choose(state),
        };
        let is_open = call.message() == Some(HnsrOpcode::Open);
        let class = match &call {
            Call::Handle { admission: Some(g), now, .. } if class == 'd' && is_open && g.expires_at <= *now => 'g',
            _ => class,
        };
        if let Call::Handle { .. } = call
            && class == 'd'
        {
            self.past.push(call.clone());
        }
        (class, call)
    }

    pub fn saw(&mut self, routes: &[Route]) {
        self.issued.extend(routes.iter().map(|r| (r.generation, r.sequence)));
    }

    /// What chance alone would do too seldom.
    fn urgent(&mut self, state: &State) -> Option<(Class, Call)> {
        if self.poke && state.next_sequence < u64::MAX - 20 && self.rng.chance(5) {
            return Some(('p', Call::Poke { sequence: u64::MAX - self.rng.range(0, 8) }));
        }
        if !state.enabled && self.rng.chance(35) {
            return Some(('d', Call::Replace { expected: state.generation, enabled: true }));
        }
        let toward = |peer: &[u8]| state.actions.iter().filter(|a| a.destination == peer).count();
        let most = self.config.maximum_inflight_actions_per_peer;
        // an INCOMING that fails while the way to its requester is full
        let blocked = |id| state.pending.iter().any(|p| p.id == id && toward(&p.requester) >= most);
        if let Some(a) = state.actions.iter().find(|a| a.kind == Kind::Incoming && blocked(a.circuit_id))
            && self.rng.chance(8)
        {
            return Some(('d', Call::Acknowledge { generation: a.generation, sequence: a.sequence, delivered: false }));
        }
        let full = state.actions.len() + 2 >= self.config.maximum_inflight_actions
            || self.peers.iter().any(|peer| toward(peer) >= most);
        if full && self.acks > 5 && self.rng.chance(25) {
            return Some(('d', self.acknowledge(state)));
        }
        None
    }

    fn choose(&mut self, state: &State) -> (Class, Call) {
        let call = match self.step(state) {
            Step::Open => self.open(state),
            Step::Accept => self.accept(state),
            Step::Data => self.data(state),
            Step::Window => self.window_call(state),
            Step::Close => self.close(state),
            Step::Acknowledge => self.acknowledge(state),
            Step::Disconnect => {
                Call::Disconnect { peer: if self.rng.chance(90) { self.peer() } else { b"nobody".to_vec() } }
            }
            Step::Revoke => {
                let known = self.rng.chance(90);
                Call::Revoke {
                    reservation: if known { self.rng.pick(&self.reservations).id } else { self.rng.bytes() },
                }
            }
            Step::Expire => Call::Expire { now: self.tick(state) },
            Step::Observe => Call::Observe { now: self.tick(state) },
            Step::Replace => self.replace(state),
            Step::OtherOpcode => return self.other_opcode(state),
            Step::Entry => return self.entry(state),
            Step::Again => self.again(state),
        };
        ('d', call)
    }

    fn step(&mut self, state: &State) -> Step {
        let room =
            state.pending.len() < self.config.maximum_pending && state.circuits.len() < self.config.maximum_circuits;
        let table = [
            (if room { 22 } else { 4 }, Step::Open),
            (if state.pending.is_empty() { 1 } else { 18 }, Step::Accept),
            (if state.circuits.is_empty() { 1 } else { 24 }, Step::Data),
            (if state.circuits.is_empty() { 1 } else { 7 }, Step::Window),
            (5, Step::Close),
            (if state.actions.is_empty() { 2 } else { self.acks }, Step::Acknowledge),
            (1, Step::Disconnect),
            (1, Step::Revoke),
            (3, Step::Expire),
            (2, Step::Observe),
            (1, Step::Replace),
            (1, Step::OtherOpcode),
            (1, Step::Entry),
            (2, Step::Again),
        ];
        let mut at = self.rng.below(table.iter().map(|(weight, _)| weight).sum());
        for (weight, step) in table {
            if at < weight {
                return step;
            }
            at -= weight;
        }
        unreachable!("below the sum of the weights")
    }

    fn replace(&mut self, state: &State) -> Call {
        let expected = if self.bad() {
            *self.rng.pick(&[0, state.generation.wrapping_sub(1), state.generation.wrapping_add(1)])
        } else {
            state.generation
        };
        // off as often as on; on when on changes nothing
        Call::Replace { expected, enabled: self.rng.chance(50) }
    }

    /// Opcodes that have no handling here, one in four of them of no message.
    fn other_opcode(&mut self, state: &State) -> (Class, Call) {
        let messages = (0..HnsrOpcode::COUNT).map(HnsrOpcode::from);
        let others: Vec<HnsrOpcode> = messages.filter(|opcode| !HANDLED.contains(opcode)).collect();
        let opcode = *self.rng.pick(&others);
        let (source, context) = (self.peer(), self.id());
        let mut call = self.handle(state, source, opcode, context, pattern(30, 1));
        if self.rng.chance(25)
            && let Call::Handle { opcode, .. } = &mut call
        {
            *opcode = self.rng.range(HnsrOpcode::COUNT.into(), 255) as u8;
            return ('o', call);
        }
        ('d', call)
    }

    /// An earlier packet once more.
    fn again(&mut self, state: &State) -> Call {
        if self.past.is_empty() {
            return self.open(state);
        }
        let mut call = self.rng.pick(&self.past).clone();
        let time = self.tick(state);
        if let Call::Handle { now, admission, .. } = &mut call {
            *now = time;
            if let Some(grant) = admission
                && grant.expires_at <= time
                && time < u64::MAX
            {
                grant.expires_at = time + 1;
            }
        }
        call
    }
}
