//! ACCEPT, DATA, WINDOW, CLOSE and ERROR, aimed at records that are there, or beside them.
use super::Generator;
use lekchnam_host::HnsrOpcode;
use lekchnam_host::limits::{MAX_BODY_SIZE, MAX_DATA_SIZE, MAX_WINDOW, MIN_WINDOW};
use lekchnam_traces::bytes::pattern;
use lekchnam_traces::{Call, State};

const LONGEST_DATA: u64 = MAX_DATA_SIZE as u64;
const LONGEST_BODY: u64 = MAX_BODY_SIZE as u64;

/// Who sends on which circuit.
struct Aim {
    source: Vec<u8>,
    context: [u8; 8],
    /// The place of the circuit, if one is aimed at.
    index: Option<usize>,
    from_requester: bool,
}

impl Generator {
    pub(super) fn window(&mut self) -> u32 {
        let (least, most) = (MIN_WINDOW, MAX_WINDOW);
        *self.rng.pick(&[least, least, least, least + 1, 2 * least, 2 * least, 4 * least, most - 1, most])
    }

    pub(super) fn accept(&mut self, state: &State) -> Call {
        let wrong = self.bad();
        let (mut source, mut context, offer) = if state.pending.is_empty() || (wrong && self.rng.chance(25)) {
            (self.peer(), self.id(), MIN_WINDOW)
        } else {
            let p = self.rng.pick(&state.pending);
            (p.endpoint.clone(), p.id, p.initial_window)
        };
        let mut window = if self.rng.chance(60) { MIN_WINDOW.min(offer) } else { offer };
        let mut nonce: [u8; 16] = self.rng.bytes();
        let mut cut = false;
        if wrong {
            match self.rng.below(8) {
                0 => source = self.peer(),
                1 => window = offer + 1,
                2 => window = *self.rng.pick(&[0, MIN_WINDOW - 1, MAX_WINDOW, MAX_WINDOW + 1]),
                3 => nonce = [0; 16],
                4 | 5 => cut = true,
                6 => {
                    // the requester, under its own context
                    if let Some(p) = state.pending.first() {
                        context = p.requester_context;
                        source = p.requester.clone();
                    }
                }
                _ => {}
            }
        }
        let mut body = [&window.to_le_bytes()[..], &nonce].concat();
        if cut {
            self.cut(&mut body);
        }
        self.handle(state, source, HnsrOpcode::Accept, context, body)
    }

    fn aim(&mut self, state: &State, wrong: bool) -> Aim {
        if state.circuits.is_empty() || (wrong && self.rng.chance(30)) {
            return self.aim_beside(state);
        }
        let index = self.rng.below(state.circuits.len() as u64) as usize;
        let circuit = &state.circuits[index];
        let from_requester = self.rng.chance(65);
        let source = if wrong && self.rng.chance(40) {
            self.peer()
        } else if from_requester {
            circuit.requester.clone()
        } else {
            circuit.endpoint.clone()
        };
        Aim { source, context: circuit.id, index: Some(index), from_requester }
    }

    /// At a pending record, or at nothing.
    fn aim_beside(&mut self, state: &State) -> Aim {
        let (source, context) = if !state.pending.is_empty() && self.rng.chance(50) {
            let p = self.rng.pick(&state.pending).clone();
            let source = if self.rng.chance(50) { p.requester } else { p.endpoint };
            (source, if self.rng.chance(50) { p.id } else { p.requester_context })
        } else {
            (self.peer(), self.id())
        };
        Aim { source, context, index: None, from_requester: true }
    }

    pub(super) fn data(&mut self, state: &State) -> Call {
        let wrong = self.bad();
        let aim = self.aim(state, wrong);
        let mut size = match self.rng.below(10) {
            0..=3 => self.rng.range(1, 40),
            4..=5 => LONGEST_DATA,
            6 => self.rng.range(1, LONGEST_DATA),
            7 => *self.rng.pick(&[1, 2, 3, 4, 5, LONGEST_DATA - 1]),
            _ => aim.index.map_or(1, |index| self.edge(state, index, aim.from_requester)),
        };
        if wrong {
            size = *self.rng.pick(&[0, LONGEST_DATA + 1, 20_000, LONGEST_BODY, size]);
        }
        let size = size.min(if wrong { LONGEST_BODY } else { LONGEST_DATA });
        let body = if size < 24 {
            (0..size).map(|_| self.rng.byte()).collect()
        } else {
            pattern(size as usize, self.rng.byte())
        };
        self.handle(state, aim.source, HnsrOpcode::Data, aim.context, body)
    }

    /// As many bytes as reach an edge, or one more.
    fn edge(&mut self, state: &State, index: usize, from_requester: bool) -> u64 {
        let circuit = &state.circuits[index];
        let ledger = state.ledger.iter().find(|l| l.reservation_id == circuit.reservation_id);
        let used = ledger.map_or(0, |l| l.bytes);
        let (credit, queued) = if from_requester {
            (circuit.requester_credit, circuit.queued_to_endpoint)
        } else {
            (circuit.endpoint_credit, circuit.queued_to_requester)
        };
        let edge = *self.rng.pick(&[
            u64::from(credit),
            (self.config.maximum_queue_bytes - queued) as u64,
            circuit.maximum_bytes.saturating_sub(circuit.forwarded_bytes),
            circuit.maximum_total_bytes.saturating_sub(used),
        ]);
        edge.saturating_add(self.rng.below(2))
    }

    pub(super) fn window_call(&mut self, state: &State) -> Call {
        let wrong = self.bad();
        let aim = self.aim(state, wrong);
        let mut delta = *self.rng.pick(&[1, 100, MIN_WINDOW, 20_000]);
        if let Some(index) = aim.index
            && self.rng.chance(30)
        {
            let circuit = &state.circuits[index];
            let other =
                if aim.source == circuit.requester { circuit.endpoint_credit } else { circuit.requester_credit };
            delta = MAX_WINDOW - other + self.rng.below(2) as u32;
        }
        if wrong && self.rng.chance(50) {
            delta = *self.rng.pick(&[0, MAX_WINDOW, MAX_WINDOW + 1, u32::MAX]);
        }
        let mut body = delta.to_le_bytes().to_vec();
        if wrong && self.rng.chance(30) {
            self.cut(&mut body);
        }
        self.handle(state, aim.source, HnsrOpcode::Window, aim.context, body)
    }

    pub(super) fn close(&mut self, state: &State) -> Call {
        let wrong = self.bad();
        let opcode = if self.rng.chance(50) { HnsrOpcode::Close } else { HnsrOpcode::Error };
        let damaged_body = wrong && self.rng.chance(60);
        let body = self.reason_body(damaged_body);
        let misaddressed = wrong && !damaged_body;
        let (source, context) = match self.matching_twice(state) {
            Some(named) => named,
            None => self.closing(state, misaddressed),
        };
        self.handle(state, source, opcode, context, body)
    }

    /// A peer and a context that name two pending records, most times where there are such.
    fn matching_twice(&mut self, state: &State) -> Option<(Vec<u8>, [u8; 8])> {
        let crossed =
            |requester: &[u8], context| state.pending.iter().any(|q| q.endpoint == requester && q.id == context);
        let both: Vec<_> = state.pending.iter().filter(|p| crossed(&p.requester, p.requester_context)).collect();
        if both.is_empty() || !self.rng.chance(60) {
            return None;
        }
        let p = self.rng.pick(&both);
        Some((p.requester.clone(), p.requester_context))
    }

    fn closing(&mut self, state: &State, misaddressed: bool) -> (Vec<u8>, [u8; 8]) {
        if state.pending.is_empty() || !(state.circuits.is_empty() || self.rng.chance(50)) {
            let aim = self.aim(state, misaddressed);
            return (aim.source, aim.context);
        }
        let p = self.rng.pick(&state.pending).clone();
        match (misaddressed, self.rng.chance(50)) {
            (false, true) => (p.requester, p.requester_context),
            (false, false) => (p.endpoint, p.id),
            (true, true) => (p.requester, p.id),
            (true, false) => (p.endpoint, p.requester_context),
        }
    }
}
