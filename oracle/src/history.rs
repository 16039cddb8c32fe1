//! What is reckoned from history (RUN.3 to RUN.8), and the counters (COUNT), held against the Rust's state after each
//! call. This is a check of the rules, not part of the oracle.

use lekchnam_host::{HnsrOpcode, HnsrRuntimeError};
use lekchnam_traces::event::Change;
use lekchnam_traces::state::{Circuit, Kind};
use lekchnam_traces::{Call, Event, State};
use std::collections::BTreeMap;

const COUNTERS: [&str; 5] = ["admitted_opens", "opened_circuits", "bytes_sent", "bytes_received", "revoked_work"];

#[derive(Default)]
pub struct History {
    /// Count DATA and WINDOW refused with 6 as taken, which the rules do not (RUN.13).
    lenient: bool,
    /// Of the requester and of the endpoint.
    credit: BTreeMap<[u8; 8], (u64, u64)>,
    bytes: BTreeMap<[u8; 8], u64>,
    ledger: BTreeMap<[u8; 16], u64>,
    counters: [u64; 5],
}

impl History {
    pub fn lenient() -> Self {
        Self { lenient: true, ..Self::default() }
    }

    /// Reckons one call, and says what then differs from the Rust's state.
    pub fn step(&mut self, event: &Event) -> Vec<&'static str> {
        let Some(change) = event.change() else { return Vec::new() };
        let Change { before, after } = change;
        let taken = event.taken() || (self.lenient && event.refused_with(HnsrRuntimeError::GenerationExhausted));
        let mut accepted = None;
        if let Call::Handle { source, opcode, context, body, .. } = &event.call {
            match HnsrOpcode::from(*opcode) {
                HnsrOpcode::Open => self.open(before, after),
                HnsrOpcode::Accept if after.circuits.len() > before.circuits.len() => {
                    self.accept(*context, number(body));
                    accepted = Some(*context);
                }
                HnsrOpcode::Data if taken => self.data(circuit(before, context), source, body.len() as u64),
                HnsrOpcode::Window if taken => self.window(circuit(before, context), source, number(body)),
                _ => {}
            }
        }
        self.count_ends(&change, accepted);
        let mut wrong = self.mismatches(after);
        wrong.extend(broken(after));
        wrong
    }

    fn open(&mut self, before: &State, after: &State) {
        for record in &after.ledger {
            let old = before.ledger.iter().find(|l| l.reservation_id == record.reservation_id);
            // dropped and made anew in one OPEN shows by its expiry
            if old.is_none_or(|l| l.expires_at != record.expires_at) {
                self.ledger.insert(record.reservation_id, 0);
            }
        }
        if after.pending.len() > before.pending.len() {
            self.counters[0] += 1;
        }
    }

    fn accept(&mut self, id: [u8; 8], window: u64) {
        self.credit.insert(id, (window, window));
        self.bytes.insert(id, 0);
        self.counters[1] += 1;
    }

    fn data(&mut self, circuit: &Circuit, source: &[u8], amount: u64) {
        let credit = self.credit.get_mut(&circuit.id).expect("reckoned from its ACCEPT");
        let sender = if circuit.requester == source { &mut credit.0 } else { &mut credit.1 };
        *sender -= amount;
        *self.bytes.get_mut(&circuit.id).expect("reckoned from its ACCEPT") += amount;
        *self.ledger.get_mut(&circuit.reservation_id).expect("reckoned from its OPEN") += amount;
        self.counters[2] += amount;
        self.counters[3] += amount;
    }

    fn window(&mut self, circuit: &Circuit, source: &[u8], delta: u64) {
        let credit = self.credit.get_mut(&circuit.id).expect("reckoned from its ACCEPT");
        let other = if circuit.requester == source { &mut credit.1 } else { &mut credit.0 };
        *other += delta;
    }

    /// COUNT.4: what ended, and was not accepted.
    fn count_ends(&mut self, change: &Change<'_>, accepted: Option<[u8; 8]>) {
        let pending = change.ended_pending().into_iter().filter(|p| accepted != Some(p.id));
        self.counters[4] += (pending.count() + change.ended_circuits().len()) as u64;
    }

    fn mismatches(&self, after: &State) -> Vec<&'static str> {
        let mut wrong = Vec::new();
        for c in &after.circuits {
            if self.credit.get(&c.id) != Some(&(u64::from(c.requester_credit), u64::from(c.endpoint_credit))) {
                wrong.push("credit");
            }
            if self.bytes.get(&c.id) != Some(&c.forwarded_bytes) {
                wrong.push("circuit bytes");
            }
            let of = |kind| after.actions.iter().filter(move |a| a.circuit_id == c.id && a.kind == kind);
            let queued = |kind| of(kind).map(|a| a.bytes).sum::<usize>();
            if (queued(Kind::DataToRequester), queued(Kind::DataToEndpoint))
                != (c.queued_to_requester, c.queued_to_endpoint)
            {
                wrong.push("queued is not the outstanding DATA");
            }
        }
        let ledger = after.ledger.iter().filter(|l| self.ledger.get(&l.reservation_id) != Some(&l.bytes));
        wrong.extend(ledger.map(|_| "ledger bytes"));
        wrong.extend((0..COUNTERS.len()).filter(|at| self.counters[*at] != after.counters[*at]).map(|at| COUNTERS[at]));
        wrong
    }
}

/// What no call may break: deadlines end by the expiry, ids differ, and an action has its record.
fn broken(state: &State) -> Vec<&'static str> {
    let mut wrong = Vec::new();
    let live = |id| state.circuits.iter().any(|c| c.id == id);
    let open = |id| state.pending.iter().any(|p| p.id == id);
    for p in &state.pending {
        if p.deadline > p.expires_at || live(p.id) || p.id == [0; 8] {
            wrong.push("pending invariant");
        }
    }
    for a in &state.actions {
        let record = match a.kind {
            Kind::Incoming => open(a.circuit_id),
            Kind::Close => true,
            _ => live(a.circuit_id),
        };
        if !record {
            wrong.push("action without its record");
        }
    }
    wrong
}

fn circuit<'a>(state: &'a State, id: &[u8; 8]) -> &'a Circuit {
    state.circuits.iter().find(|c| c.id == *id).expect("what was taken has its circuit")
}

/// The window or delta that a body starts with.
fn number(body: &[u8]) -> u64 {
    u64::from(u32::from_le_bytes(body[..4].try_into().expect("four bytes")))
}
