//! The private state, read from the library's tables.
use crate::state::{Action, Circuit, Kind, Pending, State, Usage};
use lekchnam_host::lent::{InflightAction, RelayCircuit, RelayPending, ReservationUsage, Runtime, Tables};

impl State {
    /// The records of used places by ascending key, equal ones by place.
    pub fn stored(runtime: &Runtime, tables: &Tables) -> Self {
        let (counters, tables) = (runtime.counters, tables.in_use());
        let mut state = Self {
            session: runtime.session,
            generation: runtime.generation,
            enabled: runtime.enabled,
            high_water: runtime.trusted_time_high_water,
            config: runtime.config,
            next_sequence: runtime.next_action_sequence,
            counters: [
                counters.admitted_opens,
                counters.opened_circuits,
                counters.bytes_sent,
                counters.bytes_received,
                counters.revoked_work,
            ],
            pending: tables.pending.iter().filter(|record| record.used).map(pending).collect(),
            circuits: tables.circuits.iter().filter(|record| record.used).map(circuit).collect(),
            ledger: tables.ledger.iter().filter(|record| record.used).map(usage).collect(),
            actions: tables.inflight.iter().filter(|record| record.used).map(action).collect(),
        };
        state.pending.sort_by_key(|pending| pending.id);
        state.circuits.sort_by_key(|circuit| circuit.id);
        state.ledger.sort_by_key(|usage| usage.reservation_id);
        state.actions.sort_by_key(|action| (action.generation, action.sequence));
        state
    }
}

fn pending(p: &RelayPending) -> Pending {
    Pending {
        id: p.circuit_id.to_be_bytes(),
        requester: p.requester.as_bytes().to_vec(),
        endpoint: p.endpoint.as_bytes().to_vec(),
        requester_context: p.requester_context.to_be_bytes(),
        reservation_id: p.ticket.reservation_id.into(),
        expires_at: p.ticket.expires_at,
        max_active_circuits: p.ticket.max_active_circuits,
        max_bytes_per_circuit: p.ticket.max_bytes_per_circuit,
        max_total_bytes: p.ticket.max_total_bytes,
        initial_window: p.initial_window,
        deadline: p.deadline,
    }
}

fn circuit(c: &RelayCircuit) -> Circuit {
    Circuit {
        id: c.circuit_id.to_be_bytes(),
        requester: c.requester.as_bytes().to_vec(),
        endpoint: c.endpoint.as_bytes().to_vec(),
        reservation_id: c.reservation_id.into(),
        expires_at: c.expires_at,
        maximum_bytes: c.maximum_bytes,
        maximum_total_bytes: c.maximum_total_bytes,
        requester_credit: c.requester_credit,
        endpoint_credit: c.endpoint_credit,
        forwarded_bytes: c.forwarded_bytes,
        queued_to_requester: c.queued_to_requester,
        queued_to_endpoint: c.queued_to_endpoint,
    }
}

fn usage(u: &ReservationUsage) -> Usage {
    Usage { reservation_id: u.reservation_id.into(), bytes: u.bytes, expires_at: u.expires_at }
}

fn action(a: &InflightAction) -> Action {
    Action {
        generation: a.generation,
        sequence: a.sequence,
        circuit_id: a.circuit_id.to_be_bytes(),
        destination: a.destination.as_bytes().to_vec(),
        kind: match (a.kind, a.to_endpoint) {
            (0, _) => Kind::Incoming,
            (1, _) => Kind::Opened,
            (2, false) => Kind::DataToRequester,
            (2, true) => Kind::DataToEndpoint,
            (3, _) => Kind::Control,
            _ => Kind::Close,
        },
        bytes: a.bytes,
    }
}
