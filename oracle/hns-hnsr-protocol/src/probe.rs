// Included in circuit.rs as `mod oracle_probe` (build.rs, T2): a view of the private state.
use lekchnam_traces::state::{Action, Circuit, Kind, Pending, State, Usage};

fn pending((id, p): (&[u8; 8], &RelayPending)) -> Pending {
    Pending {
        id: *id,
        requester: p.requester.as_bytes().to_vec(),
        endpoint: p.endpoint.as_bytes().to_vec(),
        requester_context: p.requester_context,
        reservation_id: p.ticket.reservation_id,
        expires_at: p.ticket.expires_at,
        max_active_circuits: p.ticket.max_active_circuits,
        max_bytes_per_circuit: p.ticket.max_bytes_per_circuit,
        max_total_bytes: p.ticket.max_total_bytes,
        initial_window: p.initial_window,
        deadline: p.deadline,
    }
}

fn circuit((id, c): (&[u8; 8], &RelayCircuit)) -> Circuit {
    Circuit {
        id: *id,
        requester: c.requester.as_bytes().to_vec(),
        endpoint: c.endpoint.as_bytes().to_vec(),
        reservation_id: c.reservation_id,
        expires_at: c.expires_at,
        maximum_bytes: c.maximum_bytes,
        maximum_total_bytes: c.maximum_total_bytes,
        requester_credit: c.requester_credit,
        endpoint_credit: c.endpoint_credit,
        forwarded_bytes: c.forwarded_bytes,
        queued_to_requester: c.queued_to_requester,
        queued_to_endpoint: c.queued_to_endpoint,
    }
}

fn usage((id, usage): (&[u8; 16], &ReservationUsage)) -> Usage {
    Usage { reservation_id: *id, bytes: usage.bytes, expires_at: usage.expires_at }
}

fn action((id, action): (&HnsrActionId, &InflightAction)) -> Action {
    let (kind, bytes) = match action.kind {
        InflightKind::Incoming => (Kind::Incoming, 0),
        InflightKind::Opened => (Kind::Opened, 0),
        InflightKind::Data { destination: RelaySide::Requester, bytes, .. } => (Kind::DataToRequester, bytes),
        InflightKind::Data { destination: RelaySide::Endpoint, bytes, .. } => (Kind::DataToEndpoint, bytes),
        InflightKind::Control => (Kind::Control, 0),
        InflightKind::Close => (Kind::Close, 0),
    };
    Action {
        generation: id.generation,
        sequence: id.sequence,
        circuit_id: action.circuit_id,
        destination: action.destination.as_bytes().to_vec(),
        kind,
        bytes,
    }
}

impl OpaqueRelayRuntime {
    /// All private state, ids ascending.
    pub fn probe(&self) -> State {
        let counters = &self.counters;
        State {
            session: self.session,
            generation: self.generation,
            enabled: self.enabled,
            high_water: self.trusted_time_high_water,
            config: self.config.into(),
            pending: self.pending.iter().map(pending).collect(),
            circuits: self.circuits.iter().map(circuit).collect(),
            ledger: self.reservation_usage.iter().map(usage).collect(),
            actions: self.inflight.iter().map(action).collect(),
            next_sequence: self.next_action_sequence,
            counters: [
                counters.admitted_opens,
                counters.opened_circuits,
                counters.bytes_sent,
                counters.bytes_received,
                counters.revoked_work,
            ],
        }
    }

    /// Whether one more action fits: the private test that DATA, WINDOW and what the relay sends by itself go by.
    pub fn probe_action_fits(&self, destination: &HnsrPeerId, circuit_id: [u8; 8]) -> bool {
        self.ensure_action_capacity(destination, circuit_id, false).is_ok()
    }

    /// Not part of a run: 2^64 - 1 cannot be reached by calls.
    pub fn probe_set_next_sequence(&mut self, value: u64) {
        self.next_action_sequence = value;
    }
}
