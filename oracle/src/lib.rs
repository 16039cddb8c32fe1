//! The oracle: the Rust's `OpaqueRelayRuntime`, unchanged but for walking its maps by ascending
//! key, behind calls on plain bytes and numbers.

pub mod compare;
pub mod generate;
pub mod history;
mod refusal;
pub mod run;

use hns_hnsr_protocol as protocol;
use lekchnam_traces::words::Route;
use lekchnam_traces::{After, Config, Grant, State};
use protocol::{
    ConfirmedReservation, HnsrActionId, HnsrOpcode, HnsrPacket, HnsrPeerId, OpaqueRelayRuntime, QueuedHnsrRoute,
    RelayService,
};
pub use refusal::Refusal;

pub type Outcome = Result<Vec<Route>, Refusal>;

fn routes(list: Vec<QueuedHnsrRoute>) -> Vec<Route> {
    list.into_iter()
        .map(|queued| Route {
            peer: queued.route.destination.as_bytes().to_vec(),
            generation: queued.action_id.generation,
            sequence: queued.action_id.sequence,
            opcode: queued.route.packet.opcode as u8,
            context: queued.route.packet.context_id,
            body: queued.route.packet.body,
        })
        .collect()
}

fn peer(bytes: &[u8]) -> Result<HnsrPeerId, Refusal> {
    Ok(HnsrPeerId::new(bytes.to_vec())?)
}

/// Added (DUE); not in the Rust. Its ledger is the Rust's `reservation_usage`.
fn next_due(state: &State) -> Option<u64> {
    let pending = state.pending.iter().map(|pending| pending.deadline);
    let circuits = state.circuits.iter().map(|circuit| circuit.expires_at);
    let ledger = state.ledger.iter().map(|usage| usage.expires_at);
    pending.chain(circuits).chain(ledger).min()
}

/// Added (STATUS.6); not in the Rust. How many more actions fit toward a peer and about a circuit: the least of what
/// the three limits leave.
pub fn action_capacity(state: &State, peer: &[u8], circuit: [u8; 8]) -> usize {
    let about = state.actions.iter().filter(|action| action.circuit_id == circuit).count();
    let toward = state.actions.iter().filter(|action| action.destination == peer).count();
    let left = [
        state.config.maximum_inflight_actions.saturating_sub(state.actions.len()),
        state.config.maximum_inflight_actions_per_circuit.saturating_sub(about),
        state.config.maximum_inflight_actions_per_peer.saturating_sub(toward),
    ];
    left.into_iter().min().expect("three of them")
}

/// Inputs of `handle`.
#[derive(Clone, Debug, Eq, PartialEq)]
pub struct Packet<'a> {
    pub source: &'a [u8],
    pub opcode: u8,
    pub context: [u8; 8],
    pub body: &'a [u8],
    pub now: u64,
    pub key_valid: bool,
    pub admission: Option<Grant>,
    pub random: &'a [u8],
}

/// The Rust's own.
pub fn default_config() -> Config {
    protocol::OpaqueRelayConfig::default().into()
}

pub struct Oracle {
    runtime: OpaqueRelayRuntime,
}

impl Oracle {
    pub fn new(session: [u8; 16], generation: u64, config: Config, now: u64) -> Result<Self, Refusal> {
        Ok(Self { runtime: OpaqueRelayRuntime::new(session, generation, config.into(), now)? })
    }

    /// Peer length first (4), then the packet (1), as ENTRY.2 and ENTRY.3 have them: in the Rust both are made before
    /// `handle`. An opcode of 21 up has no `HnsrPacket`; here it gives the 1 of `HnsrOpcode::try_from` (by HANDLE.3 it
    /// is 16).
    pub fn handle(&mut self, call: &Packet<'_>) -> Outcome {
        let source = peer(call.source)?;
        let opcode = HnsrOpcode::try_from(call.opcode)?;
        let packet = HnsrPacket::new(opcode, call.context, call.body.to_vec())?;
        k256::set_key_valid(call.key_valid);
        getrandom::set_queue(call.random);
        let service = RelayService { admission: call.admission.as_ref().map(ConfirmedReservation::from) };
        let answer = self.runtime.handle(&service, &source, &packet, call.now);
        getrandom::set_queue(&[]);
        Ok(routes(answer?))
    }

    pub fn acknowledge(&mut self, generation: u64, sequence: u64, delivered: bool) -> Outcome {
        Ok(routes(self.runtime.acknowledge(HnsrActionId { generation, sequence }, delivered)?))
    }

    pub fn disconnect(&mut self, bytes: &[u8]) -> Outcome {
        let peer = peer(bytes)?;
        Ok(routes(self.runtime.disconnect(&peer)))
    }

    pub fn revoke_reservation(&mut self, reservation_id: [u8; 16]) -> Outcome {
        Ok(routes(self.runtime.revoke_reservation(reservation_id)))
    }

    pub fn expire(&mut self, now: u64) -> Outcome {
        Ok(routes(self.runtime.expire(now)?))
    }

    pub fn observe_time(&mut self, now: u64) -> Outcome {
        self.runtime.observe_time(now)?;
        Ok(Vec::new())
    }

    pub fn replace_enabled(&mut self, expected: u64, enabled: bool) -> Outcome {
        Ok(routes(self.runtime.replace_enabled(expected, enabled)?))
    }

    /// What is told after a call: `status`, next due, and how many ledger records there are.
    pub fn after(&self) -> After {
        let s = self.runtime.status();
        let state = self.probe();
        After {
            status: [
                s.generation,
                s.enabled.into(),
                s.pending_circuits as u64,
                s.active_circuits as u64,
                s.queued_bytes as u64,
                s.queued_actions as u64,
                s.trusted_time_high_water,
                s.admitted_opens,
                s.opened_circuits,
                s.bytes_sent,
                s.bytes_received,
                s.revoked_work,
            ],
            due: next_due(&state),
            ledger: state.ledger.len(),
        }
    }

    /// All private state, ids ascending.
    pub fn probe(&self) -> State {
        self.runtime.probe()
    }

    /// The Rust's own word on whether one more action fits toward a peer of a good name and about a circuit.
    pub fn action_fits(&self, name: &[u8], circuit: [u8; 8]) -> bool {
        self.runtime.probe_action_fits(&peer(name).expect("a good name"), circuit)
    }

    /// Not a call of a relay: sets the next sequence number.
    pub fn poke_sequence(&mut self, value: u64) {
        self.runtime.probe_set_next_sequence(value);
    }
}
