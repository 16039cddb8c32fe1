//! The relay's calls. The runtime goes in and comes back by value, and so do the numbers of places in use; a table
//! that a call does not need is not lent to it. Each looks first whether the archive is the one that is declared here.
use super::{interface, Cause};
use crate::config::OpaqueRelayConfig;
use crate::lent::{
    InflightAction, Packet, Places, RelayCircuit, RelayPacket, RelayPending, ReservationId, ReservationUsage, Runtime,
    Tables,
};
use crate::route::HnsrActionId;
use crate::status::HnsrRuntimeStatus;

/// `answer` is 0, or the number of the refusal; `words` is how many output words are written.
#[repr(C)]
#[derive(Clone, Copy)]
pub struct RelayReply {
    pub answer: u32,
    pub cause: Cause,
    pub words: usize,
    pub runtime: Runtime,
    pub places: Places,
}

/// Refused, all but `answer` is zero.
#[repr(C)]
#[derive(Clone, Copy)]
pub struct StatusReply {
    pub answer: u32,
    pub status: HnsrRuntimeStatus,
    pub action_capacity: usize,
}

/// Nothing is due where `some` is false.
#[repr(C)]
#[derive(Clone, Copy)]
pub struct DueReply {
    pub answer: u32,
    pub some: bool,
    pub due: u64,
}

extern "C" {
    fn opaque_relay_default_config() -> OpaqueRelayConfig;
    fn opaque_relay_validate_config(config: OpaqueRelayConfig) -> u32;
    fn opaque_relay_new(
        pending: *const RelayPending,
        pending_places: usize,
        circuits: *const RelayCircuit,
        circuit_places: usize,
        ledger: *const ReservationUsage,
        ledger_places: usize,
        inflight: *const InflightAction,
        inflight_places: usize,
        session: *const [u8; 16],
        generation: u64,
        config: OpaqueRelayConfig,
        time: u64,
    ) -> RelayReply;
    fn opaque_relay_handle(
        pending: *mut RelayPending,
        pending_places: usize,
        circuits: *mut RelayCircuit,
        circuit_places: usize,
        ledger: *mut ReservationUsage,
        ledger_places: usize,
        inflight: *mut InflightAction,
        inflight_places: usize,
        out: *mut u32,
        out_words: usize,
        runtime: Runtime,
        places: Places,
        packet: RelayPacket,
        source: *const u8,
        source_length: usize,
        body: *const u8,
        body_length: usize,
        endpoint: *const u8,
        endpoint_length: usize,
        random: *const u8,
        random_length: usize,
    ) -> RelayReply;
    fn opaque_relay_acknowledge(
        pending: *mut RelayPending,
        pending_places: usize,
        circuits: *mut RelayCircuit,
        circuit_places: usize,
        inflight: *mut InflightAction,
        inflight_places: usize,
        out: *mut u32,
        out_words: usize,
        runtime: Runtime,
        places: Places,
        generation: u64,
        sequence: u64,
        delivered: bool,
    ) -> RelayReply;
    fn opaque_relay_disconnect(
        pending: *mut RelayPending,
        pending_places: usize,
        circuits: *mut RelayCircuit,
        circuit_places: usize,
        inflight: *mut InflightAction,
        inflight_places: usize,
        out: *mut u32,
        out_words: usize,
        runtime: Runtime,
        places: Places,
        peer: *const u8,
        peer_length: usize,
    ) -> RelayReply;
    fn opaque_relay_revoke_reservation(
        pending: *mut RelayPending,
        pending_places: usize,
        circuits: *mut RelayCircuit,
        circuit_places: usize,
        ledger: *mut ReservationUsage,
        ledger_places: usize,
        inflight: *mut InflightAction,
        inflight_places: usize,
        out: *mut u32,
        out_words: usize,
        runtime: Runtime,
        places: Places,
        id: ReservationId,
    ) -> RelayReply;
    fn opaque_relay_expire(
        pending: *mut RelayPending,
        pending_places: usize,
        circuits: *mut RelayCircuit,
        circuit_places: usize,
        ledger: *mut ReservationUsage,
        ledger_places: usize,
        inflight: *mut InflightAction,
        inflight_places: usize,
        out: *mut u32,
        out_words: usize,
        runtime: Runtime,
        places: Places,
        time: u64,
    ) -> RelayReply;
    fn opaque_relay_replace_enabled(
        pending: *mut RelayPending,
        pending_places: usize,
        circuits: *mut RelayCircuit,
        circuit_places: usize,
        inflight: *mut InflightAction,
        inflight_places: usize,
        out: *mut u32,
        out_words: usize,
        runtime: Runtime,
        places: Places,
        expected_generation: u64,
        enabled: bool,
    ) -> RelayReply;
    fn opaque_relay_observe_time(runtime: Runtime, places: Places, time: u64) -> RelayReply;
    fn opaque_relay_status(
        pending: *const RelayPending,
        pending_places: usize,
        circuits: *const RelayCircuit,
        circuit_places: usize,
        inflight: *const InflightAction,
        inflight_places: usize,
        runtime: Runtime,
        places: Places,
        peer: *const u8,
        peer_length: usize,
        circuit_id: u64,
    ) -> StatusReply;
    fn opaque_relay_next_due(
        pending: *const RelayPending,
        pending_places: usize,
        circuits: *const RelayCircuit,
        circuit_places: usize,
        ledger: *const ReservationUsage,
        ledger_places: usize,
        inflight: *const InflightAction,
        inflight_places: usize,
        runtime: Runtime,
        places: Places,
    ) -> DueReply;
}

/// Calls a function whose first parameters are slices, each as its pointer and its length: lent to be written, or
/// only read.
macro_rules! call {
    ($function:ident, lent $($slice:expr),+; $($rest:expr),+) => {{
        interface::checked();
        // SAFETY: pointer and length are of one slice that is borrowed for writing, no two slices overlap, and no
        // function keeps a pointer. The other arguments are numbers, or slices that are only read. Every record,
        // word, byte and number is allowed: the functions ask nothing of their caller.
        unsafe { $function($($slice.as_mut_ptr(), $slice.len(),)+ $($rest),+) }
    }};
    ($function:ident, read $($slice:expr),+; $($rest:expr),+) => {{
        interface::checked();
        // SAFETY: pointer and length are of one slice, and the function only reads it, during the call. The other
        // arguments are numbers, or bytes that are only read. Every record, byte and number is allowed.
        unsafe { $function($($slice.as_ptr(), $slice.len(),)+ $($rest),+) }
    }};
}

pub fn default_config() -> OpaqueRelayConfig {
    interface::checked();
    // SAFETY: nothing goes in, and numbers come out.
    unsafe { opaque_relay_default_config() }
}

pub fn validate_config(config: OpaqueRelayConfig) -> u32 {
    interface::checked();
    // SAFETY: numbers go in, one comes out, and every number is allowed.
    unsafe { opaque_relay_validate_config(config) }
}

pub fn new(tables: &Tables, session: [u8; 16], generation: u64, config: OpaqueRelayConfig, time: u64) -> RelayReply {
    let Tables { pending, circuits, ledger, inflight, .. } = tables;
    call!(opaque_relay_new, read pending, circuits, ledger, inflight; &session, generation, config, time)
}

pub fn handle(tables: &mut Tables, out: &mut [u32], runtime: Runtime, packet: &Packet<'_>) -> RelayReply {
    let Tables { pending, circuits, ledger, inflight, places } = tables;
    let Packet { head, source, body, endpoint, random } = packet;
    call!(opaque_relay_handle, lent pending, circuits, ledger, inflight, out;
        runtime, *places, *head, source.as_ptr(), source.len(), body.as_ptr(), body.len(),
        endpoint.as_ptr(), endpoint.len(), random.as_ptr(), random.len())
}

pub fn acknowledge(
    tables: &mut Tables,
    out: &mut [u32],
    runtime: Runtime,
    action: HnsrActionId,
    delivered: bool,
) -> RelayReply {
    let Tables { pending, circuits, inflight, places, .. } = tables;
    let HnsrActionId { generation, sequence } = action;
    call!(opaque_relay_acknowledge, lent pending, circuits, inflight, out;
        runtime, *places, generation, sequence, delivered)
}

pub fn disconnect(tables: &mut Tables, out: &mut [u32], runtime: Runtime, peer: &[u8]) -> RelayReply {
    let Tables { pending, circuits, inflight, places, .. } = tables;
    call!(opaque_relay_disconnect, lent pending, circuits, inflight, out; runtime, *places, peer.as_ptr(), peer.len())
}

pub fn revoke_reservation(tables: &mut Tables, out: &mut [u32], runtime: Runtime, id: ReservationId) -> RelayReply {
    let Tables { pending, circuits, ledger, inflight, places } = tables;
    call!(opaque_relay_revoke_reservation, lent pending, circuits, ledger, inflight, out; runtime, *places, id)
}

pub fn expire(tables: &mut Tables, out: &mut [u32], runtime: Runtime, time: u64) -> RelayReply {
    let Tables { pending, circuits, ledger, inflight, places } = tables;
    call!(opaque_relay_expire, lent pending, circuits, ledger, inflight, out; runtime, *places, time)
}

pub fn replace_enabled(
    tables: &mut Tables,
    out: &mut [u32],
    runtime: Runtime,
    generation: u64,
    enabled: bool,
) -> RelayReply {
    let Tables { pending, circuits, inflight, places, .. } = tables;
    call!(opaque_relay_replace_enabled, lent pending, circuits, inflight, out; runtime, *places, generation, enabled)
}

pub fn observe_time(runtime: Runtime, places: Places, time: u64) -> RelayReply {
    interface::checked();
    // SAFETY: numbers go in and come out, and every number is allowed.
    unsafe { opaque_relay_observe_time(runtime, places, time) }
}

pub fn status(tables: &Tables, runtime: Runtime, peer: &[u8], circuit_id: u64) -> StatusReply {
    let Tables { pending, circuits, inflight, places, .. } = tables;
    call!(opaque_relay_status, read pending, circuits, inflight;
        runtime, *places, peer.as_ptr(), peer.len(), circuit_id)
}

pub fn next_due(tables: &Tables, runtime: Runtime) -> DueReply {
    let Tables { pending, circuits, ledger, inflight, places } = tables;
    call!(opaque_relay_next_due, read pending, circuits, ledger, inflight; runtime, *places)
}

#[cfg(test)]
mod tests {
    use super::*;
    use crate::error::HnsrRuntimeError::{ClockRollback, InvalidConfig, InvalidPeer, InvalidSession, Short};
    use crate::lent::RuntimeCounters;

    /// Of limits: as many places as they ask, every mark set.
    fn found(config: &OpaqueRelayConfig) -> Tables {
        Tables {
            pending: vec![RelayPending { used: true, ..RelayPending::default() }; config.maximum_pending],
            circuits: vec![RelayCircuit { used: true, ..RelayCircuit::default() }; config.maximum_circuits],
            ledger: vec![ReservationUsage { used: true, ..ReservationUsage::default() }; 2],
            inflight: vec![InflightAction { used: true, ..InflightAction::default() }; config.maximum_inflight_actions],
            places: Places { pending: 1, circuits: 2, ledger: 3, actions: 4 },
        }
    }

    /// All zero, and switched off.
    fn no_runtime() -> Runtime {
        let config = OpaqueRelayConfig {
            maximum_pending: 0,
            maximum_circuits: 0,
            maximum_circuits_per_peer: 0,
            maximum_queue_bytes: 0,
            maximum_inflight_actions: 0,
            maximum_inflight_actions_per_circuit: 0,
            maximum_inflight_actions_per_peer: 0,
            maximum_bytes_per_circuit: 0,
            accept_timeout_seconds: 0,
        };
        Runtime {
            session: [0; 16],
            generation: 0,
            enabled: false,
            trusted_time_high_water: 0,
            config,
            next_action_sequence: 0,
            counters: RuntimeCounters::default(),
        }
    }

    #[test]
    fn a_refused_new_hands_back_a_fixed_runtime_and_every_place() {
        let config = OpaqueRelayConfig {
            maximum_pending: 2,
            maximum_circuits: 3,
            maximum_inflight_actions: 8,
            maximum_inflight_actions_per_circuit: 8,
            maximum_inflight_actions_per_peer: 8,
            ..default_config()
        };
        let wrong = OpaqueRelayConfig { accept_timeout_seconds: 0, ..config };
        let tables = found(&config);
        let without = |shorten: fn(&mut Tables)| {
            let mut tables = tables.clone();
            shorten(&mut tables);
            tables
        };
        let refused = [
            (InvalidSession, new(&tables, [0; 16], 1, config, 9)),
            (InvalidSession, new(&tables, [1; 16], 0, wrong, 9)),
            (InvalidConfig, new(&tables, [1; 16], 1, wrong, 9)),
            (Short, new(&Tables::default(), [1; 16], 1, config, 9)),
            (Short, new(&without(|tables| tables.pending.truncate(1)), [1; 16], 1, config, 9)),
            (Short, new(&without(|tables| tables.circuits.truncate(2)), [1; 16], 1, config, 9)),
            (Short, new(&without(|tables| tables.inflight.truncate(7)), [1; 16], 1, config, 9)),
            (Short, new(&without(|tables| tables.ledger.clear()), [1; 16], 1, config, 9)),
        ];
        for (refusal, reply) in refused {
            assert_eq!((reply.answer, reply.words), (refusal.number(), 0));
            assert_eq!((reply.runtime, reply.places), (no_runtime(), Places::EVERY));
        }
        let taken = new(&tables, [1; 16], 5, config, 9);
        let runtime = Runtime {
            session: [1; 16],
            generation: 5,
            enabled: true,
            trusted_time_high_water: 9,
            config,
            next_action_sequence: 1,
            ..no_runtime()
        };
        assert_eq!((taken.answer, taken.runtime, taken.places), (0, runtime, Places::NONE));
    }

    #[test]
    fn a_refused_status_tells_zeros() {
        let config = OpaqueRelayConfig {
            maximum_pending: 2,
            maximum_circuits: 3,
            maximum_inflight_actions: 8,
            ..no_runtime().config
        };
        let runtime = Runtime { generation: 5, enabled: true, config, ..no_runtime() };
        let tables = found(&config);
        let mut shorter = [tables.clone(), tables.clone(), tables.clone()];
        shorter[0].pending.pop();
        shorter[1].circuits.pop();
        shorter[2].inflight.pop();
        // 22 comes before 4
        let short = shorter.iter().flat_map(|tables| [(Short, tables, 1), (Short, tables, 0), (Short, tables, 129)]);
        for (refusal, tables, length) in short.chain([(InvalidPeer, &tables, 0), (InvalidPeer, &tables, 129)]) {
            let reply = status(tables, runtime, &[7; 129][..length], 9);
            assert_eq!(reply.answer, refusal.number());
            assert_eq!((reply.status, reply.action_capacity), (HnsrRuntimeStatus::default(), 0));
        }
        let taken = status(&tables, runtime, &[7; 128], 9);
        assert_eq!((taken.answer, taken.status.generation, taken.action_capacity), (0, 5, 0));
    }

    #[test]
    fn observe_time_hands_back_the_numbers() {
        for places in [Places::NONE, Places::EVERY, Places { pending: 1, circuits: 2, ledger: 3, actions: 4 }] {
            let runtime = Runtime { trusted_time_high_water: 5, ..no_runtime() };
            for (time, number) in [(4, ClockRollback.number()), (5, 0), (6, 0)] {
                let reply = observe_time(runtime, places, time);
                assert_eq!((reply.answer, reply.places), (number, places));
                assert_eq!(reply.runtime, Runtime { trusted_time_high_water: time.max(5), ..runtime });
            }
        }
    }
}
