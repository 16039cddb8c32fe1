//! A sample of every struct that passes: as the archive defines it (crates/lekchnam/specs/Interface.antt), written out
//! a second time.
use crate::config::OpaqueRelayConfig;
use crate::ffi::body::{AcceptBody, IncomingBody, OpenBody, OpenedBody, ReasonDetail, WindowBody};
use crate::ffi::relay::{DueReply, RelayReply, StatusReply};
use crate::ffi::Cause;
use crate::lent::{
    InflightAction, Places, RelayCircuit, RelayPacket, RelayPending, RelayTicket, ReservationId, ReservationUsage,
    Runtime, RuntimeCounters, StoredPeer,
};
use crate::limits::MAXIMUM_PEER;
use crate::status::HnsrRuntimeStatus;

/// One of each struct that passes, alone or in another; but for the answers of readers and writers, which are a cause
/// and a body or bytes each.
#[repr(C)]
pub struct Layout {
    pub pending: RelayPending,
    pub circuit: RelayCircuit,
    pub usage: ReservationUsage,
    pub action: InflightAction,
    pub packet: RelayPacket,
    pub reply: RelayReply,
    pub status_reply: StatusReply,
    pub due_reply: DueReply,
    pub open_body: OpenBody,
    pub incoming_body: IncomingBody,
    pub accept_body: AcceptBody,
    pub opened_body: OpenedBody,
    pub window_body: WindowBody,
    pub reason_detail: ReasonDetail,
}

/// Each field has a number of its own, with the highest bit of its width set. Of two `bool`s in a record one is true.
pub static SAMPLE: Layout = Layout {
    pending: RelayPending {
        used: true,
        circuit_id: 0x8000_0000_0000_0002,
        requester: StoredPeer { len: 0x8000_0000_0000_0003, bytes: [0x84; MAXIMUM_PEER] },
        endpoint: StoredPeer { len: 0x8000_0000_0000_0005, bytes: [0x86; MAXIMUM_PEER] },
        requester_context: 0x8000_0000_0000_0007,
        ticket: RelayTicket {
            reservation_id: ReservationId { high: 0x8000_0000_0000_0008, low: 0x8000_0000_0000_0009 },
            expires_at: 0x8000_0000_0000_000a,
            max_active_circuits: 0x800b,
            max_bytes_per_circuit: 0x8000_0000_0000_000c,
            max_total_bytes: 0x8000_0000_0000_000d,
        },
        initial_window: 0x8000_000e,
        deadline: 0x8000_0000_0000_000f,
    },
    circuit: RelayCircuit {
        used: true,
        circuit_id: 0x8000_0000_0000_0011,
        requester: StoredPeer { len: 0x8000_0000_0000_0012, bytes: [0x93; MAXIMUM_PEER] },
        endpoint: StoredPeer { len: 0x8000_0000_0000_0014, bytes: [0x95; MAXIMUM_PEER] },
        reservation_id: ReservationId { high: 0x8000_0000_0000_0016, low: 0x8000_0000_0000_0017 },
        expires_at: 0x8000_0000_0000_0018,
        maximum_bytes: 0x8000_0000_0000_0019,
        maximum_total_bytes: 0x8000_0000_0000_001a,
        requester_credit: 0x8000_001b,
        endpoint_credit: 0x8000_001c,
        forwarded_bytes: 0x8000_0000_0000_001d,
        queued_to_requester: 0x8000_0000_0000_001e,
        queued_to_endpoint: 0x8000_0000_0000_001f,
    },
    usage: ReservationUsage {
        used: true,
        reservation_id: ReservationId { high: 0x8000_0000_0000_0021, low: 0x8000_0000_0000_0022 },
        bytes: 0x8000_0000_0000_0023,
        expires_at: 0x8000_0000_0000_0024,
    },
    action: InflightAction {
        used: true,
        generation: 0x8000_0000_0000_0026,
        sequence: 0x8000_0000_0000_0027,
        circuit_id: 0x8000_0000_0000_0028,
        destination: StoredPeer { len: 0x8000_0000_0000_0029, bytes: [0xaa; MAXIMUM_PEER] },
        kind: 0xab,
        to_endpoint: false,
        bytes: 0x8000_0000_0000_002d,
    },
    packet: RelayPacket {
        opcode: 0xae,
        context_id: 0x8000_0000_0000_002f,
        now: 0x8000_0000_0000_0030,
        key_valid: true,
        admitted: false,
        ticket: RelayTicket {
            reservation_id: ReservationId { high: 0x8000_0000_0000_0033, low: 0x8000_0000_0000_0034 },
            expires_at: 0x8000_0000_0000_0035,
            max_active_circuits: 0x8036,
            max_bytes_per_circuit: 0x8000_0000_0000_0037,
            max_total_bytes: 0x8000_0000_0000_0038,
        },
    },
    reply: RelayReply {
        answer: 0x8000_0050,
        cause: Cause { kind: 0x8000_0051, first: 0x8000_0000_0000_0052, second: 0x8000_0000_0000_0053 },
        words: 0x8000_0000_0000_0054,
        runtime: Runtime {
            session: [0xb9; 16],
            generation: 0x8000_0000_0000_003a,
            enabled: true,
            trusted_time_high_water: 0x8000_0000_0000_003c,
            config: OpaqueRelayConfig {
                maximum_pending: 0x8000_0000_0000_003d,
                maximum_circuits: 0x8000_0000_0000_003e,
                maximum_circuits_per_peer: 0x803f,
                maximum_queue_bytes: 0x8000_0000_0000_0040,
                maximum_inflight_actions: 0x8000_0000_0000_0041,
                maximum_inflight_actions_per_circuit: 0x8000_0000_0000_0042,
                maximum_inflight_actions_per_peer: 0x8000_0000_0000_0043,
                maximum_bytes_per_circuit: 0x8000_0000_0000_0044,
                accept_timeout_seconds: 0x8000_0000_0000_0045,
            },
            next_action_sequence: 0x8000_0000_0000_0046,
            counters: RuntimeCounters {
                admitted_opens: 0x8000_0000_0000_0047,
                opened_circuits: 0x8000_0000_0000_0048,
                bytes_sent: 0x8000_0000_0000_0049,
                bytes_received: 0x8000_0000_0000_004a,
                revoked_work: 0x8000_0000_0000_004b,
            },
        },
        places: Places {
            pending: 0x8000_0000_0000_004c,
            circuits: 0x8000_0000_0000_004d,
            ledger: 0x8000_0000_0000_004e,
            actions: 0x8000_0000_0000_004f,
        },
    },
    status_reply: StatusReply {
        answer: 0x8000_0055,
        status: HnsrRuntimeStatus {
            generation: 0x8000_0000_0000_0056,
            enabled: true,
            pending_circuits: 0x8000_0000_0000_0058,
            active_circuits: 0x8000_0000_0000_0059,
            queued_bytes: 0x8000_0000_0000_005a,
            queued_actions: 0x8000_0000_0000_005b,
            trusted_time_high_water: 0x8000_0000_0000_005c,
            admitted_opens: 0x8000_0000_0000_005d,
            opened_circuits: 0x8000_0000_0000_005e,
            bytes_sent: 0x8000_0000_0000_005f,
            bytes_received: 0x8000_0000_0000_0060,
            revoked_work: 0x8000_0000_0000_0061,
        },
        action_capacity: 0x8000_0000_0000_0079,
    },
    due_reply: DueReply { answer: 0x8000_0062, some: true, due: 0x8000_0000_0000_0064 },
    open_body: OpenBody {
        ticket_id: [0xe5; 32],
        reservation_id: ReservationId { high: 0x8000_0000_0000_0066, low: 0x8000_0000_0000_0067 },
        endpoint_key: [0xe8; 33],
        profile: 0x8069,
        requester_nonce: [0xea; 16],
        initial_window: 0x8000_006b,
    },
    incoming_body: IncomingBody {
        ticket_id: [0xec; 32],
        open_request_id: 0x8000_0000_0000_006d,
        profile: 0x806e,
        requester_nonce: [0xef; 16],
        initial_window: 0x8000_0070,
    },
    accept_body: AcceptBody { accepted_window: 0x8000_0071, endpoint_nonce: [0xf2; 16] },
    opened_body: OpenedBody {
        circuit_id: 0x8000_0000_0000_0073,
        accepted_window: 0x8000_0074,
        endpoint_nonce: [0xf5; 16],
    },
    window_body: WindowBody { credit_delta: 0x8000_0076 },
    reason_detail: ReasonDetail { reason: 0x8077, detail_length: 0x8000_0000_0000_0078 },
};
