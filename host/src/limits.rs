//! The figures of the rules (docs/RULES.md), each written once: the rest of this crate, its tests, the traces and the
//! tools use these.
//!
//! The archive has the same figures in its own definitions, and the tests hold it to these. Names are those of
//! hns-hnsr-protocol where it has one.
//!
//! tools/limits.py reads this file: a value is a number, or is reckoned from the names above it by sums, products and
//! `words_of`.

/// The least bytes that a name has.
pub const MINIMUM_PEER: usize = 1;

/// The most bytes that a name has.
pub const MAXIMUM_PEER: usize = 128;

/// The most bytes of a packet, header and body together.
pub const MAX_PACKET_SIZE: usize = 65_535;

/// The bytes of a packet's header.
pub const HNSR_HEADER_SIZE: usize = 12;

/// The most bytes of a packet's body.
pub const MAX_BODY_SIZE: usize = MAX_PACKET_SIZE - HNSR_HEADER_SIZE;

/// The bytes in front of each packet of a byte stream ([`stream`](crate::stream)): the packet's size. This crate's own;
/// the relay knows of no stream.
pub const FRAME_PREFIX_SIZE: usize = 2;

/// The most bytes of a packet in a byte stream, its size in front.
pub const MAX_FRAME_SIZE: usize = FRAME_PREFIX_SIZE + MAX_PACKET_SIZE;

/// The least bytes of a DATA.
pub const MIN_DATA_SIZE: usize = 1;

/// The most bytes of a DATA.
pub const MAX_DATA_SIZE: usize = 16_384;

/// The least window that an OPEN offers or an ACCEPT takes.
pub const MIN_WINDOW: u32 = 16_384;

/// The window that hns-hnsr-protocol offers where nothing else is asked. It is no more than [`MAX_CIRCUIT_QUEUE`]: with
/// windows of this size, and a queue of the most, a sender that keeps to its window seldom meets a full queue. It can,
/// where a WINDOW overtakes the host's acknowledge.
pub const DEFAULT_WINDOW: u32 = 65_536;

/// The most window, the most that a WINDOW adds, and the most credit that a WINDOW leaves.
pub const MAX_WINDOW: u32 = 1_048_576;

/// The least that a WINDOW adds.
pub const MIN_WINDOW_CREDIT: u32 = 1;

/// The most bytes of the detail of a CLOSE or an ERROR.
pub const MAX_DETAIL_SIZE: usize = 128;

/// The longest body of a CLOSE or an ERROR of the relay's own: reason, length and "endpoint acceptance expired".
pub const LONGEST_NOTICE: usize = 30;

/// The most that a configuration may have for [`maximum_pending`](crate::OpaqueRelayConfig::maximum_pending).
pub const MAX_RUNTIME_PENDING: usize = 65_536;

/// The most for [`maximum_circuits`](crate::OpaqueRelayConfig::maximum_circuits).
pub const MAX_RUNTIME_CIRCUITS: usize = 65_536;

/// The most for [`maximum_circuits_per_peer`](crate::OpaqueRelayConfig::maximum_circuits_per_peer).
pub const MAX_CIRCUITS: u16 = 32;

/// The most for [`maximum_queue_bytes`](crate::OpaqueRelayConfig::maximum_queue_bytes).
pub const MAX_CIRCUIT_QUEUE: usize = 65_536;

/// The most for [`maximum_inflight_actions`](crate::OpaqueRelayConfig::maximum_inflight_actions).
pub const MAX_RUNTIME_INFLIGHT_ACTIONS: usize = 262_144;

/// The least for
/// [`maximum_inflight_actions_per_circuit`](crate::OpaqueRelayConfig::maximum_inflight_actions_per_circuit): the end of
/// a circuit has a route for each side.
pub const MIN_INFLIGHT_ACTIONS_PER_CIRCUIT: usize = 2;

/// The most for [`accept_timeout_seconds`](crate::OpaqueRelayConfig::accept_timeout_seconds).
pub const MAX_OPEN_DEADLINE_SECONDS: u64 = 10;

/// How many words so many bytes take.
pub const fn words_of(bytes: usize) -> usize {
    bytes.div_ceil(4)
}

/// The words of a name in a route, whatever its length.
pub const PEER_WORDS: usize = words_of(MAXIMUM_PEER);

/// The words of a route in front of its packet: kind and the name's length, generation, sequence, the name.
pub const ADDRESS_WORDS: usize = 1 + 2 + 2 + PEER_WORDS;

/// The words of a route in front of its body: those, kind with opcode and the body's length, the context.
pub const HEAD_WORDS: usize = ADDRESS_WORDS + 1 + 2;

/// The output words that [`handle`](crate::lent::handle) needs: a route with the longest DATA.
pub const HANDLE_WORDS: usize = HEAD_WORDS + words_of(MAX_DATA_SIZE);

/// The output words that [`acknowledge`](crate::lent::acknowledge) needs, and a revoking call for each used pending
/// record and circuit: two routes with the longest message of the relay's own.
pub const CLOSING_WORDS: usize = 2 * (HEAD_WORDS + words_of(LONGEST_NOTICE));
