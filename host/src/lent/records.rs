//! The records of the four tables, as the archive has them. An id is a number whose highest byte is the first on the
//! wire. Zero bytes are an unused record: `ffi::memory` goes by that.
use crate::config::OpaqueRelayConfig;
use crate::limits::MAXIMUM_PEER;
use std::fmt::{self, Display, Formatter};
use std::hash::{Hash, Hasher};

/// A reservation's sixteen bytes: ordered as the bytes are, and shown in hexadecimal.
///
/// ```
/// use lekchnam_host::lent::ReservationId;
///
/// let id = ReservationId::from(*b"\x00\x01reservation \xff\xfe");
/// assert_eq!(id.to_string(), "00017265736572766174696f6e20fffe");
/// assert!(id < ReservationId::from([1; 16]));
/// ```
#[repr(C)]
#[derive(Clone, Copy, Debug, Default, Eq, Hash, Ord, PartialEq, PartialOrd)]
pub struct ReservationId {
    /// The first eight.
    pub high: u64,
    /// The other eight.
    pub low: u64,
}

impl From<[u8; 16]> for ReservationId {
    fn from(bytes: [u8; 16]) -> Self {
        let number = u128::from_be_bytes(bytes);
        Self { high: (number >> 64) as u64, low: number as u64 }
    }
}

impl From<ReservationId> for [u8; 16] {
    fn from(id: ReservationId) -> Self {
        (u128::from(id.high) << 64 | u128::from(id.low)).to_be_bytes()
    }
}

impl Display for ReservationId {
    fn fmt(&self, f: &mut Formatter<'_>) -> fmt::Result {
        f.pad(&format!("{:016x}{:016x}", self.high, self.low))
    }
}

/// A peer's name in a record. What stands behind the name is not read, and two are equal where their names
/// are, as they are to the relay.
///
/// ```
/// use lekchnam_host::lent::StoredPeer;
/// use lekchnam_host::MAXIMUM_PEER;
///
/// let long = StoredPeer { len: MAXIMUM_PEER, bytes: [7; MAXIMUM_PEER] };
/// assert_eq!(long, StoredPeer { len: usize::MAX, ..long });
/// assert_eq!(StoredPeer { len: 0, ..long }, StoredPeer::default());
/// assert_ne!(long, StoredPeer { len: MAXIMUM_PEER - 1, ..long });
/// ```
#[repr(C)]
#[derive(Clone, Copy, Debug)]
pub struct StoredPeer {
    /// How long the name is; over [`MAXIMUM_PEER`] reads as that.
    pub len: usize,
    /// The name, and zeros behind it where the relay stored it.
    pub bytes: [u8; MAXIMUM_PEER],
}

impl StoredPeer {
    /// The name.
    pub fn as_bytes(&self) -> &[u8] {
        &self.bytes[..self.len.min(MAXIMUM_PEER)]
    }
}

impl PartialEq for StoredPeer {
    fn eq(&self, other: &Self) -> bool {
        self.as_bytes() == other.as_bytes()
    }
}

impl Eq for StoredPeer {}

impl Hash for StoredPeer {
    fn hash<H: Hasher>(&self, state: &mut H) {
        self.as_bytes().hash(state);
    }
}

impl Default for StoredPeer {
    fn default() -> Self {
        Self { len: 0, bytes: [0; MAXIMUM_PEER] }
    }
}

/// What the relay reads of the ticket that an OPEN goes by.
#[repr(C)]
#[derive(Clone, Copy, Debug, Default, Eq, PartialEq)]
pub struct RelayTicket {
    /// The reservation.
    pub reservation_id: ReservationId,
    /// When it ends.
    pub expires_at: u64,
    /// How many circuits it may have at once.
    pub max_active_circuits: u16,
    /// How many bytes each circuit may pass.
    pub max_bytes_per_circuit: u64,
    /// How many bytes all its circuits together may pass.
    pub max_total_bytes: u64,
}

/// An OPEN that waits for its ACCEPT.
#[repr(C)]
#[derive(Clone, Copy, Debug, Default, Eq, PartialEq)]
pub struct RelayPending {
    /// The mark: the place holds a record, if it lies below its table's number.
    pub used: bool,
    /// The id that the circuit is to have.
    pub circuit_id: u64,
    /// Who asks.
    pub requester: StoredPeer,
    /// Who is asked.
    pub endpoint: StoredPeer,
    /// The context of the OPEN.
    pub requester_context: u64,
    /// The ticket that it goes by.
    pub ticket: RelayTicket,
    /// The window that the requester offers.
    pub initial_window: u32,
    /// Until when the ACCEPT may come.
    pub deadline: u64,
}

/// A circuit.
#[repr(C)]
#[derive(Clone, Copy, Debug, Default, Eq, PartialEq)]
pub struct RelayCircuit {
    /// The mark: the place holds a record, if it lies below its table's number.
    pub used: bool,
    /// Its id.
    pub circuit_id: u64,
    /// The side that asked for it.
    pub requester: StoredPeer,
    /// The side that took it.
    pub endpoint: StoredPeer,
    /// The reservation that it goes by.
    pub reservation_id: ReservationId,
    /// When it ends.
    pub expires_at: u64,
    /// How many bytes it may pass.
    pub maximum_bytes: u64,
    /// How many bytes all circuits of its reservation may pass.
    pub maximum_total_bytes: u64,
    /// How much the requester may send now.
    pub requester_credit: u32,
    /// How much the endpoint may send now.
    pub endpoint_credit: u32,
    /// How many bytes it has passed.
    pub forwarded_bytes: u64,
    /// Bytes toward the requester that are not acknowledged.
    pub queued_to_requester: usize,
    /// Bytes toward the endpoint that are not acknowledged.
    pub queued_to_endpoint: usize,
}

/// A record of the ledger: what the circuits of a reservation have passed.
#[repr(C)]
#[derive(Clone, Copy, Debug, Default, Eq, PartialEq)]
pub struct ReservationUsage {
    /// The mark: the place holds a record, if it lies below its table's number.
    pub used: bool,
    /// The reservation.
    pub reservation_id: ReservationId,
    /// The bytes.
    pub bytes: u64,
    /// When the reservation ends.
    pub expires_at: u64,
}

/// A route that is not acknowledged.
#[repr(C)]
#[derive(Clone, Copy, Debug, Default, Eq, PartialEq)]
pub struct InflightAction {
    /// The mark: the place holds a record, if it lies below its table's number.
    pub used: bool,
    /// The generation that wrote the route.
    pub generation: u64,
    /// Its number in that generation.
    pub sequence: u64,
    /// The circuit that it is about.
    pub circuit_id: u64,
    /// Where it goes.
    pub destination: StoredPeer,
    /// 0 Incoming, 1 Opened, 2 Data, 3 Control, anything else Close.
    pub kind: u8,
    /// Of Data: whether it goes to the endpoint.
    pub to_endpoint: bool,
    /// Of Data: how many bytes.
    pub bytes: usize,
}

/// What was counted since `new`.
#[repr(C)]
#[derive(Clone, Copy, Debug, Default, Eq, PartialEq)]
pub struct RuntimeCounters {
    /// OPENs taken.
    pub admitted_opens: u64,
    /// ACCEPTs taken.
    pub opened_circuits: u64,
    /// Bytes of DATA sent on.
    pub bytes_sent: u64,
    /// Bytes of DATA received.
    pub bytes_received: u64,
    /// Pending records and circuits that ended, but for ACCEPTs.
    pub revoked_work: u64,
}

/// What a host keeps beside the tables: the archive's `OpaqueRelayRuntime`.
#[repr(C)]
#[derive(Clone, Copy, Debug, Eq, PartialEq)]
pub struct Runtime {
    /// The process that it was made in.
    pub session: [u8; 16],
    /// Raised by each change of `enabled`.
    pub generation: u64,
    /// Whether packets are taken.
    pub enabled: bool,
    /// The latest time that was seen.
    pub trusted_time_high_water: u64,
    /// The limits.
    pub config: OpaqueRelayConfig,
    /// The number of the next route.
    pub next_action_sequence: u64,
    /// What was counted.
    pub counters: RuntimeCounters,
}

/// A packet but for its body, the clock, and what the host says of an OPEN.
#[repr(C)]
#[derive(Clone, Copy, Debug, Default, Eq, PartialEq)]
pub struct RelayPacket {
    /// The message.
    pub opcode: u8,
    /// The context.
    pub context_id: u64,
    /// The clock.
    pub now: u64,
    /// Of an OPEN: whether the endpoint's key is valid.
    pub key_valid: bool,
    /// Of an OPEN: whether it is admitted.
    pub admitted: bool,
    /// Of an OPEN that is admitted: its grant.
    pub ticket: RelayTicket,
}
