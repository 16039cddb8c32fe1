//! What a relay tells of itself.
use std::fmt::{self, Display, Formatter};

/// What a relay tells of itself, without names. Shown, it is three lines: the relay, what there is now, and what there
/// was since `new`. By default all is zero.
///
/// ```
/// use lekchnam_host::HnsrRuntimeStatus;
///
/// let status = HnsrRuntimeStatus { generation: 1, enabled: true, active_circuits: 2, ..HnsrRuntimeStatus::default() };
/// assert_eq!(
///     status.to_string(),
///     "relay on, generation 1, time 0\n\
///      now: 0 waiting, 2 open, 0 actions queued, 0 bytes queued\n\
///      so far: 0 asked, 0 opened, 0 ended, 0 bytes received, 0 sent on"
/// );
/// ```
#[repr(C)]
#[derive(Clone, Copy, Debug, Default, Eq, PartialEq)]
pub struct HnsrRuntimeStatus {
    /// Raised by each change of `enabled`.
    pub generation: u64,
    /// Whether packets are taken.
    pub enabled: bool,
    /// OPENs that wait for their ACCEPT.
    pub pending_circuits: usize,
    /// Circuits.
    pub active_circuits: usize,
    /// Bytes of DATA that are not acknowledged.
    pub queued_bytes: usize,
    /// Routes that are not acknowledged.
    pub queued_actions: usize,
    /// The latest time that was seen.
    pub trusted_time_high_water: u64,
    /// OPENs taken since `new`.
    pub admitted_opens: u64,
    /// ACCEPTs taken since `new`.
    pub opened_circuits: u64,
    /// Bytes of DATA sent on since `new`.
    pub bytes_sent: u64,
    /// Bytes of DATA received since `new`.
    pub bytes_received: u64,
    /// Pending records and circuits that ended since `new`, but for ACCEPTs.
    pub revoked_work: u64,
}

/// What [`lent::status`](crate::lent::status) tells, asked about a peer and a circuit.
#[derive(Clone, Copy, Debug, Default, Eq, PartialEq)]
pub struct StatusTold {
    /// The relay's counts, whoever is asked about.
    pub status: HnsrRuntimeStatus,
    /// How many more routes fit, toward the peer and about the circuit.
    pub action_capacity: usize,
}

impl Display for HnsrRuntimeStatus {
    fn fmt(&self, f: &mut Formatter<'_>) -> fmt::Result {
        let state = if self.enabled { "on" } else { "off" };
        writeln!(f, "relay {state}, generation {}, time {}", self.generation, self.trusted_time_high_water)?;
        writeln!(
            f,
            "now: {} waiting, {} open, {} actions queued, {} bytes queued",
            self.pending_circuits, self.active_circuits, self.queued_actions, self.queued_bytes
        )?;
        write!(
            f,
            "so far: {} asked, {} opened, {} ended, {} bytes received, {} sent on",
            self.admitted_opens, self.opened_circuits, self.revoked_work, self.bytes_received, self.bytes_sent
        )
    }
}
