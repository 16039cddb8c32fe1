//! The limits of a relay.
use crate::error::{answered, HnsrRuntimeError};
use crate::ffi::{self, Cause};
use crate::lent::{InflightAction, RelayCircuit, RelayPending, ReservationUsage, Tables};
use crate::limits::*;

/// Of a DATA for which [`OpaqueRelayConfig::for_peers`] has a full queue's worth of routes.
const USUAL_DATA: usize = 4_096;

/// The limits of a relay. Defaults and ceilings are the archive's, and the Rust's.
#[repr(C)]
#[derive(Clone, Copy, Debug, Eq, PartialEq)]
pub struct OpaqueRelayConfig {
    /// How many OPENs may wait for their ACCEPT: 1 to [`MAX_RUNTIME_PENDING`].
    pub maximum_pending: usize,
    /// How many circuits there may be: 1 to [`MAX_RUNTIME_CIRCUITS`].
    pub maximum_circuits: usize,
    /// How many of both may have one peer as a side: 1 to [`MAX_CIRCUITS`]. That is 32, for every configuration; a
    /// party that needs more connects more than once, under a name for each connection.
    pub maximum_circuits_per_peer: u16,
    /// How many bytes of DATA may be unacknowledged toward each side of a circuit: 1 to [`MAX_CIRCUIT_QUEUE`]. Where a
    /// window is larger, a sender that keeps to its window is refused with 17 all the same once the queue is full.
    /// Below [`MAX_DATA_SIZE`] a DATA that is longer than the queue never passes.
    pub maximum_queue_bytes: usize,
    /// How many routes may be unacknowledged: 1 to [`MAX_RUNTIME_INFLIGHT_ACTIONS`].
    pub maximum_inflight_actions: usize,
    /// How many of them about one circuit: from [`MIN_INFLIGHT_ACTIONS_PER_CIRCUIT`] on.
    pub maximum_inflight_actions_per_circuit: usize,
    /// How many of them toward one peer: no fewer than for a circuit.
    pub maximum_inflight_actions_per_peer: usize,
    /// How many bytes a circuit may pass, if its grant has no lower limit: from 1 on.
    pub maximum_bytes_per_circuit: u64,
    /// How many seconds an ACCEPT may take: 1 to [`MAX_OPEN_DEADLINE_SECONDS`].
    pub accept_timeout_seconds: u64,
}

impl OpaqueRelayConfig {
    /// The limits for so many peers at once, each within its bounds: [`validate`](Self::validate) takes them, whatever
    /// the number.
    ///
    /// - Every peer may have its [`MAX_CIRCUITS`] circuits, 32. A circuit has two sides, so there are 16 for each peer,
    ///   and as many OPENs may wait: neither table is full before its peers are. From 4,096 peers on the ceiling of
    ///   65,536 is the limit.
    /// - Of each circuit 32 routes may be unacknowledged: a full queue each way in DATA of 4,096 bytes. With all
    ///   circuits that makes 512 for each peer. From 512 peers on the ceiling of 262,144 is the limit, and the peers
    ///   share it.
    /// - The rest is the default's. Fewer than two peers count as two.
    ///
    /// | peers | circuits, OPENs | routes | [`memory_bytes`](Self::memory_bytes) |
    /// |---|---|---|---|
    /// | 10 | 160 | 5,120 | 1.2 MB |
    /// | 100 | 1,600 | 51,200 | 11.9 MB |
    /// | 1,000 | 16,000 | 262,144 | 73.3 MB |
    ///
    /// A limit costs address space; memory is touched as records come. What a call costs goes with what is in use, and
    /// not with the limits: it looks through the OPENs, circuits, reservations and routes that there are. So routes
    /// should be acknowledged as soon as they are written: DATA took 1 microsecond with 256 routes
    /// unacknowledged, 4 with 1,024, and 107 with 16,384, on the machine of docs/BENCHMARKS.md.
    ///
    /// ```
    /// use lekchnam_host::OpaqueRelayConfig;
    ///
    /// let rows = [10, 100, 1_000].map(OpaqueRelayConfig::for_peers);
    /// assert_eq!(rows.map(|config| config.maximum_circuits), [160, 1_600, 16_000]);
    /// assert_eq!(rows.map(|config| config.maximum_inflight_actions), [5_120, 51_200, 262_144]);
    /// assert_eq!(rows.map(|config| config.memory_bytes()), [1_192_960, 11_929_600, 73_322_496]);
    /// assert!(OpaqueRelayConfig::for_peers(usize::MAX).validate().is_ok());
    /// ```
    pub fn for_peers(peers: usize) -> Self {
        let of_peer = usize::from(MAX_CIRCUITS);
        let circuits = peers.max(2).saturating_mul(of_peer) / 2;
        let of_circuit = 2 * MAX_CIRCUIT_QUEUE / USUAL_DATA;
        Self {
            maximum_pending: circuits.min(MAX_RUNTIME_PENDING),
            maximum_circuits: circuits.min(MAX_RUNTIME_CIRCUITS),
            maximum_circuits_per_peer: MAX_CIRCUITS,
            maximum_inflight_actions: circuits.saturating_mul(of_circuit).min(MAX_RUNTIME_INFLIGHT_ACTIONS),
            maximum_inflight_actions_per_circuit: of_circuit,
            maximum_inflight_actions_per_peer: of_peer * of_circuit,
            ..Self::default()
        }
    }

    /// The bytes that a relay of these limits asks for, tables and output words, with
    /// [`ledger_places`](Self::ledger_places) in its ledger; the largest number where they are more than that. They are
    /// asked for once, and touched as records come.
    pub fn memory_bytes(&self) -> usize {
        [
            (self.maximum_pending, size_of::<RelayPending>()),
            (self.maximum_circuits, size_of::<RelayCircuit>()),
            (self.ledger_places(), size_of::<ReservationUsage>()),
            (self.maximum_inflight_actions, size_of::<InflightAction>()),
            (Tables::words_for(self.maximum_pending, self.maximum_circuits), size_of::<u32>()),
        ]
        .into_iter()
        .fold(0, |bytes, (count, size)| bytes.saturating_add(count.saturating_mul(size)))
    }

    /// The configuration, or 2 where a limit is out of its bounds.
    pub fn validate(self) -> Result<Self, HnsrRuntimeError> {
        answered(ffi::relay::validate_config(self), Cause::NONE).map(|()| self)
    }

    /// The ledger's places where a host names no number: one for each pending record and each circuit that there may
    /// be.
    ///
    /// A reservation keeps its place from its first OPEN until it ends or is revoked, also while it has no circuit. A
    /// host that admits OPENs under more reservations at once gives the ledger as many places; else the next OPEN
    /// under a new one is refused with 23.
    pub fn ledger_places(&self) -> usize {
        self.maximum_pending.saturating_add(self.maximum_circuits)
    }
}

impl Default for OpaqueRelayConfig {
    fn default() -> Self {
        ffi::relay::default_config()
    }
}
