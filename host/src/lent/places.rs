//! How many places of each table are in use.

/// How many places of each table are in use, counted from its front. A place is used exactly if its record's mark is
/// set and it lies below its table's number.
///
/// The numbers belong to the tables, and the calls keep them: a new record takes the lowest unused place, and
/// the number rises where that place is at the number; [`handle`](super::handle) may lower it past unused places
/// at the top. [`new`](super::new) sets all four to 0 and touches no table. So a call reads of a table what is
/// in use, and not all its places.
///
/// No number is ever refused. One that is larger than its table means that the marks alone decide. One that is too
/// small means that the records at and above it are unused: they are not found, not counted and not ended, and
/// later records take their places.
///
/// ```
/// use lekchnam_host::lent::{Places, Tables};
/// use lekchnam_host::{HnsrRuntimeError, OpaqueRelayConfig, OpaqueRelayRuntime, OsRandom};
///
/// let relay = OpaqueRelayRuntime::new([1; 16], 1, OpaqueRelayConfig::default(), 100)?;
/// let (runtime, tables) = relay.into_parts();
/// assert_eq!(tables.places, Places::NONE);
///
/// // A host stores the numbers with the tables. One that has only the records goes by their marks.
/// let found = Tables { places: Places::EVERY, ..tables };
/// let relay = OpaqueRelayRuntime::from_parts(runtime, found, OsRandom::default())?;
/// assert_eq!(relay.status().active_circuits, 0);
/// # Ok::<(), HnsrRuntimeError>(())
/// ```
#[repr(C)]
#[derive(Clone, Copy, Debug, Eq, PartialEq)]
pub struct Places {
    /// Of the pending records.
    pub pending: usize,
    /// Of the circuits.
    pub circuits: usize,
    /// Of the ledger.
    pub ledger: usize,
    /// Of the routes that are not acknowledged: the table [`inflight`](super::Tables::inflight).
    pub actions: usize,
}

impl Places {
    /// No place is in use, whatever its mark.
    pub const NONE: Self = Self::each(0);

    /// The marks alone decide: for tables of unknown origin.
    pub const EVERY: Self = Self::each(usize::MAX);

    const fn each(number: usize) -> Self {
        Self { pending: number, circuits: number, ledger: number, actions: number }
    }
}
