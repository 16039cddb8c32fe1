//! What next due went by, and what it must not go by: which of these were met.
use crate::reading::World;
use lekchnam_host::lent::ReservationUsage;

#[derive(Clone, Copy, Debug, Eq, Ord, PartialEq, PartialOrd)]
pub enum Due {
    /// No record of the three tables is used.
    Nothing,
    /// A pending record has the earliest end, and so on; two tables may.
    Pending,
    Circuit,
    Ledger,
    /// The ledger alone has it, and it is 0.
    LedgerAtZero,
    /// The same, and it is 2^64 - 1.
    LedgerAtLast,
    /// The same, and the clock has come to it: a record that was not dropped yet.
    LedgerLapsed,
    /// A ledger record without a mark would be earlier.
    LedgerUnmarked,
    /// A ledger record at or above the number would be.
    LedgerAbove,
    /// The ledger has no place.
    NoLedger,
}

impl Due {
    pub const ALL: [Self; 10] = [
        Self::Nothing,
        Self::Pending,
        Self::Circuit,
        Self::Ledger,
        Self::LedgerAtZero,
        Self::LedgerAtLast,
        Self::LedgerLapsed,
        Self::LedgerUnmarked,
        Self::LedgerAbove,
        Self::NoLedger,
    ];

    /// All that a world shows, if its tables are not short.
    pub(super) fn of(world: &World) -> Vec<Self> {
        let Ok(told) = world.told() else { return Vec::new() };
        let (tables, clock) = (&world.tables, world.runtime.trusted_time_high_water);
        let by = |end: Option<u64>| end.is_some() && end == told.due;
        let pending = by(tables.pending().map(|pending| pending.deadline).min());
        let circuit = by(tables.circuits().map(|circuit| circuit.expires_at).min());
        let ledger = by(tables.reservations().map(|reservation| reservation.expires_at).min());
        let alone = |holds: fn(u64, u64) -> bool| {
            ledger && !pending && !circuit && told.due.is_some_and(|due| holds(due, clock))
        };
        let earlier = |usage: &ReservationUsage| told.due.is_none_or(|due| usage.expires_at < due);
        let (below, above) = tables.ledger.split_at(tables.places.ledger.min(tables.ledger.len()));
        let shown = [
            (Self::Nothing, told.due.is_none()),
            (Self::Pending, pending),
            (Self::Circuit, circuit),
            (Self::Ledger, ledger),
            (Self::LedgerAtZero, alone(|due, _| due == 0)),
            (Self::LedgerAtLast, alone(|due, _| due == u64::MAX)),
            (Self::LedgerLapsed, alone(|due, clock| due <= clock)),
            (Self::LedgerUnmarked, below.iter().any(|usage| !usage.used && earlier(usage))),
            (Self::LedgerAbove, above.iter().any(|usage| usage.used && earlier(usage))),
            (Self::NoLedger, tables.ledger.is_empty()),
        ];
        shown.into_iter().filter(|(_, holds)| *holds).map(|(due, _)| due).collect()
    }
}
