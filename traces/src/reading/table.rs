//! Tables as they are lent (TAB).
//!
//! A place is used exactly if its mark is set and it lies below the number that goes with its table (TAB.1). A lookup
//! goes by TAB.4, a count by TAB.5.
use lekchnam_host::lent::{InflightAction, RelayCircuit, RelayPending, ReservationUsage, Tables};

/// What stands in a place of one of the tables.
pub trait Record: Sized + 'static {
    fn marked(&self) -> bool;
    fn unmark(&mut self);

    /// Its table, and the number that goes with it.
    fn table(tables: &Tables) -> (&[Self], usize);
    fn table_mut(tables: &mut Tables) -> (&mut [Self], &mut usize);
}

macro_rules! record {
    ($($name:ident in $table:ident by $number:ident;)+) => {
        $(impl Record for $name {
            fn marked(&self) -> bool {
                self.used
            }

            fn unmark(&mut self) {
                self.used = false;
            }

            fn table(tables: &Tables) -> (&[Self], usize) {
                (&tables.$table, tables.places.$number)
            }

            fn table_mut(tables: &mut Tables) -> (&mut [Self], &mut usize) {
                (&mut tables.$table, &mut tables.places.$number)
            }
        })+
    };
}

record! {
    RelayPending in pending by pending;
    RelayCircuit in circuits by circuits;
    ReservationUsage in ledger by ledger;
    InflightAction in inflight by actions;
}

/// The used places and their records.
pub fn used<R: Record>(tables: &Tables) -> impl Iterator<Item = (usize, &R)> {
    let (records, number) = R::table(tables);
    records.iter().enumerate().filter(move |(place, record)| record.marked() && *place < number)
}

/// The lowest used place that has the property.
pub fn lowest<R: Record>(tables: &Tables, has: impl Fn(&R) -> bool) -> Option<usize> {
    used(tables).find(|(_, record)| has(record)).map(|(place, _)| place)
}

pub fn count<R: Record>(tables: &Tables, has: impl Fn(&R) -> bool) -> usize {
    used(tables).filter(|(_, record)| has(record)).count()
}

/// The lowest place that is not used.
fn unused<R: Record>(tables: &Tables) -> Option<usize> {
    let (records, number) = R::table(tables);
    records.iter().enumerate().position(|(place, record)| !record.marked() || place >= number)
}

/// TAB.6. A place at the number raises it.
pub fn put<R: Record>(tables: &mut Tables, same: impl Fn(&R) -> bool, record: R) {
    let place = lowest(tables, same).or_else(|| unused::<R>(tables)).expect("a limit is reached before the places are");
    let (records, number) = R::table_mut(tables);
    records[place] = record;
    if place == *number {
        *number += 1;
    }
}

pub fn drop_all<R: Record>(tables: &mut Tables, has: impl Fn(&R) -> bool) {
    let (records, number) = R::table_mut(tables);
    records.iter_mut().take(*number).filter(|record| record.marked() && has(record)).for_each(R::unmark);
}

/// TAB.8: the next record with the property above the last that was taken.
pub fn next<R: Record>(
    tables: &Tables,
    id: impl Fn(&R) -> u64,
    has: impl Fn(&R) -> bool,
    last: Option<(u64, usize)>,
) -> Option<(u64, usize)> {
    let having = used(tables).filter(|(_, record)| has(record));
    having.map(|(place, record)| (id(record), place)).filter(|key| last.is_none_or(|last| *key > last)).min()
}
