//! The four tables, and how many output words calls need over them.
use super::{InflightAction, Places, RelayCircuit, RelayPending, ReservationUsage};
use crate::config::OpaqueRelayConfig;
use crate::error::HnsrRuntimeError;
use crate::ffi::memory::{zeroed, Zeroed};
use crate::limits::{CLOSING_WORDS, HANDLE_WORDS};

/// The tables that a call is lent, and how many places of each are in use. A call may be lent any records and any
/// numbers, also such as no relay would leave.
///
/// A place is used where its mark is set and it lies below its table's number. The places behind the limits of the
/// configuration are read too. What an unused place holds does not matter.
#[derive(Clone, Debug, Eq, PartialEq)]
pub struct Tables {
    /// OPENs that wait.
    pub pending: Vec<RelayPending>,
    /// Circuits.
    pub circuits: Vec<RelayCircuit>,
    /// What reservations have used.
    pub ledger: Vec<ReservationUsage>,
    /// Routes that are not acknowledged.
    pub inflight: Vec<InflightAction>,
    /// How many places of each are in use. To be stored with the records; where it is not known, [`Places::EVERY`].
    pub places: Places,
}

/// The places of tables that lie below the numbers. Of these a place holds a record where its
/// mark is set; no other place does.
#[derive(Clone, Copy, Debug, Eq, PartialEq)]
pub struct InUse<'a> {
    /// Of the pending records.
    pub pending: &'a [RelayPending],
    /// Of the circuits.
    pub circuits: &'a [RelayCircuit],
    /// Of the ledger.
    pub ledger: &'a [ReservationUsage],
    /// Of the routes that are not acknowledged.
    pub inflight: &'a [InflightAction],
}

impl Tables {
    /// Unused places: as many as the configuration's limits, and those of the ledger, which has no limit there. 22
    /// ([`Short`](HnsrRuntimeError::Short)) where the memory for them cannot be had.
    ///
    /// The limits are taken as they are: [`validate`](OpaqueRelayConfig::validate) says whether they are within their
    /// bounds. For the ledger there is no such bound: a place of it takes 40 bytes, and an OPEN, a DATA, an
    /// [`expire`](super::expire) and a [`next_due`](super::next_due) look through those in use.
    ///
    /// The memory is asked for and not touched: the system hands it out where a record first stands. One that
    /// promises more than it has may end the process then. The marks alone decide ([`Places::EVERY`]) until
    /// [`new`](super::new), or a host that fills in stored records, sets the numbers.
    ///
    /// ```
    /// use lekchnam_host::lent::Tables;
    /// use lekchnam_host::{HnsrRuntimeError, OpaqueRelayConfig};
    ///
    /// let config = OpaqueRelayConfig::default();
    /// assert_eq!(Tables::new(&config, 100)?.ledger.len(), 100);
    /// assert_eq!(Tables::new(&config, usize::MAX), Err(HnsrRuntimeError::Short));
    /// # Ok::<(), HnsrRuntimeError>(())
    /// ```
    pub fn new(config: &OpaqueRelayConfig, ledger_places: usize) -> Result<Self, HnsrRuntimeError> {
        Ok(Self {
            ledger: unused(ledger_places)?,
            pending: unused(config.maximum_pending)?,
            circuits: unused(config.maximum_circuits)?,
            inflight: unused(config.maximum_inflight_actions)?,
            places: Places::EVERY,
        })
    }

    /// The places below the numbers: all that a host need look at, or store.
    pub fn in_use(&self) -> InUse<'_> {
        fn below<Place>(table: &[Place], number: usize) -> &[Place] {
            &table[..number.min(table.len())]
        }
        InUse {
            pending: below(&self.pending, self.places.pending),
            circuits: below(&self.circuits, self.places.circuits),
            ledger: below(&self.ledger, self.places.ledger),
            inflight: below(&self.inflight, self.places.actions),
        }
    }

    /// How many output words are enough for every call, whatever stands in these places.
    pub fn most_words(&self) -> usize {
        Self::words_for(self.pending.len(), self.circuits.len())
    }

    /// The same, by the numbers of places for OPENs and for circuits.
    pub(crate) fn words_for(pending: usize, circuits: usize) -> usize {
        HANDLE_WORDS.max(CLOSING_WORDS.saturating_mul(pending.saturating_add(circuits)))
    }
}

/// No places.
impl Default for Tables {
    fn default() -> Self {
        let (pending, circuits, ledger, inflight) = Default::default();
        Self { pending, circuits, ledger, inflight, places: Places::EVERY }
    }
}

/// So many unused places, or output words, whose memory is not touched; 22 where it cannot be had.
pub(crate) fn unused<Place: Zeroed>(places: usize) -> Result<Vec<Place>, HnsrRuntimeError> {
    zeroed(places).ok_or(HnsrRuntimeError::Short)
}
