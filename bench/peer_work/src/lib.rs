//! One peer's work: the pending records and the circuits that it is a side of, counted by the three proved functions of
//! crates/peer_work, and by hand.
mod by_hand;
mod ffi;

pub use by_hand::by_hand;

use lekchnam_host::lent::{RelayCircuit, RelayPending, StoredPeer};

/// How the work is counted.
#[derive(Clone, Copy, Debug, Eq, PartialEq)]
pub enum Way {
    /// As the relay does it: names are compared where they stand.
    InPlace,
    /// Records are copied, and names compared in the same way.
    Copying,
    /// As it was before: records are copied, and names compared byte by byte.
    Bytewise,
}

impl Way {
    pub const ALL: [Self; 3] = [Self::InPlace, Self::Copying, Self::Bytewise];

    pub fn count(self, pending: &[RelayPending], circuits: &[RelayCircuit], peer: &StoredPeer) -> usize {
        let function = match self {
            Self::InPlace => ffi::peer_work_in_place,
            Self::Copying => ffi::peer_work_copying,
            Self::Bytewise => ffi::peer_work_bytewise,
        };
        // SAFETY: both slices stand while it runs, it writes to none, and the layouts are those of the host.
        unsafe { function(pending.as_ptr(), pending.len(), circuits.as_ptr(), circuits.len(), *peer) }
    }
}
