//! The C functions of libpeer_work.a. A slice is passed as its pointer and its length.
use lekchnam_host::lent::{RelayCircuit, RelayPending, StoredPeer};

/// All ways have one signature.
macro_rules! ways {
    ($($way:ident),*) => {
        unsafe extern "C" {
            $(pub fn $way(
                pending: *const RelayPending,
                pending_places: usize,
                circuits: *const RelayCircuit,
                circuit_places: usize,
                peer: StoredPeer,
            ) -> usize;)*
        }
    };
}

ways!(peer_work_in_place, peer_work_copying, peer_work_bytewise);
