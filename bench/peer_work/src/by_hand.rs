//! The count in plain Rust.
use lekchnam_host::MAXIMUM_PEER;
use lekchnam_host::lent::{RelayCircuit, RelayPending, StoredPeer};

pub fn by_hand(pending: &[RelayPending], circuits: &[RelayCircuit], peer: &StoredPeer) -> usize {
    let is = |side: &StoredPeer| name(side) == name(peer);
    let waiting = pending.iter().filter(|row| row.used && (is(&row.requester) || is(&row.endpoint)));
    let running = circuits.iter().filter(|row| row.used && (is(&row.requester) || is(&row.endpoint)));
    waiting.count() + running.count()
}

/// A length over the most reads as the most, and what stands behind the name is not read.
fn name(peer: &StoredPeer) -> &[u8] {
    &peer.bytes[..peer.len.min(MAXIMUM_PEER)]
}
