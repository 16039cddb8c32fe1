//! The three ways and a count by hand, over tables by chance.
use lekchnam_host::MAXIMUM_PEER;
use lekchnam_host::lent::{RelayCircuit, RelayPending, StoredPeer};
use lekchnam_peer_work::{Way, by_hand};
use lekchnam_traces::rng::Rng;

const TABLES: usize = 40_000;
/// The most places of a table.
const PLACES: u64 = 12;
/// The longest length that a record is given: many are over what a name may have.
const LONGEST: u64 = 300;

#[test]
fn every_way_counts_as_by_hand() {
    let mut rng = Rng::new(1);
    let (mut none, mut some, mut records) = (0, 0, 0);
    for table in 0..TABLES {
        let peer = any_name(&mut rng);
        let pending: Vec<_> = (0..rng.below(PLACES + 1)).map(|_| pending(&mut rng, &peer)).collect();
        let circuits: Vec<_> = (0..rng.below(PLACES + 1)).map(|_| circuit(&mut rng, &peer)).collect();
        let expected = by_hand(&pending, &circuits, &peer);
        for way in Way::ALL {
            assert_eq!(way.count(&pending, &circuits, &peer), expected, "{way:?}, table {table}");
        }
        *if expected == 0 { &mut none } else { &mut some } += 1;
        records += expected;
    }
    // both are met often, and it is not always all or nothing
    assert!(none > TABLES / 50 && some > TABLES / 2 && records > 2 * TABLES, "{none} {some} {records}");
    println!("compared with a count by hand: {TABLES} pairs of tables, by three ways");
}

fn pending(rng: &mut Rng, peer: &StoredPeer) -> RelayPending {
    RelayPending {
        used: rng.chance(75),
        circuit_id: rng.draw(),
        requester: near(rng, peer),
        endpoint: near(rng, peer),
        ..RelayPending::default()
    }
}

fn circuit(rng: &mut Rng, peer: &StoredPeer) -> RelayCircuit {
    RelayCircuit {
        used: rng.chance(75),
        circuit_id: rng.draw(),
        requester: near(rng, peer),
        endpoint: near(rng, peer),
        ..RelayCircuit::default()
    }
}

fn any_name(rng: &mut Rng) -> StoredPeer {
    let len = if rng.chance(30) { *rng.pick(&[0, 1, 7, 8, 12, 16, 127, 128, 129, 300]) } else { rng.range(0, LONGEST) };
    StoredPeer { len: len as usize, bytes: rng.bytes() }
}

/// Mostly a name like the peer's: the same, or another by a byte or by its length, with any bytes behind it.
fn near(rng: &mut Rng, peer: &StoredPeer) -> StoredPeer {
    let mut near = *peer;
    let end = peer.len.min(MAXIMUM_PEER);
    near.bytes[end..].fill_with(|| rng.byte());
    match rng.below(6) {
        0 => {}
        1 => near.bytes[rng.below(MAXIMUM_PEER as u64) as usize] ^= 1 << rng.below(8),
        // the last byte of the name, or the first behind it
        2 => near.bytes[if rng.chance(50) { end.saturating_sub(1) } else { end.min(MAXIMUM_PEER - 1) }] ^= 1,
        3 => near.len = peer.len.saturating_sub(1) + 2 * rng.below(2) as usize,
        // over the most, so that it is the same name or a longer one
        4 => near.len = rng.range(MAXIMUM_PEER as u64, LONGEST) as usize,
        _ => near = any_name(rng),
    }
    near
}
