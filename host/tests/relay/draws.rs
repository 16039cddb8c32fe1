//! The drawing of ids.
use crate::fixture::{grant, open, peer, relay_drawing, small, START};
use lekchnam_host::lent::{Places, RelayPending};
use lekchnam_host::{
    Admission, HnsrOpcode, HnsrPacket, HnsrRuntimeError, OpaqueRelayRuntime, OsRandom, RandomSource, RANDOM_BYTES,
};
use std::cell::Cell;
use std::io;
use std::rc::Rc;

const TAKEN: u64 = 7;
const FRESH: u64 = 9;

/// Answers with these draws, as far as there is room.
fn drawing(draws: Vec<u64>) -> impl FnMut(&mut [u8]) -> usize {
    let bytes: Vec<u8> = draws.into_iter().flat_map(u64::to_be_bytes).collect();
    move |room: &mut [u8]| {
        let count = bytes.len().min(room.len());
        room[..count].copy_from_slice(&bytes[..count]);
        count
    }
}

/// What an OPEN answers to these draws where the id 7 is taken.
fn drawn(draws: Vec<u64>) -> Result<u64, HnsrRuntimeError> {
    let (runtime, mut tables) = relay_drawing(small(), OsRandom::default()).into_parts();
    tables.pending[1] = RelayPending { used: true, circuit_id: TAKEN, deadline: START + 1, ..RelayPending::default() };
    tables.places = Places { pending: 2, ..Places::NONE };
    let mut relay = OpaqueRelayRuntime::from_parts(runtime, tables, drawing(draws)).expect("a relay");
    open(&mut relay, b"r", 1, grant(b"e"))
}

/// Seven zeros in front of each of the ids.
fn behind_zeros(ids: &[u64]) -> Vec<u64> {
    ids.iter().flat_map(|id| [[0; 7].as_slice(), &[*id]].concat()).collect()
}

#[test]
fn the_longest_drawing_takes_all_the_bytes_and_no_more() {
    let seven_taken = [TAKEN; 7];
    let longest = behind_zeros(&[&seven_taken[..], &[FRESH]].concat());
    assert_eq!(longest.len() * 8, RANDOM_BYTES);
    assert_eq!(drawn(longest.clone()), Ok(FRESH));
    assert_eq!(drawn(longest[..63].to_vec()), Err(HnsrRuntimeError::Randomness));
    // whatever the 64th is, it ends the drawing
    for last in [0, TAKEN] {
        let refused = [&longest[..63], &[last, FRESH]].concat();
        assert_eq!(drawn(refused), Err(HnsrRuntimeError::Randomness));
    }
}

#[test]
fn zeros_and_taken_ids_are_drawn_again() {
    assert_eq!(drawn(vec![FRESH]), Ok(FRESH));
    assert_eq!(drawn(vec![0, TAKEN, 0, FRESH]), Ok(FRESH));
    assert_eq!(drawn(vec![0; 8]), Err(HnsrRuntimeError::Randomness));
    assert_eq!(drawn(vec![TAKEN; 8]), Err(HnsrRuntimeError::Randomness));
}

#[test]
fn a_source_without_bytes_refuses_opens_alone() {
    let mut relay = relay_drawing(small(), |_: &mut [u8]| 0);
    assert_eq!(open(&mut relay, b"r", 1, grant(b"e")), Err(HnsrRuntimeError::Randomness));
    assert_eq!(relay.status().admitted_opens, 0);
    // what comes before the drawing is refused as ever
    assert_eq!(open(&mut relay, b"r", 1, grant(b"r")), Err(HnsrRuntimeError::Capacity));
}

/// A source that fails as long as it is told to, and keeps why.
struct Failing {
    broken: Rc<Cell<bool>>,
    failure: Option<io::ErrorKind>,
}

impl RandomSource for Failing {
    fn supply(&mut self, room: &mut [u8]) -> usize {
        self.failure = self.broken.get().then_some(io::ErrorKind::Unsupported);
        // zeros, if it does not fail
        if self.broken.get() {
            0
        } else {
            room.len()
        }
    }
}

/// Both are an 8, at its place among the rows (OPEN.6); the source tells them apart.
#[test]
fn a_failing_source_can_be_told_from_an_unlucky_draw() {
    let broken = Rc::new(Cell::new(true));
    let mut relay = relay_drawing(small(), Failing { broken: broken.clone(), failure: None });
    for (fails, failure) in
        [(true, Some(io::ErrorKind::Unsupported)), (false, None), (true, Some(io::ErrorKind::Unsupported))]
    {
        broken.set(fails);
        assert_eq!(open(&mut relay, b"r", 1, grant(b"e")), Err(HnsrRuntimeError::Randomness));
        assert_eq!(relay.random().failure, failure);
        // a row before the drawing is answered all the same
        assert_eq!(open(&mut relay, b"r", 1, grant(b"r")), Err(HnsrRuntimeError::Capacity));
    }
}

#[test]
fn a_source_that_claims_too_much_is_not_believed() {
    let mut relay = relay_drawing(small(), |room: &mut [u8]| {
        room.fill(1);
        usize::MAX
    });
    assert_eq!(open(&mut relay, b"r", 1, grant(b"e")), Ok(0x0101_0101_0101_0101));
}

#[test]
fn only_an_open_draws() {
    let calls = Cell::new(0);
    let mut relay = relay_drawing(small(), |room: &mut [u8]| {
        assert_eq!(room.len(), RANDOM_BYTES);
        calls.set(calls.get() + 1);
        OsRandom::default().supply(room)
    });
    for opcode in (0..=255_u8).map(HnsrOpcode::from).filter(|opcode| *opcode != HnsrOpcode::Open) {
        let packet = HnsrPacket { opcode, context_id: [1; 8], body: &[] };
        assert!(relay.handle(&Admission::Refused, &peer(b"r"), &packet, START).is_err());
    }
    assert_eq!(calls.get(), 0);
    let packet = HnsrPacket { opcode: HnsrOpcode::Open, context_id: [1; 8], body: &[] };
    assert!(relay.handle(&Admission::Refused, &peer(b"r"), &packet, START).is_err());
    assert_eq!(calls.get(), 1);
}

#[test]
fn the_operating_system_has_bytes() {
    let mut source = OsRandom::default();
    let mut rooms = [[0; RANDOM_BYTES]; 2];
    for room in &mut rooms {
        assert_eq!(source.supply(room), RANDOM_BYTES);
        assert!(source.failure().is_none());
    }
    assert_ne!(rooms[0], rooms[1]);
    let mut relay = OpaqueRelayRuntime::new([1; 16], 1, small(), START).expect("a relay");
    assert_eq!(open(&mut relay, b"r", 1, grant(b"e")).map(|id| id != 0), Ok(true));
    assert!(relay.random().failure().is_none());
}
