//! Output words: what a call needs, and that a relay of its own tables always has them.
use crate::fixture::{accept_body, circuit, grant, open, peer, relay, say, small, Counting, Relay, EXPIRY, START};
use lekchnam_host::lent::{self, Packet, Places, RelayPacket, Runtime, Tables};
use lekchnam_host::limits::*;
use lekchnam_host::{Grant, HnsrActionId, HnsrOpcode, HnsrRuntimeError, OpaqueRelayConfig};

/// So many records that their closings need more words than the longest DATA, and room for all of these.
const RECORDS: usize = 25;

fn filled_config() -> OpaqueRelayConfig {
    OpaqueRelayConfig {
        maximum_pending: RECORDS,
        maximum_circuits: RECORDS,
        maximum_inflight_actions: 256,
        maximum_inflight_actions_per_circuit: 256,
        maximum_inflight_actions_per_peer: 256,
        ..small()
    }
}

/// As full as calls can make it: all circuits but one, between r and e, and then all pending records, between s and f.
fn filled() -> Relay {
    let mut relay = relay(filled_config());
    for context in 1..RECORDS as u64 {
        circuit(&mut relay, b"r", b"e", context);
    }
    for context in 1..=RECORDS as u64 {
        open(&mut relay, b"s", context, grant(b"f")).expect("an OPEN");
    }
    relay
}

/// Every place used, also more places than the configuration asks for: what only a host can put together.
fn crammed() -> Relay {
    let (runtime, mut tables) = filled().into_parts();
    let (pending, active) = (tables.pending[0], tables.circuits[0]);
    tables.pending = (1..=40).map(|id| lent::RelayPending { circuit_id: id, ..pending }).collect();
    tables.circuits = (41..=80).map(|id| lent::RelayCircuit { circuit_id: id, ..active }).collect();
    tables.places = Places::EVERY;
    Relay::from_parts(runtime, tables, Counting::default()).expect("stored parts")
}

type Ending = fn(&mut Relay) -> usize;

/// The calls that end many records, each with how many routes it sends for a pending record and for a
/// circuit; none where it ends none.
const ENDINGS: [(Ending, usize, usize); 5] = [
    (|relay| relay.disconnect(&peer(b"r")).expect("not short").len(), 0, 2),
    (|relay| relay.disconnect(&peer(b"f")).expect("not short").len(), 1, 0),
    (|relay| relay.revoke_reservation([5; 16]).expect("not short").len(), 2, 2),
    (|relay| relay.expire(EXPIRY).expect("not short").len(), 2, 2),
    (|relay| relay.replace_enabled(1, false).expect("not short").len(), 2, 2),
];

#[test]
fn a_full_relay_can_always_be_ended() {
    for (end, per_pending, per_circuit) in ENDINGS {
        for relay in [&mut filled(), &mut crammed()] {
            let before = relay.status();
            assert!(CLOSING_WORDS * (before.pending_circuits + before.active_circuits) > HANDLE_WORDS);
            let routes = end(relay);
            assert_eq!(routes, per_pending * before.pending_circuits + per_circuit * before.active_circuits);
            let after = relay.status();
            let left = |routes, count| if routes == 0 { count } else { 0 };
            assert_eq!(after.pending_circuits, left(per_pending, before.pending_circuits));
            assert_eq!(after.active_circuits, left(per_circuit, before.active_circuits));
        }
    }
}

/// Where the actions are full the closings are left out, and nothing is refused.
#[test]
fn a_relay_without_room_for_actions_can_be_ended_too() {
    let mut relay = relay(small());
    let busy = circuit(&mut relay, b"r", b"e", 1);
    let idle = open(&mut relay, b"r", 2, Grant { reservation_id: [6; 16], ..grant(b"e") }).expect("an OPEN");
    let opened = say(&mut relay, b"e", HnsrOpcode::Accept, idle, &accept_body()).expect("an ACCEPT");
    let action_id = opened.iter().next().expect("an OPENED").action_id;
    assert!(relay.acknowledge(action_id, true).expect("it was outstanding").is_empty());
    while say(&mut relay, b"e", HnsrOpcode::Data, busy, b"x").is_ok() {}
    assert_eq!(relay.status().queued_actions, 8);
    assert!(relay.revoke_reservation([6; 16]).expect("not short").is_empty());
    assert_eq!((relay.status().active_circuits, relay.status().revoked_work), (1, 1));
}

/// Calls on a copy of the parts with so many output words.
fn with_room<Answer>(
    relay: &Relay,
    room: usize,
    call: impl Fn(&mut Tables, &mut [u32], &mut Runtime) -> Answer,
) -> Answer {
    call(&mut relay.tables().clone(), &mut vec![0; room], &mut relay.runtime().clone())
}

/// The call answers 22 with one word fewer than it needs, and not with these.
fn needs(
    relay: &Relay,
    words: usize,
    call: impl Fn(&mut Tables, &mut [u32], &mut Runtime) -> Result<usize, HnsrRuntimeError>,
) {
    assert!(with_room(relay, words, &call).is_ok());
    assert_eq!(with_room(relay, words - 1, &call), Err(HnsrRuntimeError::Short));
    assert!(words <= relay.tables().most_words());
}

#[test]
fn the_figures_are_document_01s() {
    assert_eq!((HANDLE_WORDS, CLOSING_WORDS), (4_136, 96));
    assert_eq!((MAXIMUM_PEER, PEER_WORDS, ADDRESS_WORDS, HEAD_WORDS), (128, 32, 37, 40));
    assert_eq!((MAX_PACKET_SIZE, HNSR_HEADER_SIZE, MAX_DATA_SIZE, MAX_DETAIL_SIZE), (65_535, 12, 16_384, 128));
    assert_eq!((MIN_WINDOW, MAX_WINDOW), (16_384, 1_048_576));
    assert_eq!((MAX_RUNTIME_PENDING, MAX_RUNTIME_CIRCUITS, MAX_RUNTIME_INFLIGHT_ACTIONS), (65_536, 65_536, 262_144));
    assert_eq!((MAX_CIRCUITS, MAX_CIRCUIT_QUEUE, MAX_OPEN_DEADLINE_SECONDS), (32, 65_536, 10));
}

#[test]
fn each_call_needs_what_document_01_says() {
    for relay in [&filled(), &crammed()] {
        let status = relay.status();
        let closing = 96 * (status.pending_circuits + status.active_circuits);
        let action_id = HnsrActionId { generation: 1, sequence: 2 };
        needs(relay, 96, |tables, out, runtime| lent::acknowledge(tables, out, runtime, action_id, true));
        needs(relay, closing, |tables, out, runtime| lent::disconnect(tables, out, runtime, b"nobody"));
        needs(relay, closing, |tables, out, runtime| lent::revoke_reservation(tables, out, runtime, [9; 16].into()));
        needs(relay, closing, |tables, out, runtime| lent::expire(tables, out, runtime, START));
        needs(relay, closing, |tables, out, runtime| lent::replace_enabled(tables, out, runtime, 1, true));
    }
}

#[test]
fn handle_needs_a_route_with_the_longest_data_and_may_fill_it() {
    let mut relay = relay(small());
    let id = circuit(&mut relay, b"r", b"e", 1);
    let head = RelayPacket { opcode: HnsrOpcode::Data.into(), context_id: id, now: START, ..RelayPacket::default() };
    let packet = Packet { head, source: b"r", body: &[7; MAX_DATA_SIZE], ..Packet::default() };
    needs(&relay, HANDLE_WORDS, |tables, out, runtime| lent::handle(tables, out, runtime, &packet));
    let words = with_room(&relay, HANDLE_WORDS, |tables, out, runtime| lent::handle(tables, out, runtime, &packet));
    assert_eq!(words, Ok(HANDLE_WORDS));
}

/// The longest closings: OPENs that nobody accepted in time.
#[test]
fn expired_opens_fill_their_words() {
    let mut relay = relay(filled_config());
    for context in 1..=3 {
        open(&mut relay, b"r", context, grant(b"e")).expect("an OPEN");
    }
    let words =
        with_room(&relay, 3 * CLOSING_WORDS, |tables, out, runtime| lent::expire(tables, out, runtime, START + 10));
    assert_eq!(words, Ok(3 * CLOSING_WORDS));
}
