//! What stands in the tables, in the types of the calls.
use crate::fixture::{circuit, grant, open, peer, relay, say, small, Counting, Relay, EXPIRY, START, WINDOW};
use lekchnam_host::lent::{InflightAction, Places, RelayCircuit, RelayPending, ReservationUsage, StoredPeer, Tables};
use lekchnam_host::{
    Action, ActionKind, Circuit, HnsrActionId, HnsrOpcode, HnsrPeerId, HnsrRuntimeError, OpaqueRelayConfig,
    PendingCircuit, Reservation, MAXIMUM_PEER,
};

const NUMBER: fn(u64) -> HnsrActionId = |sequence| HnsrActionId { generation: 1, sequence };

/// A circuit with DATA each way and a WINDOW, one that was closed, and an OPEN that waits.
fn busy() -> (Relay, [u8; 8], [u8; 8]) {
    let mut relay = relay(OpaqueRelayConfig { maximum_inflight_actions: 16, ..small() });
    let id = circuit(&mut relay, b"r", b"e", 1);
    let closed = circuit(&mut relay, b"x", b"e", 2);
    for (source, opcode, id, body) in [
        (&b"r"[..], HnsrOpcode::Data, id, &b"hello"[..]),
        (b"e", HnsrOpcode::Data, id, b"hi"),
        (b"e", HnsrOpcode::Window, id, &1_u32.to_le_bytes()),
        (b"e", HnsrOpcode::Close, closed, &[0, 0, 0]),
    ] {
        assert_eq!(say(&mut relay, source, opcode, id, body).expect("it is taken").len(), 1);
    }
    let waits = open(&mut relay, b"r", 3, grant(b"e")).expect("an OPEN");
    (relay, id.to_be_bytes(), waits.to_be_bytes())
}

#[test]
fn each_record_is_seen() {
    let (relay, id, waits) = busy();
    let seen = Circuit {
        circuit_id: id,
        requester: peer(b"r"),
        endpoint: peer(b"e"),
        reservation_id: [5; 16],
        expires_at: EXPIRY,
        maximum_bytes: 20_000,
        maximum_total_bytes: 30_000,
        requester_credit: WINDOW - 5 + 1,
        endpoint_credit: WINDOW - 2,
        forwarded_bytes: 7,
        queued_to_requester: 2,
        queued_to_endpoint: 5,
    };
    assert_eq!(relay.circuits().collect::<Vec<_>>(), [seen]);
    let seen = PendingCircuit {
        circuit_id: waits,
        requester: peer(b"r"),
        requester_context: 3_u64.to_be_bytes(),
        grant: grant(b"e").to_buf().expect("a name"),
        initial_window: WINDOW,
        deadline: START + 10,
    };
    assert_eq!(relay.pending().collect::<Vec<_>>(), [seen]);
    let seen = Reservation { reservation_id: [5; 16], bytes: 7, expires_at: EXPIRY };
    assert_eq!(relay.reservations().collect::<Vec<_>>(), [seen]);
}

/// Its number, the peer that it goes to, and what it is; the routes of the circuit that was closed are gone.
#[test]
fn each_unacknowledged_route_is_seen() {
    let (mut relay, id, waits) = busy();
    let closed = 2_u64.to_be_bytes();
    let seen = |sequence, circuit_id, destination, kind| Action {
        action_id: NUMBER(sequence),
        circuit_id,
        destination: peer(destination),
        kind,
    };
    let mut actions: Vec<Action> = relay.actions().collect();
    actions.sort_by_key(|action| action.action_id);
    let expected = [
        seen(2, id, b"r", ActionKind::Opened),
        seen(5, id, b"e", ActionKind::Data { to_endpoint: true, bytes: 5 }),
        seen(6, id, b"r", ActionKind::Data { to_endpoint: false, bytes: 2 }),
        seen(7, id, b"r", ActionKind::Control),
        seen(8, closed, b"x", ActionKind::Close),
        seen(9, waits, b"e", ActionKind::Incoming),
    ];
    assert_eq!(actions, expected);
    assert_eq!((relay.status().queued_actions, relay.tables().oldest_action()), (6, Some(expected[0])));
    for action in expected {
        assert_eq!(relay.oldest_action(), Some(action));
        assert!(relay.acknowledge(action.action_id, true).expect("it is unacknowledged").is_empty());
    }
    assert_eq!(relay.oldest_action(), None);
}

/// A place that is not in use is not seen, by its mark or by its number.
#[test]
fn only_records_are_seen() {
    let (relay, ..) = busy();
    let counts = |tables: &Tables| {
        (tables.pending().count(), tables.circuits().count(), tables.reservations().count(), tables.actions().count())
    };
    let tables = relay.tables().clone();
    assert_eq!(counts(&tables), (1, 1, 1, 6));
    assert_eq!(counts(&Tables { places: Places::EVERY, ..tables.clone() }), (1, 1, 1, 6));
    assert_eq!(counts(&Tables { places: Places::NONE, ..tables.clone() }), (0, 0, 0, 0));
    assert_eq!(Tables { places: Places::NONE, ..tables.clone() }.oldest_action(), None);

    let mut cleared = tables;
    cleared.pending[0].used = false;
    cleared.circuits[0].used = false;
    cleared.ledger[0].used = false;
    cleared.inflight.iter_mut().for_each(|action| action.used = false);
    assert_eq!(counts(&cleared), (0, 0, 0, 0));
}

/// Tables may be found with any names, kinds and numbers.
#[test]
fn any_record_is_seen_as_it_is_read() {
    for (len, read) in [(0, 0), (1, 1), (MAXIMUM_PEER, MAXIMUM_PEER), (usize::MAX, MAXIMUM_PEER)] {
        let name = StoredPeer { len, bytes: [7; MAXIMUM_PEER] };
        let found = Tables {
            pending: vec![RelayPending { used: true, requester: name, endpoint: name, ..RelayPending::default() }],
            circuits: vec![RelayCircuit { used: true, requester: name, endpoint: name, ..RelayCircuit::default() }],
            ledger: vec![ReservationUsage { used: true, ..ReservationUsage::default() }],
            inflight: vec![InflightAction { used: true, destination: name, kind: 255, ..InflightAction::default() }],
            places: Places::EVERY,
        };
        let (pending, circuit) = (found.pending().next().expect("one"), found.circuits().next().expect("one"));
        let action = found.oldest_action().expect("one");
        for peer in [pending.requester, pending.grant.endpoint, circuit.requester, circuit.endpoint, action.destination]
        {
            assert_eq!(peer.as_bytes(), vec![7; read]);
            assert_eq!(StoredPeer::from(&peer), name);
            let named = if read == 0 { Err(HnsrRuntimeError::InvalidPeer) } else { Ok(peer) };
            assert_eq!(HnsrPeerId::try_from(name), named);
        }
        assert_eq!((action.kind, action.action_id), (ActionKind::Close, HnsrActionId { generation: 0, sequence: 0 }));
    }
}

/// The oldest is by generation, then by sequence, whatever place it has.
#[test]
fn the_oldest_is_by_number() {
    let (relay, ..) = busy();
    let (runtime, mut tables) = relay.into_parts();
    tables.inflight[3].sequence = 1;
    tables.inflight[4] = InflightAction { generation: 0, sequence: 77, ..tables.inflight[4] };
    let relay = Relay::from_parts(runtime, tables, Counting::default()).expect("stored parts");
    assert_eq!(relay.oldest_action().map(|action| action.action_id.to_string()).as_deref(), Some("0.77"));
    let second = relay.actions().map(|action| action.action_id).filter(|number| number.generation == 1).min();
    assert_eq!(second, Some(NUMBER(1)));
}
