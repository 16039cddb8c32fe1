//! What a host author must know: the rules of docs/HOSTING.md, each by a run that shows it.
use crate::fixture::{circuit, grant, open, open_body, peer, relay, say, small, Relay, EXPIRY, START};
use lekchnam_host::body::{AcceptBody, Invalid, OpenBody, ProtocolError};
use lekchnam_host::limits::{DEFAULT_WINDOW, MAX_CIRCUITS, MAX_DATA_SIZE, MAX_WINDOW};
use lekchnam_host::HnsrRuntimeError::{self, *};
use lekchnam_host::{
    Admission, Advice, Grant, HnsrOpcode, HnsrPacket, HnsrPeerId, MonotonicClock, OpaqueRelayConfig,
    QueuedHnsrRouteBuf, Row,
};

/// A grant that no test here uses up.
fn large(endpoint: &[u8]) -> Grant<'_> {
    Grant { max_bytes_per_circuit: 1 << 20, max_total_bytes: 1 << 20, ..grant(endpoint) }
}

/// A circuit from `r` to `e`, with this window.
fn with_window(window: u32) -> (Relay, u64) {
    let mut relay = relay(small());
    let body = OpenBody { initial_window: window, ..OpenBody::decode(&open_body(), true).expect("an OPEN") };
    let body = body.encode(true).expect("an OPEN");
    let packet = HnsrPacket { opcode: HnsrOpcode::Open, context_id: [1; 8], body: &body };
    let routes = relay.handle(&Admission::from(large(b"e")), &peer(b"r"), &packet, START).expect("an OPEN");
    let id = u64::from_be_bytes(routes.iter().next().expect("an INCOMING").route.packet.context_id);
    let accept = AcceptBody { accepted_window: window, endpoint_nonce: [4; 16] }.encode().expect("an ACCEPT");
    assert_eq!(say(&mut relay, b"e", HnsrOpcode::Accept, id, &accept).map(|routes| routes.len()), Ok(1));
    (relay, id)
}

/// Sends the longest DATA until one is refused, and acknowledges none: how many were taken, and the row.
fn until_refused(relay: &mut Relay, id: u64) -> (usize, Row) {
    let body = [7; MAX_DATA_SIZE];
    let data = HnsrPacket { opcode: HnsrOpcode::Data, context_id: id.to_be_bytes(), body: &body };
    for taken in 0.. {
        let answer = relay.handle(&Admission::Refused, &peer(b"r"), &data, START).map(|routes| routes.len());
        if let Err(refused) = answer {
            assert_eq!(refused, FlowControl);
            let row = relay.why(refused, &Admission::Refused, &peer(b"r"), &data, START);
            return (taken, row.expect("a row"));
        }
    }
    unreachable!("a window has an end")
}

#[test]
fn within_a_window_above_the_queue_a_sender_is_refused() {
    let (mut relay, id) = with_window(MAX_WINDOW);
    let (taken, row) = until_refused(&mut relay, id);
    assert_eq!((taken, row.advice()), (4, Advice::OfferAgain));
    assert_eq!(row, Row::Queue { left: 0, asked: 16_384 });
    assert_eq!(relay.circuits().map(|circuit| circuit.requester_credit).next(), Some(MAX_WINDOW - 65_536));
}

#[test]
fn within_a_window_of_the_queue_it_is_not() {
    assert_eq!(DEFAULT_WINDOW as usize, OpaqueRelayConfig::default().maximum_queue_bytes);
    let (mut relay, id) = with_window(DEFAULT_WINDOW);
    let (taken, row) = until_refused(&mut relay, id);
    // the window is used up before the queue is, and the sender knows it
    assert_eq!((taken, row.advice()), (4, Advice::EndCircuit));
    assert_eq!(row, Row::Credit { left: 0, asked: 16_384 });
}

/// Of a circuit both sides are told, the one that is gone too. What is not acknowledged keeps its place.
#[test]
fn routes_to_a_peer_that_is_gone_are_acknowledged_too() {
    let mut relay = relay(small());
    circuit(&mut relay, b"r", b"e", 1);
    let told = relay.disconnect(&peer(b"r")).expect("a name").to_vec();
    let to = |queued: &QueuedHnsrRouteBuf| queued.route.destination;
    assert_eq!(told.iter().map(to).collect::<Vec<_>>(), [peer(b"r"), peer(b"e")]);
    assert_eq!(relay.status().queued_actions, 2);
    assert_eq!(relay.acknowledge(told[1].action_id, true).map(|routes| routes.len()), Ok(0));
    // nothing but its acknowledge, or another disconnect, gives the place back
    assert_eq!(relay.expire(EXPIRY).map(|routes| routes.len()), Ok(0));
    assert_eq!(relay.oldest_action().map(|action| (action.action_id, action.destination)), {
        Some((told[0].action_id, peer(b"r")))
    });
    assert_eq!(relay.acknowledge(told[0].action_id, false).map(|routes| routes.len()), Ok(0));
    assert_eq!(relay.status().queued_actions, 0);
}

/// Under an id that lives a grant has the end that the first one had.
#[test]
fn a_renewed_reservation_has_a_new_id_or_the_old_end() {
    let mut relay = relay(OpaqueRelayConfig { maximum_pending: 4, ..small() });
    circuit(&mut relay, b"r", b"e", 1);
    let renewed = Grant { expires_at: EXPIRY + 500, ..grant(b"e") };
    for other in [renewed, Grant { expires_at: EXPIRY - 1, ..renewed }] {
        assert_eq!(open(&mut relay, b"r", 2, other), Err(ByteLimit));
    }
    assert!(open(&mut relay, b"r", 2, grant(b"e")).is_ok());
    // a new id
    assert!(open(&mut relay, b"r", 3, Grant { reservation_id: [6; 16], ..renewed }).is_ok());
    // revoked, which ends its circuit and its OPEN, the same id
    assert_eq!(relay.revoke_reservation([5; 16]).map(|routes| routes.len()), Ok(4));
    assert!(open(&mut relay, b"r", 4, renewed).is_ok());
    // or the old end has come
    assert!(relay.expire(EXPIRY + 500).is_ok());
    assert_eq!(relay.reservations().count(), 0);
}

#[test]
fn data_goes_on_until_expire() {
    let mut relay = relay(small());
    let id = circuit(&mut relay, b"r", b"e", 1);
    let data = HnsrPacket { opcode: HnsrOpcode::Data, context_id: id.to_be_bytes(), body: b"late" };
    assert_eq!(relay.next_due(), Some(EXPIRY));
    let late = |relay: &mut Relay| relay.handle(&Admission::Refused, &peer(b"r"), &data, EXPIRY + 60).map(|_| ());
    assert_eq!(late(&mut relay), Ok(()));
    assert_eq!(relay.expire(EXPIRY + 60).map(|routes| routes.len()), Ok(2));
    assert_eq!(late(&mut relay), Err(UnknownCircuit));
}

#[test]
fn a_time_that_goes_back_is_refused() {
    let clock = MonotonicClock::starting_at(START);
    let mut relay = relay(small());
    assert_eq!(relay.observe_time(clock.now()), Ok(()));
    let stale: Result<(), HnsrRuntimeError> = relay.expire(START).map(|_| ());
    assert_eq!((stale, relay.observe_time(clock.now())), (Err(ClockRollback), Ok(())));
}

#[test]
fn a_peer_has_32_circuits_and_another_name_has_more() {
    let mut relay = relay(OpaqueRelayConfig::for_peers(4));
    let ends: Vec<HnsrPeerId> = (0..=MAX_CIRCUITS).map(|number| peer(&number.to_le_bytes())).collect();
    let mut asked = |requester: &[u8], number: usize| {
        open(&mut relay, requester, 1 + number as u64, grant(ends[number].as_bytes())).map(|_| ())
    };
    for number in 0..usize::from(MAX_CIRCUITS) {
        assert_eq!(asked(b"r", number), Ok(()));
    }
    let last = usize::from(MAX_CIRCUITS);
    assert_eq!((asked(b"r", last), asked(b"second", last)), (Err(Capacity), Ok(())));
}

/// A host without curve arithmetic goes by the key that its book has for the reservation.
#[test]
fn a_key_is_valid_if_it_is_the_books() {
    const BOOK: [u8; 33] = [2; 33];
    fn admission<'a>(body: &[u8], grant: Grant<'a>) -> Admission<'a> {
        match OpenBody::decode(body, true) {
            Ok(open) if open.endpoint_key == BOOK && open.reservation_id == grant.reservation_id => grant.into(),
            _ => Admission::Refused,
        }
    }
    let mut relay = relay(small());
    let fits = open_body();
    let other = OpenBody { endpoint_key: [3; 33], ..OpenBody::decode(&fits, true).expect("an OPEN") };
    let other = other.encode(true).expect("an OPEN");
    let mut asked = |body: &[u8], admission: &Admission<'_>| {
        let packet = HnsrPacket { opcode: HnsrOpcode::Open, context_id: [1; 8], body };
        relay.handle(admission, &peer(b"r"), &packet, START).map(|routes| routes.len())
    };
    let invalid = ProtocolError::Invalid(Invalid::OpenParameters);
    assert_eq!(asked(&other, &admission(&other, grant(b"e"))), Err(Protocol(ProtocolError::Admission)));
    assert_eq!(asked(&other, &Admission::KeyInvalid), Err(Protocol(invalid)));
    assert_eq!(asked(&fits, &admission(&fits, grant(b"e"))), Ok(1));
}

/// A word on a route of an earlier generation touches nothing, though the numbers start again.
#[test]
fn generations_keep_old_words_apart() {
    let mut relay = relay(small());
    circuit(&mut relay, b"r", b"e", 1);
    let old = relay.oldest_action().expect("an OPENED").action_id;
    assert!(relay.replace_enabled(old.generation, false).is_ok());
    assert!(relay.replace_enabled(old.generation + 1, true).is_ok());
    for context in [1, 2] {
        open(&mut relay, b"r", context, grant(b"e")).expect("an OPEN");
    }
    let new = relay.actions().find(|action| action.action_id.sequence == old.sequence).expect("a route");
    assert_ne!(new.action_id, old);
    assert_eq!(relay.acknowledge(old, false).map(|routes| routes.len()), Err(StaleGeneration));
    assert_eq!((relay.status().queued_actions, relay.status().pending_circuits), (2, 2));
}

/// Dropped as late it would be missing once the OPEN is accepted.
#[test]
fn data_in_front_of_its_accept_ends_the_open() {
    let mut relay = relay(small());
    let id = open(&mut relay, b"r", 1, grant(b"e")).expect("an OPEN");
    let data = HnsrPacket { opcode: HnsrOpcode::Data, context_id: id.to_be_bytes(), body: b"too soon" };
    let why = |relay: &Relay, sender: &[u8]| {
        relay.why(UnknownCircuit, &Admission::Refused, &peer(sender), &data, START).map(|row| (row, row.advice()))
    };
    assert_eq!(
        say(&mut relay, b"e", HnsrOpcode::Data, id, b"too soon").map(|routes| routes.len()),
        Err(UnknownCircuit)
    );
    assert_eq!(why(&relay, b"e"), Some((Row::Unaccepted, Advice::EndCircuit)));
    assert_eq!(why(&relay, b"stranger"), Some((Row::NoCircuit, Advice::Late)));
    assert_eq!(relay.end_circuit(id.to_be_bytes(), 9, "DATA in front of its ACCEPT", START).map(|_| ()), Ok(()));
    assert_eq!(why(&relay, b"e"), Some((Row::NoCircuit, Advice::Late)));
}
