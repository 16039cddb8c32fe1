//! Row by row: a call that only this row refuses, and its figures.
use crate::fixture::{
    accept_body, circuit, grant, open, open_body, peer, relay, relay_drawing, say, small, Counting, Relay, EXPIRY,
    START, WINDOW,
};
use lekchnam_host::body::{Invalid, ProtocolError};
use lekchnam_host::lent::{self, why, Packet, RelayPacket, StoredPeer, HANDLE_WORDS};
use lekchnam_host::limits::{MAXIMUM_PEER, MAX_WINDOW};
use lekchnam_host::{
    ActionLimit, Admission, Grant, HnsrActionId, HnsrOpcode, HnsrPacket, HnsrRuntimeError, OpaqueRelayConfig,
    OpaqueRelayRuntime, RandomSource, Row,
};

/// A call that is refused, and the row that it is refused by.
fn refused<Random: RandomSource>(
    relay: &mut OpaqueRelayRuntime<Random>,
    admission: Admission<'_>,
    source: &[u8],
    packet: HnsrPacket<'_>,
    now: u64,
) -> Row {
    let refused = relay.handle(&admission, &peer(source), &packet, now).unwrap_err();
    let row = relay.why(refused, &admission, &peer(source), &packet, now).expect("a row");
    assert_eq!(row.refusal(), refused);
    row
}

fn refused_open<Random: RandomSource>(
    relay: &mut OpaqueRelayRuntime<Random>,
    requester: &[u8],
    context: u64,
    grant: Grant<'_>,
) -> Row {
    let body = open_body();
    let packet = HnsrPacket { opcode: HnsrOpcode::Open, context_id: context.to_be_bytes(), body: &body };
    refused(relay, Admission::Granted(grant), requester, packet, START)
}

fn refused_say(relay: &mut Relay, source: &[u8], opcode: HnsrOpcode, context: u64, body: &[u8]) -> Row {
    let packet = HnsrPacket { opcode, context_id: context.to_be_bytes(), body };
    refused(relay, Admission::Refused, source, packet, START)
}

/// Roomy limits of records, and these of actions.
fn actions(relay: usize, circuit: usize, peer: usize) -> OpaqueRelayConfig {
    OpaqueRelayConfig {
        maximum_pending: 8,
        maximum_circuits: 8,
        maximum_inflight_actions: relay,
        maximum_inflight_actions_per_circuit: circuit,
        maximum_inflight_actions_per_peer: peer,
        ..small()
    }
}

fn delivered(relay: &mut Relay, sequence: u64) {
    let action_id = HnsrActionId { generation: 1, sequence };
    assert_eq!(relay.acknowledge(action_id, true).map(|routes| routes.len()), Ok(0));
}

/// The same relay with its next route's number at the top, so that none is left.
fn without_numbers(relay: Relay) -> Relay {
    let (mut runtime, tables) = relay.into_parts();
    runtime.next_action_sequence = u64::MAX;
    Relay::from_parts(runtime, tables, Counting(100)).expect("stored parts")
}

fn window(delta: u32) -> [u8; 4] {
    delta.to_le_bytes()
}

/// No reason, no detail.
const CLOSE: &[u8] = &[0, 0, 0];

#[test]
fn entry_clock_and_gate() {
    let mut relay = relay(small());
    let none = HnsrPacket { opcode: HnsrOpcode::Data, context_id: [0; 8], body: b"x" };
    let zero = ProtocolError::Invalid(Invalid::ContextZero);
    assert_eq!(refused(&mut relay, Admission::Refused, b"r", none, START), Row::Packet(zero));
    let data = HnsrPacket { context_id: [1; 8], ..none };
    let behind = Row::Clock { high_water: START, now: START - 1 };
    assert_eq!(refused(&mut relay, Admission::Refused, b"r", data, START - 1), behind);
    assert_eq!(refused_say(&mut relay, b"r", HnsrOpcode::Incoming, 1, b""), Row::Opcode);
    assert!(relay.replace_enabled(1, false).is_ok());
    assert_eq!(refused(&mut relay, Admission::Refused, b"r", data, START), Row::Disabled { opening: false });
    assert_eq!(refused_open(&mut relay, b"r", 1, grant(b"e")), Row::Disabled { opening: true });
}

#[test]
fn open_by_what_there_is() {
    let mut one = relay(OpaqueRelayConfig { maximum_pending: 1, ..small() });
    open(&mut one, b"r", 1, grant(b"e")).expect("an OPEN");
    assert_eq!(refused_open(&mut one, b"s", 1, grant(b"f")), Row::PendingFull { most: 1 });

    let mut one = relay(OpaqueRelayConfig { maximum_circuits: 1, ..small() });
    circuit(&mut one, b"r", b"e", 1);
    assert_eq!(refused_open(&mut one, b"s", 1, grant(b"f")), Row::CircuitsFull { most: 1 });

    let mut one = relay(OpaqueRelayConfig { maximum_circuits_per_peer: 1, ..small() });
    open(&mut one, b"r", 1, grant(b"e")).expect("an OPEN");
    assert_eq!(refused_open(&mut one, b"r", 2, grant(b"f")), Row::RequesterWork { most: 1 });
    assert_eq!(refused_open(&mut one, b"e", 2, grant(b"f")), Row::RequesterWork { most: 1 });
    assert_eq!(refused_open(&mut one, b"s", 2, grant(b"e")), Row::EndpointWork { most: 1 });
    assert_eq!(refused_open(&mut one, b"s", 2, grant(b"r")), Row::EndpointWork { most: 1 });

    let mut relay = relay(small());
    open(&mut relay, b"r", 1, grant(b"e")).expect("an OPEN");
    assert_eq!(refused_open(&mut relay, b"r", 1, grant(b"f")), Row::ContextPending);
    assert_eq!(refused_open(&mut relay, b"s", 1, grant(b"s")), Row::EndpointIsRequester);
    let few = Grant { max_active_circuits: 1, ..grant(b"f") };
    assert_eq!(refused_open(&mut relay, b"s", 1, few), Row::ReservationWork { most: 1 });
    // the OPEN's own id is counted, not the grant's
    let other = Grant { reservation_id: [6; 16], ..few };
    assert_eq!(refused_open(&mut relay, b"s", 1, other), Row::ReservationWork { most: 1 });
}

#[test]
fn open_by_what_is_handed_over() {
    let mut relay = relay(small());
    let body = open_body();
    let packet = HnsrPacket { opcode: HnsrOpcode::Open, context_id: [1; 8], body: &body };
    let short = HnsrPacket { body: &body[..102], ..packet };
    let end = ProtocolError::UnexpectedEnd { offset: 99, needed: 1 };
    let granted = Admission::Granted(grant(b"e"));
    assert_eq!(refused(&mut relay, granted, b"r", short, START), Row::Body(end));
    let parameters = ProtocolError::Invalid(Invalid::OpenParameters);
    assert_eq!(refused(&mut relay, Admission::KeyInvalid, b"r", packet, START), Row::Body(parameters));
    assert_eq!(refused(&mut relay, Admission::Refused, b"r", packet, START), Row::NotAdmitted);
    let over = Grant { expires_at: START, ..grant(b"e") };
    let row = Row::GrantOver { expires_at: START, now: START };
    assert_eq!(refused(&mut relay, Admission::Granted(over), b"r", packet, START), row);
    for length in [0, MAXIMUM_PEER + 1] {
        let name = vec![7; length];
        assert_eq!(refused_open(&mut relay, b"r", 1, grant(&name)), Row::EndpointName { length });
    }
    let late = Grant { expires_at: u64::MAX, ..grant(b"e") };
    assert_eq!(refused(&mut relay, Admission::Granted(late), b"r", packet, u64::MAX - 5), Row::Deadline);
}

#[test]
fn open_by_draws_actions_and_numbers() {
    let mut zeros = relay_drawing(small(), |_: &mut [u8]| 0);
    assert_eq!(refused_open(&mut zeros, b"r", 1, grant(b"e")), Row::Draws);

    let mut two = relay(actions(2, 2, 2));
    open(&mut two, b"r", 1, grant(b"e")).expect("an OPEN");
    open(&mut two, b"s", 1, grant(b"f")).expect("an OPEN");
    let full = Row::Actions { of: ActionLimit::Relay, most: 2 };
    assert_eq!(refused_open(&mut two, b"t", 1, grant(b"g")), full);

    let mut two = relay(actions(8, 2, 2));
    open(&mut two, b"r", 1, grant(b"e")).expect("an OPEN");
    open(&mut two, b"s", 1, grant(b"e")).expect("an OPEN");
    let full = Row::Actions { of: ActionLimit::Peer, most: 2 };
    assert_eq!(refused_open(&mut two, b"t", 1, grant(b"e")), full);

    // the CLOSEs of a circuit that was revoked, and its id is drawn again
    let mut two = relay_drawing(actions(8, 2, 4), |room: &mut [u8]| {
        room[..8].copy_from_slice(&9_u64.to_be_bytes());
        8
    });
    open(&mut two, b"r", 1, grant(b"e")).expect("an OPEN");
    assert_eq!(two.revoke_reservation([5; 16]).map(|routes| routes.len()), Ok(2));
    let full = Row::Actions { of: ActionLimit::Circuit, most: 2 };
    assert_eq!(refused_open(&mut two, b"s", 1, grant(b"f")), full);
    assert!(two.acknowledge(HnsrActionId { generation: 1, sequence: 2 }, true).is_ok());
    let body = open_body();
    let packet = HnsrPacket { opcode: HnsrOpcode::Open, context_id: [1; 8], body: &body };
    let granted = Admission::Granted(grant(b"f"));
    assert_eq!(two.why(HnsrRuntimeError::Capacity, &granted, &peer(b"s"), &packet, START), None);
    assert!(two.handle(&granted, &peer(b"s"), &packet, START).is_ok());

    let mut none = without_numbers(relay(small()));
    assert_eq!(refused_open(&mut none, b"r", 1, grant(b"e")), Row::Sequence);
    // the OPEN waits all the same
    assert_eq!(none.status().pending_circuits, 1);
}

#[test]
fn open_by_the_ledger() {
    let mut one = OpaqueRelayRuntime::new_with([1; 16], 1, small(), START, 1, Counting::default()).expect("a relay");
    open(&mut one, b"r", 1, grant(b"e")).expect("an OPEN");
    let other = Grant { reservation_id: [6; 16], ..grant(b"f") };
    assert_eq!(refused_open(&mut one, b"s", 1, other), Row::LedgerFull { places: 1 });

    let mut relay = relay(small());
    let id = circuit(&mut relay, b"r", b"e", 1);
    let _ = say(&mut relay, b"r", HnsrOpcode::Data, id, &[7; 9]).expect("DATA");
    let renewed = Grant { expires_at: EXPIRY + 1, ..grant(b"f") };
    let differs = Row::ExpiryDiffers { recorded: EXPIRY, granted: EXPIRY + 1 };
    assert_eq!(refused_open(&mut relay, b"s", 1, renewed), differs);
    let used_up = Grant { max_total_bytes: 9, ..grant(b"f") };
    assert_eq!(refused_open(&mut relay, b"s", 1, used_up), Row::ReservationSpent { used: 9, most: 9 });
    // the record is made before its bytes are asked
    let nothing = Grant { reservation_id: [6; 16], max_total_bytes: 0, ..grant(b"f") };
    for _ in 0..2 {
        assert_eq!(refused_open(&mut relay, b"s", 1, nothing), Row::ReservationSpent { used: 0, most: 0 });
    }
    // both hold: the expiry is asked first
    let both = Grant { expires_at: EXPIRY + 1, ..nothing };
    assert_eq!(refused_open(&mut relay, b"s", 1, both), differs);
    assert!(open(&mut relay, b"s", 1, Grant { max_total_bytes: 10, ..grant(b"f") }).is_ok());
}

#[test]
fn accept() {
    let asked = &mut relay(small());
    let id = open(asked, b"r", 1, grant(b"e")).expect("an OPEN");
    let body = accept_body();
    let accept =
        |context: u64| HnsrPacket { opcode: HnsrOpcode::Accept, context_id: context.to_be_bytes(), body: &body };
    assert_eq!(refused(asked, Admission::Refused, b"e", accept(id + 1), START), Row::NotPending);
    for other in [b"r", b"s"] {
        assert_eq!(refused(asked, Admission::Refused, other, accept(id), START), Row::OtherPeer);
    }
    let trailing = [&body[..], &[0]].concat();
    let row = Row::Body(ProtocolError::TrailingBytes { remaining: 1 });
    assert_eq!(refused_say(asked, b"e", HnsrOpcode::Accept, id, &trailing), row);
    let larger = [&(WINDOW + 1).to_le_bytes()[..], &[4; 16]].concat();
    let row = Row::WindowOverOffered { offered: WINDOW, accepted: WINDOW + 1 };
    assert_eq!(refused_say(asked, b"e", HnsrOpcode::Accept, id, &larger), row);
    let late = Row::AcceptLate { due: START + 10, now: START + 10 };
    assert_eq!(refused(asked, Admission::Refused, b"e", accept(id), START + 10), late);

    let mut one = relay(OpaqueRelayConfig { maximum_circuits: 1, ..small() });
    let (first, second) = (open(&mut one, b"r", 1, grant(b"e")), open(&mut one, b"r", 2, grant(b"e")));
    let _ = say(&mut one, b"e", HnsrOpcode::Accept, first.expect("an OPEN"), &body).expect("an ACCEPT");
    let second = second.expect("an OPEN");
    let full = Row::CircuitsFull { most: 1 };
    assert_eq!(refused_say(&mut one, b"e", HnsrOpcode::Accept, second, &body), full);

    // the reservation may be at its most, and is over it by an OPEN whose grant allows more
    let mut two = relay(small());
    let first = open(&mut two, b"r", 1, Grant { max_active_circuits: 1, ..grant(b"e") }).expect("an OPEN");
    open(&mut two, b"r", 2, grant(b"e")).expect("an OPEN");
    let over = Row::ReservationWork { most: 1 };
    assert_eq!(refused_say(&mut two, b"e", HnsrOpcode::Accept, first, &body), over);
}

#[test]
fn accept_by_actions_and_numbers() {
    let body = accept_body();
    let mut three = relay(actions(3, 2, 3));
    let id = open(&mut three, b"r", 1, grant(b"e")).expect("an OPEN");
    open(&mut three, b"s", 1, grant(b"f")).expect("an OPEN");
    delivered(&mut three, 1);
    for requester in [b"t", b"u"] {
        open(&mut three, requester, 1, grant(b"f")).expect("an OPEN");
    }
    let full = Row::Actions { of: ActionLimit::Relay, most: 3 };
    assert_eq!(refused_say(&mut three, b"e", HnsrOpcode::Accept, id, &body), full);
    // what its own OPEN has outstanding does not count
    delivered(&mut three, 2);
    let own = open(&mut three, b"v", 1, grant(b"e")).expect("an OPEN");
    assert_eq!(three.status().queued_actions, 3);
    assert!(say(&mut three, b"e", HnsrOpcode::Accept, own, &body).is_ok());

    let mut two = relay(actions(8, 2, 2));
    let busy = circuit(&mut two, b"r", b"f", 1);
    let _ = say(&mut two, b"f", HnsrOpcode::Data, busy, b"x").expect("DATA");
    // the reservation is at its most, which an ACCEPT may be
    let id = open(&mut two, b"r", 2, Grant { max_active_circuits: 2, ..grant(b"e") }).expect("an OPEN");
    let full = Row::Actions { of: ActionLimit::Peer, most: 2 };
    assert_eq!(refused_say(&mut two, b"e", HnsrOpcode::Accept, id, &body), full);

    let mut waiting = relay(small());
    let id = open(&mut waiting, b"r", 1, grant(b"e")).expect("an OPEN");
    let mut none = without_numbers(waiting);
    assert_eq!(refused_say(&mut none, b"e", HnsrOpcode::Accept, id, &body), Row::Sequence);
    assert_eq!(none.status().active_circuits, 1);
}

/// DATA and WINDOW are refused for want of actions alike, and an acknowledge of what is full lets them pass.
#[test]
fn data_and_window_by_actions() {
    for (opcode, body) in [(HnsrOpcode::Data, &b"x"[..]), (HnsrOpcode::Window, &window(1))] {
        let full = |of, most| Row::Actions { of, most };
        let mut two = relay(actions(2, 2, 2));
        let id = circuit(&mut two, b"r", b"e", 1);
        open(&mut two, b"s", 1, grant(b"f")).expect("an OPEN");
        assert_eq!(refused_say(&mut two, b"r", opcode, id, body), full(ActionLimit::Relay, 2));
        delivered(&mut two, 3);
        assert!(say(&mut two, b"r", opcode, id, body).is_ok());

        let mut two = relay(actions(8, 2, 8));
        let id = circuit(&mut two, b"r", b"e", 1);
        let _ = say(&mut two, b"r", opcode, id, body).expect("a packet");
        assert_eq!(refused_say(&mut two, b"r", opcode, id, body), full(ActionLimit::Circuit, 2));
        delivered(&mut two, 2);
        assert!(say(&mut two, b"r", opcode, id, body).is_ok());

        let mut two = relay(actions(8, 2, 2));
        let id = circuit(&mut two, b"r", b"e", 1);
        delivered(&mut two, 2);
        for requester in [b"s", b"t"] {
            open(&mut two, requester, 1, grant(b"e")).expect("an OPEN");
        }
        assert_eq!(refused_say(&mut two, b"r", opcode, id, body), full(ActionLimit::Peer, 2));
        delivered(&mut two, 3);
        assert!(say(&mut two, b"r", opcode, id, body).is_ok());

        let mut circuits = relay(small());
        let id = circuit(&mut circuits, b"r", b"e", 1);
        for other in [b"s", b"f"] {
            assert_eq!(refused_say(&mut circuits, other, opcode, id, body), Row::OtherPeer);
        }
        assert_eq!(refused_say(&mut circuits, b"r", opcode, id + 1, body), Row::NoCircuit);
        let mut none = without_numbers(circuits);
        assert_eq!(refused_say(&mut none, b"r", opcode, id, body), Row::Sequence);
    }
}

#[test]
fn data_by_bytes() {
    let mut relay = relay(OpaqueRelayConfig { maximum_circuits: 3, ..small() });
    let id = circuit(&mut relay, b"r", b"e", 1);
    let size = Row::Body(ProtocolError::Invalid(Invalid::DataSize));
    assert_eq!(refused_say(&mut relay, b"r", HnsrOpcode::Data, id, b""), size);
    // of 20,000 a circuit
    let _ = say(&mut relay, b"r", HnsrOpcode::Data, id, &[7; 16_000]).expect("DATA");
    let row = Row::CircuitBytes { left: 4_000, asked: 4_001 };
    assert_eq!(refused_say(&mut relay, b"e", HnsrOpcode::Data, id, &[7; 4_001]), row);
    // of 30,000 all together
    let other = circuit(&mut relay, b"r", b"e", 2);
    let row = Row::TotalBytes { left: 14_000, asked: 14_001 };
    assert_eq!(refused_say(&mut relay, b"e", HnsrOpcode::Data, other, &[7; 14_001]), row);
    assert!(say(&mut relay, b"e", HnsrOpcode::Data, other, &[7; 14_000]).is_ok());

    // an OPEN under another reservation drops the ledger record; the circuit stays until `expire`
    let body = open_body();
    let packet = HnsrPacket { opcode: HnsrOpcode::Open, context_id: [9; 8], body: &body };
    let later = Grant { reservation_id: [6; 16], expires_at: EXPIRY + 10, ..grant(b"f") };
    assert!(relay.handle(&Admission::Granted(later), &peer(b"s"), &packet, EXPIRY).is_ok());
    let data = HnsrPacket { opcode: HnsrOpcode::Data, context_id: id.to_be_bytes(), body: b"x" };
    assert_eq!(refused(&mut relay, Admission::Refused, b"r", data, EXPIRY), Row::NoLedgerRecord);
}

/// Both are a 17. An acknowledge helps where the queue is full, the other side's WINDOW where credit is wanting.
#[test]
fn data_by_credit_and_by_queue() {
    let plenty = Grant { max_bytes_per_circuit: 1 << 30, max_total_bytes: 1 << 30, ..grant(b"e") };
    let opened = |queue| {
        let mut relay = relay(OpaqueRelayConfig { maximum_queue_bytes: queue, ..small() });
        let id = open(&mut relay, b"r", 1, plenty).expect("an OPEN");
        let _ = say(&mut relay, b"e", HnsrOpcode::Accept, id, &accept_body()).expect("an ACCEPT");
        (relay, id)
    };
    let (mut relay, id) = opened(10_000);
    // an empty queue, and yet it never passes
    let row = Row::DataOverQueue { most: 10_000, asked: 10_001 };
    assert_eq!(refused_say(&mut relay, b"r", HnsrOpcode::Data, id, &[7; 10_001]), row);
    let _ = say(&mut relay, b"r", HnsrOpcode::Data, id, &[7; 9_000]).expect("DATA");
    let row = Row::Queue { left: 1_000, asked: 1_001 };
    assert_eq!(refused_say(&mut relay, b"r", HnsrOpcode::Data, id, &[7; 1_001]), row);
    // the other direction has a queue of its own, and a WINDOW does not help
    let _ = say(&mut relay, b"e", HnsrOpcode::Window, id, &window(1_000)).expect("a WINDOW");
    assert!(say(&mut relay, b"e", HnsrOpcode::Data, id, &[7; 1_001]).is_ok());
    assert_eq!(refused_say(&mut relay, b"r", HnsrOpcode::Data, id, &[7; 1_001]), row);
    delivered(&mut relay, 3);
    assert!(say(&mut relay, b"r", HnsrOpcode::Data, id, &[7; 1_001]).is_ok());

    let (mut relay, id) = opened(65_536);
    for sequence in [3, 4] {
        let _ = say(&mut relay, b"r", HnsrOpcode::Data, id, &[7; 16_000]).expect("DATA");
        delivered(&mut relay, sequence);
    }
    let row = Row::Credit { left: 768, asked: 769 };
    assert_eq!(refused_say(&mut relay, b"r", HnsrOpcode::Data, id, &[7; 769]), row);
    // an acknowledge did not help, nor does one's own WINDOW
    let _ = say(&mut relay, b"r", HnsrOpcode::Window, id, &window(1)).expect("a WINDOW");
    assert_eq!(refused_say(&mut relay, b"r", HnsrOpcode::Data, id, &[7; 769]), row);
    let _ = say(&mut relay, b"e", HnsrOpcode::Window, id, &window(1)).expect("a WINDOW");
    assert!(say(&mut relay, b"r", HnsrOpcode::Data, id, &[7; 769]).is_ok());

    // where neither reaches, credit is asked first
    let (mut relay, id) = opened(1);
    let _ = say(&mut relay, b"r", HnsrOpcode::Data, id, &[7]).expect("DATA");
    let (runtime, mut tables) = relay.into_parts();
    tables.circuits[0].requester_credit = 0;
    let mut relay = Relay::from_parts(runtime, tables, Counting::default()).expect("stored parts");
    assert_eq!(refused_say(&mut relay, b"r", HnsrOpcode::Data, id, &[7]), Row::Credit { left: 0, asked: 1 });
}

#[test]
fn window_by_credit() {
    let mut relay = relay(small());
    let id = circuit(&mut relay, b"r", b"e", 1);
    let size = Row::Body(ProtocolError::Invalid(Invalid::WindowCredit));
    assert_eq!(refused_say(&mut relay, b"r", HnsrOpcode::Window, id, &window(0)), size);
    let most = MAX_WINDOW - WINDOW;
    let row = Row::CreditOverMost { left: u64::from(most), asked: u64::from(most) + 1 };
    assert_eq!(refused_say(&mut relay, b"r", HnsrOpcode::Window, id, &window(most + 1)), row);
    let just = window(most);
    let packet = HnsrPacket { opcode: HnsrOpcode::Window, context_id: id.to_be_bytes(), body: &just };
    let flow = HnsrRuntimeError::FlowControl;
    assert_eq!(relay.why(flow, &Admission::Refused, &peer(b"r"), &packet, START), None);
    assert!(say(&mut relay, b"r", HnsrOpcode::Window, id, &just).is_ok());
}

#[test]
fn close_and_error() {
    for opcode in [HnsrOpcode::Close, HnsrOpcode::Error] {
        let mut circuits = relay(small());
        let id = circuit(&mut circuits, b"r", b"e", 1);
        let detail = Row::Body(ProtocolError::Invalid(Invalid::DiagnosticDetail));
        assert_eq!(refused_say(&mut circuits, b"r", opcode, id, &[0, 0, 1]), detail);
        assert_eq!(refused_say(&mut circuits, b"r", opcode, id + 1, CLOSE), Row::NoCircuit);
        assert_eq!(refused_say(&mut circuits, b"s", opcode, id, CLOSE), Row::OtherPeer);
        let mut none = without_numbers(circuits);
        assert_eq!(refused_say(&mut none, b"r", opcode, id, CLOSE), Row::EndedSequence);
        assert_eq!(none.status().active_circuits, 0);

        // e is asked under an id, and asks under the same number
        let mut two = relay(small());
        let id = open(&mut two, b"r", 7, grant(b"e")).expect("an OPEN");
        open(&mut two, b"e", id, grant(b"f")).expect("an OPEN");
        assert_eq!(refused_say(&mut two, b"e", opcode, id, CLOSE), Row::NamesTwo);
        assert_eq!(two.status().pending_circuits, 2);
    }
}

/// What they name has ended when the actions are asked.
#[test]
fn close_and_error_by_actions() {
    for opcode in [HnsrOpcode::Close, HnsrOpcode::Error] {
        let mut two = relay(actions(2, 2, 2));
        let id = circuit(&mut two, b"r", b"e", 1);
        delivered(&mut two, 2);
        for requester in [b"s", b"t"] {
            open(&mut two, requester, 1, grant(b"f")).expect("an OPEN");
        }
        let full = Row::EndedActions { of: ActionLimit::Relay, most: 2 };
        assert_eq!(refused_say(&mut two, b"r", opcode, id, CLOSE), full);
        assert_eq!(two.status().active_circuits, 0);

        let mut two = relay(actions(8, 2, 2));
        let id = circuit(&mut two, b"r", b"e", 1);
        for requester in [b"s", b"t"] {
            open(&mut two, requester, 1, grant(b"e")).expect("an OPEN");
        }
        let full = Row::EndedActions { of: ActionLimit::Peer, most: 2 };
        assert_eq!(refused_say(&mut two, b"r", opcode, id, CLOSE), full);
        assert_eq!(two.status().active_circuits, 0);
    }
}

/// What only tables hold that a host put together.
#[test]
fn stored_tables() {
    let stored = |change: fn(&mut lent::Tables, &mut lent::Runtime)| {
        let mut relay = relay(small());
        let id = open(&mut relay, b"r", 1, grant(b"e")).expect("an OPEN");
        let (mut runtime, mut tables) = relay.into_parts();
        change(&mut tables, &mut runtime);
        (Relay::from_parts(runtime, tables, Counting::default()).expect("stored parts"), id)
    };
    for (opcode, body) in [(HnsrOpcode::Accept, &accept_body()[..]), (HnsrOpcode::Close, CLOSE)] {
        let (mut relay, id) = stored(|tables, _| tables.pending[0].requester_context = 0);
        assert_eq!(refused_say(&mut relay, b"e", opcode, id, body), Row::RequesterContextZero);
        assert_eq!(relay.status().pending_circuits, 0);
    }
    let (mut relay, id) = stored(|_, runtime| runtime.config.maximum_inflight_actions_per_circuit = 0);
    let full = |most| Row::EndedActions { of: ActionLimit::Circuit, most };
    assert_eq!(refused_say(&mut relay, b"e", HnsrOpcode::Close, id, CLOSE), full(0));
    // a sum stays at 2^64 - 1 (TAB.10), so a circuit without a limit is never over it
    let (mut relay, id) = stored(|_, _| ());
    let _ = say(&mut relay, b"e", HnsrOpcode::Accept, id, &accept_body()).expect("an ACCEPT");
    let (runtime, mut tables) = relay.into_parts();
    (tables.circuits[0].forwarded_bytes, tables.circuits[0].maximum_bytes) = (u64::MAX, u64::MAX);
    tables.circuits[0].maximum_total_bytes = 1;
    let mut relay = Relay::from_parts(runtime, tables, Counting::default()).expect("stored parts");
    let total = Row::TotalBytes { left: 1, asked: 2 };
    assert_eq!(refused_say(&mut relay, b"r", HnsrOpcode::Data, id, b"xx"), total);
    // the longest name, as it reads
    let (mut relay, id) = stored(|tables, _| tables.pending[0].endpoint = StoredPeer { len: 200, bytes: [7; 128] });
    assert_eq!(refused_say(&mut relay, b"e", HnsrOpcode::Accept, id, &accept_body()), Row::OtherPeer);
    assert!(say(&mut relay, &[7; 128], HnsrOpcode::Accept, id, &accept_body()).is_ok());
    // a mark above the numbers is no record
    let (mut relay, id) = stored(|tables, _| tables.places.pending = 0);
    assert_eq!(refused_say(&mut relay, b"e", HnsrOpcode::Accept, id, &accept_body()), Row::NotPending);
}

/// What the calls over lent tables answer, and no relay that owns them.
#[test]
fn lent_tables() {
    let (mut runtime, mut tables) = relay(small()).into_parts();
    let mut out = vec![0; HANDLE_WORDS];
    let head = RelayPacket { opcode: HnsrOpcode::Data.into(), context_id: 1, now: START, ..RelayPacket::default() };
    let packet = Packet { head, source: b"r", body: b"x", ..Packet::default() };
    let mut row = |tables: &mut lent::Tables, words: usize, packet: &Packet<'_>| {
        let refused = lent::handle(tables, &mut out[..words], &mut runtime, packet).unwrap_err();
        why(tables, &runtime, packet, refused)
    };
    assert_eq!(row(&mut tables, HANDLE_WORDS, &packet), Some(Row::NoCircuit));
    assert_eq!(row(&mut tables, HANDLE_WORDS - 1, &packet), Some(Row::WordsShort));
    for length in [0, MAXIMUM_PEER + 1] {
        let name = vec![7; length];
        let named = Packet { source: &name, ..packet };
        assert_eq!(row(&mut tables, HANDLE_WORDS, &named), Some(Row::SourceName { length }));
    }
    let large = vec![0; 65_524];
    let cause = ProtocolError::TooLarge { actual: 65_536, maximum: 65_535 };
    assert_eq!(row(&mut tables, HANDLE_WORDS, &Packet { body: &large, ..packet }), Some(Row::Packet(cause)));
    tables.circuits.pop();
    assert_eq!(row(&mut tables, HANDLE_WORDS, &packet), Some(Row::TablesShort));
}

/// Asked too late, or of what was never refused so, no row is named.
#[test]
fn no_row_where_none_fits() {
    let mut relay = relay(OpaqueRelayConfig { maximum_queue_bytes: 1, ..small() });
    let id = circuit(&mut relay, b"r", b"e", 1);
    let _ = say(&mut relay, b"r", HnsrOpcode::Data, id, b"x").expect("DATA");
    let packet = HnsrPacket { opcode: HnsrOpcode::Data, context_id: id.to_be_bytes(), body: b"x" };
    let why = |relay: &Relay, refused| relay.why(refused, &Admission::Refused, &peer(b"r"), &packet, START);
    let queue = Row::Queue { left: 0, asked: 1 };
    assert_eq!(why(&relay, HnsrRuntimeError::FlowControl), Some(queue));
    delivered(&mut relay, 3);
    let causes = [ProtocolError::Admission, ProtocolError::Invalid(Invalid::ContextZero)];
    let plain = (2..=23).filter_map(HnsrRuntimeError::from_number);
    // of a 22 the words are not known afterwards, so it always has a row
    let others = plain.filter(|other| *other != HnsrRuntimeError::Short).chain(causes.map(HnsrRuntimeError::Protocol));
    for other in others {
        assert_eq!(why(&relay, other), None, "{other:?}");
    }
}

#[test]
fn rows_say_what_they_are() {
    let texts = [
        (Row::Queue { left: 1, asked: 9 }, "9 bytes, and the queue has room for 1"),
        (Row::Credit { left: 1, asked: 9 }, "9 bytes, and the sender's credit is 1"),
        (
            Row::Actions { of: ActionLimit::Peer, most: 4_096 },
            "4096 routes toward the peer are unacknowledged, and no more may be",
        ),
        (
            Row::ExpiryDiffers { recorded: 5, granted: 6 },
            "the reservation ends at 5 in the ledger, and at 6 in the grant",
        ),
    ];
    for (row, text) in texts {
        assert_eq!(row.to_string(), text);
    }
}
