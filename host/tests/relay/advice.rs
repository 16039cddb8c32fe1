//! What a host does with a refusal: the table, and that it leads nowhere wrong.
use crate::fixture::{accept_body, circuit, grant, open, peer, relay, say, small, Relay, START, WINDOW as CREDIT};
use crate::random::Random;
use lekchnam_host::body::{Invalid, ProtocolError};
use lekchnam_host::HnsrRuntimeError::{self, *};
use lekchnam_host::{Admission, Advice, Grant, HnsrActionId, HnsrOpcode, HnsrPacket, OpaqueRelayConfig, Row};
use std::collections::{HashSet, VecDeque};

const BODY: HnsrRuntimeError = Protocol(ProtocolError::Invalid(Invalid::DataSize));
const NOT_ADMITTED: HnsrRuntimeError = Protocol(ProtocolError::Admission);

const OPEN: Option<HnsrOpcode> = Some(HnsrOpcode::Open);
const ACCEPT: Option<HnsrOpcode> = Some(HnsrOpcode::Accept);
const DATA: Option<HnsrOpcode> = Some(HnsrOpcode::Data);
const WINDOW: Option<HnsrOpcode> = Some(HnsrOpcode::Window);
const CLOSE: Option<HnsrOpcode> = Some(HnsrOpcode::Close);
const ERROR: Option<HnsrOpcode> = Some(HnsrOpcode::Error);
const OTHER: Option<HnsrOpcode> = Some(HnsrOpcode::Incoming);

/// The table of `HnsrRuntimeError::advice`: what each call and packet can be refused with.
#[test]
fn the_table() {
    let every = [None, OPEN, ACCEPT, DATA, WINDOW, CLOSE, ERROR, OTHER];
    let packets = &every[1..];
    let table: &[(HnsrRuntimeError, &[Option<HnsrOpcode>], Advice)] = &[
        (NOT_ADMITTED, &[OPEN], Advice::TurnDown),
        (BODY, packets, Advice::EndConnection),
        (BODY, &[None], Advice::TellOtherSide),
        (InvalidConfig, &[None], Advice::MendHost),
        (InvalidSession, &[None], Advice::MendHost),
        (InvalidPeer, &every, Advice::MendHost),
        (StaleGeneration, &[None], Advice::Forget),
        (GenerationExhausted, &[None, OPEN, ACCEPT, DATA, WINDOW], Advice::MendHost),
        (GenerationExhausted, &[CLOSE, ERROR], Advice::TellOtherSide),
        (ClockRollback, &every, Advice::MendHost),
        (Randomness, &[OPEN], Advice::MendHost),
        (Disabled, &[OPEN], Advice::TurnDown),
        (Disabled, &packets[1..], Advice::Late),
        (Capacity, &[OPEN, ACCEPT], Advice::TurnDown),
        (Capacity, &[DATA, WINDOW], Advice::OfferAgain),
        (Capacity, &[CLOSE, ERROR, None], Advice::TellOtherSide),
        (InvalidAdmission, &[ACCEPT], Advice::Late),
        (InvalidAdmission, &[DATA], Advice::EndCircuit),
        (InvalidAdmission, &[CLOSE, ERROR], Advice::EndConnection),
        (Deadline, &[OPEN], Advice::MendHost),
        (UnknownRequest, &[ACCEPT], Advice::Late),
        (UnknownCircuit, &[DATA, WINDOW, CLOSE, ERROR], Advice::Late),
        (WrongPeer, &[ACCEPT, DATA, WINDOW, CLOSE, ERROR], Advice::EndConnection),
        (UnexpectedOpcode, &[OTHER], Advice::EndConnection),
        (FlowControl, &[DATA], Advice::OfferAgain),
        (FlowControl, &[WINDOW], Advice::EndCircuit),
        (ByteLimit, &[OPEN], Advice::TurnDown),
        (ByteLimit, &[DATA], Advice::EndCircuit),
        (UnknownAction, &[None], Advice::Forget),
        (Short, &every, Advice::MendHost),
        (LedgerFull, &[OPEN], Advice::MendHost),
    ];
    for (refused, asked, advice) in table {
        for opcode in *asked {
            assert_eq!(refused.advice(*opcode), *advice, "{refused:?} of {opcode:?}");
        }
    }
    let given: HashSet<_> = table.iter().map(|(.., advice)| *advice).collect();
    assert_eq!(given, HashSet::from(Advice::ALL));
    assert_eq!(Advice::ALL.map(|advice| advice.to_string()).into_iter().collect::<HashSet<_>>().len(), 8);
}

/// A peer that sends what the relay may refuse, over connections that are slow.
struct Sending {
    relay: Relay,
    random: Random,
    id: u64,
    /// Routes that are on their way, the oldest in front.
    under_way: VecDeque<HnsrActionId>,
    /// The endpoint's part: the bytes that arrived.
    arrived: Vec<u8>,
    /// How often the advice was to offer a packet again, by the name of its row.
    again: [usize; 2],
}

impl Sending {
    /// Offers a packet until it is taken; between two offers the oldest route is delivered.
    fn offer(&mut self, source: &[u8], opcode: HnsrOpcode, body: &[u8]) {
        let packet = HnsrPacket { opcode, context_id: self.id.to_be_bytes(), body };
        loop {
            match self.relay.handle(&Admission::Refused, &peer(source), &packet, START) {
                Ok(routes) => {
                    for queued in routes {
                        if queued.route.packet.opcode == HnsrOpcode::Data {
                            self.arrived.extend(queued.route.packet.body);
                        }
                        self.under_way.push_back(queued.action_id);
                    }
                    return;
                }
                Err(refused) => {
                    let row = self.relay.why(refused, &Admission::Refused, &peer(source), &packet, START);
                    let row = row.expect("a row");
                    assert_eq!(row.advice(), Advice::OfferAgain, "{row:?}");
                    self.again[usize::from(matches!(row, Row::Queue { .. }))] += 1;
                    self.deliver();
                }
            }
        }
    }

    fn deliver(&mut self) {
        if let Some(oldest) = self.under_way.pop_front() {
            assert_eq!(self.relay.acknowledge(oldest, true).map(|routes| routes.len()), Ok(0));
        }
    }
}

/// The sender keeps to its credit, and the endpoint gives credit for what arrives.
#[test]
fn offered_again_there_is_no_hole() {
    let config = OpaqueRelayConfig {
        maximum_queue_bytes: 20_000,
        maximum_inflight_actions_per_circuit: 5,
        maximum_inflight_actions_per_peer: 5,
        ..small()
    };
    let mut relay = relay(config);
    let plenty = Grant { max_bytes_per_circuit: 1 << 30, max_total_bytes: 1 << 30, ..grant(b"e") };
    let id = open(&mut relay, b"r", 1, plenty).expect("an OPEN");
    let opened = say(&mut relay, b"e", HnsrOpcode::Accept, id, &accept_body()).expect("an ACCEPT");
    let under_way = opened.iter().map(|queued| queued.action_id).collect();
    let random = Random::new(1);
    let mut sending = Sending { relay, random, id, under_way, arrived: Vec::new(), again: [0; 2] };
    let (mut sent, mut credit) = (Vec::new(), CREDIT as usize);
    for _ in 0..2_000 {
        let size = 1 + sending.random.below(9_000);
        let body: Vec<u8> = (0..size).map(|_| sending.random.byte()).collect();
        if credit < size {
            // the endpoint gives back what arrived
            let delta = CREDIT - credit as u32;
            sending.offer(b"e", HnsrOpcode::Window, &delta.to_le_bytes());
            credit += delta as usize;
        }
        sending.offer(b"r", HnsrOpcode::Data, &body);
        credit -= size;
        sent.extend(body);
        if sending.random.below(4) == 0 {
            sending.deliver();
        }
    }
    assert!(sending.again.iter().all(|times| *times > 100), "{:?}", sending.again);
    assert!(sending.arrived == sent);
    while !sending.under_way.is_empty() {
        sending.deliver();
    }
    let status = sending.relay.status();
    assert_eq!((status.queued_actions, status.queued_bytes), (0, 0));
    println!("compared: {} bytes through a relay that refused {:?} times", sent.len(), sending.again);
}

/// 20 where the circuit of a route ended, 5 where the relay was switched: both are normal, and nothing is left behind.
#[test]
fn races_at_acknowledge_are_forgotten() {
    let mut relay = relay(small());
    circuit(&mut relay, b"r", b"e", 1);
    let opened = HnsrActionId { generation: 1, sequence: 2 };
    let routes = relay.disconnect(&peer(b"e")).expect("a good name");
    let closes: Vec<_> = routes.iter().map(|queued| queued.action_id).collect();
    assert_eq!(closes.len(), 2);
    let gone = relay.acknowledge(opened, true).unwrap_err();
    assert_eq!((gone, gone.advice(None)), (UnknownAction, Advice::Forget));
    assert_eq!(relay.replace_enabled(1, false).map(|routes| routes.len()), Ok(0));
    for close in closes {
        let stale = relay.acknowledge(close, false).unwrap_err();
        assert_eq!((stale, stale.advice(None)), (StaleGeneration, Advice::Forget));
    }
    assert_eq!(relay.status().queued_actions, 0);
}

/// An INCOMING that is not delivered ends its OPEN, also where there is no room to tell the requester.
#[test]
fn an_undelivered_incoming_may_leave_the_requester_untold() {
    let config =
        OpaqueRelayConfig { maximum_inflight_actions_per_circuit: 2, maximum_inflight_actions_per_peer: 2, ..small() };
    let mut relay = relay(config);
    let busy = circuit(&mut relay, b"r", b"f", 1);
    let _ = say(&mut relay, b"f", HnsrOpcode::Data, busy, b"x").expect("DATA");
    open(&mut relay, b"r", 2, grant(b"e")).expect("an OPEN");
    let incoming = HnsrActionId { generation: 1, sequence: 4 };
    let refused = relay.acknowledge(incoming, false).unwrap_err();
    assert_eq!((refused, refused.advice(None)), (Capacity, Advice::TellOtherSide));
    assert_eq!((relay.status().pending_circuits, relay.status().queued_actions), (0, 2));
}

/// A stranger's packets name the circuit of others: what is ended is the stranger's connection, and the circuit stays.
#[test]
fn a_stranger_ends_nothing() {
    let mut relay = relay(small());
    let id = circuit(&mut relay, b"r", b"e", 1);
    let long = vec![0; 16_385];
    let packets: [(HnsrOpcode, &[u8]); 6] = [
        (HnsrOpcode::Data, b"x"),
        (HnsrOpcode::Data, b""),
        (HnsrOpcode::Data, &long),
        (HnsrOpcode::Window, &[0; 4]),
        (HnsrOpcode::Close, &[0, 0, 0]),
        (HnsrOpcode::Error, &[0, 0, 9]),
    ];
    for (opcode, body) in packets {
        let refused = say(&mut relay, b"s", opcode, id, body).unwrap_err();
        assert_eq!(refused.advice(Some(opcode)), Advice::EndConnection);
        assert_eq!(relay.disconnect(&peer(b"s")).map(|routes| routes.len()), Ok(0));
    }
    assert_eq!(relay.status().active_circuits, 1);
    assert!(say(&mut relay, b"r", HnsrOpcode::Data, id, b"x").is_ok());
}
