//! Who was not told of an end, since there was no room for a notice.
use crate::chance::{Chance, Drawing, Parts, NAMES};
use crate::fixture::{circuit, grant, open, peer, relay, say, small, Relay};
use lekchnam_host::body::CloseBody;
use lekchnam_host::{
    ActionKind, Admission, CircuitSide, HnsrOpcode, HnsrPacket, HnsrRuntimeError, HnsrRuntimeError::*,
    OpaqueRelayConfig, OpaqueRelayRuntime,
};

/// A record's id, whether it waits, and its sides: requester, endpoint.
type Record = ([u8; 8], bool, [CircuitSide; 2]);

fn records<Random>(relay: &OpaqueRelayRuntime<Random>) -> Vec<Record> {
    let side = |peer, context_id| CircuitSide { peer, context_id };
    let pending = relay.pending().map(|open| {
        let id = open.circuit_id;
        (id, true, [side(open.requester, open.requester_context), side(open.grant.endpoint, id)])
    });
    let circuits = relay.circuits().map(|circuit| {
        let id = circuit.circuit_id;
        (id, false, [side(circuit.requester, id), side(circuit.endpoint, id)])
    });
    pending.chain(circuits).collect()
}

type Made = dyn Fn(&mut Drawing) -> Result<(), HnsrRuntimeError>;
type Hears = dyn Fn(&Record, usize) -> bool;

/// One call that may end records, and whom of a record's sides it tells.
struct Ending {
    made: Box<Made>,
    hears: Box<Hears>,
}

/// Every such call over this relay.
fn endings(relay: &Drawing) -> Vec<Ending> {
    let (now, generation) = (relay.status().trusted_time_high_water, relay.status().generation);
    let mut endings: Vec<Ending> = Vec::new();
    for name in NAMES {
        endings.push(Ending {
            made: Box::new(move |relay| relay.disconnect(&peer(name)).map(drop)),
            hears: Box::new(move |record, side| record.2[side].peer != peer(name)),
        });
    }
    let both = || Box::new(|_: &Record, _| true);
    // at the end of each record, and at times between
    let ends = relay.circuits().map(|circuit| circuit.expires_at).chain(relay.pending().map(|open| open.deadline));
    for later in [now, now.saturating_add(5), now.saturating_add(200)].into_iter().chain(ends) {
        endings.push(Ending { made: Box::new(move |relay| relay.expire(later).map(drop)), hears: both() });
    }
    for byte in [5, 6, 7] {
        let made = move |relay: &mut Drawing| relay.revoke_reservation([byte; 16]).map(drop);
        endings.push(Ending { made: Box::new(made), hears: both() });
    }
    let off = move |relay: &mut Drawing| relay.replace_enabled(generation, false).map(drop);
    endings.push(Ending { made: Box::new(off), hears: both() });
    for action in relay.actions() {
        let incoming = action.kind == ActionKind::Incoming;
        endings.push(Ending {
            made: Box::new(move |relay| relay.acknowledge(action.action_id, false).map(drop)),
            hears: Box::new(move |_, side| !incoming || side == 0),
        });
    }
    for sender in records(relay).into_iter().flat_map(|record| record.2) {
        let close = CloseBody { reason: 1, detail: "by one side" }.encode().expect("a CLOSE");
        let made = move |relay: &mut Drawing| {
            let packet = HnsrPacket { opcode: HnsrOpcode::Close, context_id: sender.context_id, body: &close };
            relay.handle(&Admission::Refused, &sender.peer, &packet, now).map(drop)
        };
        endings.push(Ending { made: Box::new(made), hears: Box::new(move |record, side| record.2[side] != sender) });
    }
    endings
}

/// Of what a call ended each side that is to hear has a route or is untold, and nobody else is untold.
#[test]
fn each_side_has_a_route_or_is_untold() {
    let (mut ends, mut untold) = (0, 0);
    for seed in 0..96 {
        let mut chance = Chance::new(seed);
        for turn in 0..300 {
            // taken or refused: whatever comes of it
            let _ = chance.call().made(&mut chance.relay);
            chance.between();
            if turn % 10 != 0 {
                continue;
            }
            let before = records(&chance.relay);
            for ending in endings(&chance.relay) {
                let mut relay = Parts::of(&chance.relay).relay();
                let answer = (ending.made)(&mut relay);
                let after = records(&relay);
                let ended = before.iter().filter(|record| !after.contains(record));
                let sides = ended.flat_map(|record| [0, 1].map(|side| (record, side)));
                let hear = sides.filter(|(record, side)| (ending.hears)(record, *side));
                let mut hear: Vec<CircuitSide> = hear.map(|(record, side)| record.2[side]).collect();
                ends += hear.len();
                let told = relay.routes().iter().map(|queued| queued.route);
                let told: Vec<_> = told.map(|route| (route.destination, route.packet.context_id)).collect();
                assert!(answer.is_ok() || told.is_empty());
                hear.retain(|side| !told.contains(&(side.peer, side.context_id)));
                untold += hear.len();
                assert_eq!(relay.untold(), hear, "seed {seed}: {answer:?}");
                let outgoing = relay.outgoing();
                let sent = outgoing.iter().map(|one| (one.route.destination, one.route.packet.context_id));
                let notices = hear.iter().map(|side| (side.peer, side.context_id));
                assert_eq!(sent.collect::<Vec<_>>(), told.iter().copied().chain(notices).collect::<Vec<_>>());
                assert!(outgoing.iter().take(told.len()).all(|one| one.action_id.is_some()));
                assert!(outgoing.iter().skip(told.len()).all(|one| one.action_id.is_none()));
            }
        }
    }
    assert!(ends > 20_000 && untold > 1_000, "{ends} to hear, {untold} of them untold");
    println!("compared: {ends} sides to hear of an end, {untold} of them untold");
}

/// A circuit between `c` and `b`, and as many routes toward `b` as may be.
fn full() -> (Relay, u64) {
    let mut relay = relay(OpaqueRelayConfig { maximum_inflight_actions: 20, ..small() });
    let id = circuit(&mut relay, b"c", b"b", 1);
    assert!(relay.acknowledge(relay.oldest_action().expect("an OPENED").action_id, true).is_ok());
    for context in 2..=9 {
        open(&mut relay, b"a", context, grant(b"b")).expect("an OPEN");
        let _ = say(&mut relay, b"a", HnsrOpcode::Close, context, b"\0\0\0").expect("a CLOSE");
    }
    assert_eq!(open(&mut relay, b"a", 10, grant(b"b")), Err(Capacity));
    (relay, id)
}

/// `b` reads nothing, so no notice has room. When `c` goes, the host is who tells `b`.
#[test]
fn a_peer_that_is_full_is_told_by_the_host() {
    let (mut relay, id) = full();
    let told = relay.disconnect(&peer(b"c")).expect("a name").to_vec();
    assert_eq!(told.iter().map(|queued| queued.route.destination).collect::<Vec<_>>(), [peer(b"c")]);
    let side = CircuitSide { peer: peer(b"b"), context_id: id.to_be_bytes() };
    assert_eq!(relay.untold(), [side]);
    let route = side.close(11, "the other side is gone").expect("a CLOSE");
    assert_eq!((route.destination, route.packet.context_id), (peer(b"b"), id.to_be_bytes()));
    // of the next call nobody is untold
    assert!(relay.observe_time(200).is_ok() && relay.untold().is_empty());
}

/// Refused with 10, a CLOSE has ended its circuit all the same. The host passes it on as it is.
#[test]
fn the_other_side_of_a_refused_close_is_untold() {
    let (mut relay, id) = full();
    let said = CloseBody { reason: 0, detail: "all paid" }.encode().expect("a CLOSE");
    assert_eq!(say(&mut relay, b"c", HnsrOpcode::Close, id, &said).map(|routes| routes.len()), Err(Capacity));
    assert_eq!(relay.untold(), [CircuitSide { peer: peer(b"b"), context_id: id.to_be_bytes() }]);
    assert_eq!(relay.status().active_circuits, 0);
    let [outgoing] = &relay.outgoing()[..] else { panic!("one notice") };
    let packet = HnsrPacket { opcode: HnsrOpcode::Close, context_id: id.to_be_bytes(), body: &said };
    assert_eq!((outgoing.action_id, outgoing.route.destination), (None, peer(b"b")));
    assert_eq!(outgoing.route.packet.as_packet(), packet);
}

/// It hands out itself what is to be sent, and what the call before it left is not sent twice.
#[test]
fn behind_end_circuit_nothing_is_outgoing() {
    let mut one = relay(small());
    let id = circuit(&mut one, b"c", b"b", 1);
    let _ = say(&mut one, b"c", HnsrOpcode::Data, id, b"x").expect("DATA");
    assert_eq!(one.outgoing().len(), 1);
    assert_eq!(one.end_circuit([9; 8], 0, "", 100).map(drop), Err(UnknownCircuit));
    assert!(one.outgoing().is_empty() && one.routes().is_empty());
    let ended = one.end_circuit(id.to_be_bytes(), 0, "", 100).expect("a circuit");
    let numbered = |ended: lekchnam_host::EndedCircuit| ended.into_iter().map(|one| one.action_id.is_some());
    assert_eq!(numbered(ended).collect::<Vec<_>>(), [true, false]);
    assert!(one.outgoing().is_empty());

    let (mut full, id) = full();
    let ended = full.end_circuit(id.to_be_bytes(), 0, "", 100).expect("a circuit");
    let sides = ended.into_iter().map(|one| one.route.destination).collect::<Vec<_>>();
    assert_eq!((sides.len(), full.outgoing().len()), (2, 0));
}
