//! A call that ends one circuit.
use crate::chance::{Chance, Parts};
use crate::fixture::{circuit, grant, open, peer, relay, say, small, Counting, Relay, START};
use lekchnam_host::body::{CloseBody, ProtocolError};
use lekchnam_host::lent::{RelayCircuit, RelayPending, Tables};
use lekchnam_host::limits::MAX_DETAIL_SIZE;
use lekchnam_host::HnsrRuntimeError::{self, *};
use lekchnam_host::{EndedCircuit, HnsrOpcode, HnsrPeerId, OpaqueRelayConfig, QueuedHnsrRouteBuf};

const REASON: u16 = 11;
const DETAIL: &str = "the host ended it";

fn end(relay: &mut Relay, id: u64) -> Result<EndedCircuit, HnsrRuntimeError> {
    relay.end_circuit(id.to_be_bytes(), REASON, DETAIL, START)
}

/// Whom a CLOSE goes to, and under which context.
type Told = (HnsrPeerId, u64);

fn told(name: &[u8], context: u64) -> Told {
    (peer(name), context)
}

/// Who hears by a route that counts, and who by packets that do not; each packet is the CLOSE that was asked for.
fn heard(ended: &EndedCircuit) -> (Option<Told>, Vec<Told>) {
    let routes = ended.counted.iter().map(|queued| &queued.route).chain(&ended.uncounted);
    let mut told = Vec::new();
    for route in routes {
        assert_eq!(route.packet.opcode, HnsrOpcode::Close);
        let body = CloseBody { reason: REASON, detail: DETAIL };
        assert_eq!(CloseBody::decode(&route.packet.body), Ok(body));
        told.push((route.destination, u64::from_be_bytes(route.packet.context_id)));
    }
    let uncounted = told.split_off(usize::from(ended.counted.is_some()));
    (told.pop(), uncounted)
}

/// With the counted route acknowledged, nothing is left of it.
fn nothing_left(relay: &mut Relay, ended: &EndedCircuit) {
    if let Some(QueuedHnsrRouteBuf { action_id, .. }) = ended.counted {
        assert_eq!(relay.acknowledge(action_id, true).map(|routes| routes.len()), Ok(0));
    }
    let status = relay.status();
    let counts = [status.pending_circuits, status.active_circuits, status.queued_actions, status.queued_bytes];
    assert_eq!(counts, [0; 4]);
    assert_eq!(status.revoked_work, 1);
}

#[test]
fn a_circuit() {
    let mut relay = relay(small());
    let id = circuit(&mut relay, b"r", b"e", 9);
    let _ = say(&mut relay, b"r", HnsrOpcode::Data, id, b"on the way").expect("DATA");
    let ended = end(&mut relay, id).expect("a circuit");
    assert_eq!(heard(&ended), (Some(told(b"r", id)), vec![told(b"e", id)]));
    nothing_left(&mut relay, &ended);
    assert_eq!(end(&mut relay, id), Err(UnknownCircuit));
}

#[test]
fn an_open_that_waits() {
    let mut relay = relay(small());
    let id = open(&mut relay, b"r", 9, grant(b"e")).expect("an OPEN");
    let ended = end(&mut relay, id).expect("an OPEN");
    assert_eq!(heard(&ended), (Some(told(b"r", 9)), vec![told(b"e", id)]));
    nothing_left(&mut relay, &ended);
}

/// An endpoint that asks, under its own context, with the very number of the id that it was told.
#[test]
fn where_the_endpoint_could_mean_another_it_is_as_of_the_requester() {
    let mut waiting = relay(small());
    let id = open(&mut waiting, b"r", 9, grant(b"e")).expect("an OPEN");
    open(&mut waiting, b"e", id, grant(b"f")).expect("an OPEN");
    let ended = end(&mut waiting, id).expect("an OPEN");
    assert_eq!(heard(&ended), (Some(told(b"e", id)), vec![told(b"r", 9)]));
    assert_eq!(waiting.status().pending_circuits, 1);

    let mut open_circuit = relay(small());
    let id = circuit(&mut open_circuit, b"r", b"e", 9);
    let other = open(&mut open_circuit, b"e", id, grant(b"f")).expect("an OPEN");
    let ended = end(&mut open_circuit, id).expect("a circuit");
    assert_eq!(heard(&ended), (Some(told(b"e", id)), vec![told(b"r", id)]));
    assert_eq!((open_circuit.status().active_circuits, open_circuit.status().pending_circuits), (0, 1));
    assert!(end(&mut open_circuit, other).is_ok());
}

#[test]
fn where_both_could_mean_others_nothing_is_ended() {
    let config = OpaqueRelayConfig { maximum_pending: 3, ..small() };
    let mut waiting = relay(config);
    let id = open(&mut waiting, b"r", 9, grant(b"e")).expect("an OPEN");
    let by_endpoint = open(&mut waiting, b"e", id, grant(b"f")).expect("an OPEN");
    let mut open_circuit = relay(config);
    assert_eq!(circuit(&mut open_circuit, b"r", b"e", 9), id);
    open(&mut open_circuit, b"e", id, grant(b"f")).expect("an OPEN");
    open(&mut open_circuit, b"r", id, grant(b"f")).expect("an OPEN");

    // the requester of the first is asked under the number that is its context
    let (runtime, mut tables) = waiting.into_parts();
    tables.pending[2] = RelayPending { circuit_id: 9, endpoint: peer(b"r").into(), ..tables.pending[1] };
    tables.pending[2].requester_context = 3;
    tables.places.pending = 3;
    let mut waiting = Relay::from_parts(runtime, tables, Counting::default()).expect("stored parts");

    for (relay, others) in [(&mut waiting, [by_endpoint, 9]), (&mut open_circuit, [2, 3])] {
        let before = (relay.tables().clone(), *relay.runtime());
        assert_eq!(end(relay, id), Err(InvalidAdmission));
        assert_eq!((relay.tables(), relay.runtime()), (&before.0, &before.1));
        // one of the others ended first helps
        assert!(end(relay, others[0]).is_ok());
        assert!(end(relay, id).is_ok());
    }
}

/// The relay ends the record before it asks for room, so the host has both packets.
#[test]
fn without_room_or_numbers_both_hear_uncounted() {
    let config = OpaqueRelayConfig {
        maximum_pending: 4,
        maximum_inflight_actions: 2,
        maximum_inflight_actions_per_circuit: 2,
        maximum_inflight_actions_per_peer: 2,
        ..small()
    };
    let acknowledged = |relay: &mut Relay| {
        let action_id = relay.routes().iter().next().expect("a route").action_id;
        assert!(relay.acknowledge(action_id, true).is_ok());
    };
    let full = |mut relay: Relay| {
        acknowledged(&mut relay);
        for requester in [b"s", b"t"] {
            open(&mut relay, requester, 1, grant(b"f")).expect("an OPEN");
        }
        relay
    };
    let numberless = |relay: Relay| {
        let (mut runtime, tables) = relay.into_parts();
        runtime.next_action_sequence = u64::MAX;
        Relay::from_parts(runtime, tables, Counting::default()).expect("stored parts")
    };
    let hindrances: [&dyn Fn(Relay) -> Relay; 2] = [&full, &numberless];
    for hindered in hindrances {
        let mut one = relay(config);
        let id = circuit(&mut one, b"r", b"e", 9);
        let mut one = hindered(one);
        let ended = end(&mut one, id).expect("a circuit");
        assert_eq!(heard(&ended), (None, vec![told(b"r", id), told(b"e", id)]));
        assert_eq!((one.status().active_circuits, one.status().revoked_work), (0, 1));

        let mut one = relay(config);
        let id = open(&mut one, b"r", 9, grant(b"e")).expect("an OPEN");
        let mut one = hindered(one);
        let ended = end(&mut one, id).expect("an OPEN");
        assert_eq!(heard(&ended), (None, vec![told(b"r", 9), told(b"e", id)]));
        assert_eq!(one.status().revoked_work, 1);
        assert_eq!(end(&mut one, id), Err(UnknownCircuit));
    }
}

#[test]
fn refusals_end_nothing() {
    let mut relay = relay(small());
    let id = circuit(&mut relay, b"r", b"e", 9);
    let mut ended = |id: u64, detail: &str, now| relay.end_circuit(id.to_be_bytes(), REASON, detail, now).map(drop);
    assert_eq!(ended(id + 1, DETAIL, START), Err(UnknownCircuit));
    assert_eq!(ended(id, DETAIL, START - 1), Err(ClockRollback));
    for actual in [MAX_DETAIL_SIZE + 1, 255, 256, 300, 512, 70_000] {
        let long = ProtocolError::TooLarge { actual, maximum: MAX_DETAIL_SIZE };
        assert_eq!(ended(id, &"x".repeat(actual), START), Err(Protocol(long)));
    }
    let (mut runtime, tables) = relay.into_parts();
    assert_eq!(runtime.counters.revoked_work, 0);
    runtime.enabled = false;
    let mut off = Relay::from_parts(runtime, tables, Counting::default()).expect("stored parts");
    assert_eq!(end(&mut off, id), Err(Disabled));
    assert_eq!(off.status().active_circuits, 1);

    let (mut runtime, tables) = off.into_parts();
    runtime.enabled = true;
    let mut on = Relay::from_parts(runtime, tables, Counting::default()).expect("stored parts");
    let detail = "x".repeat(MAX_DETAIL_SIZE);
    let ended = on.end_circuit(id.to_be_bytes(), 0, &detail, START).expect("a circuit");
    assert_eq!(CloseBody::decode(&ended.uncounted[0].packet.body), Ok(CloseBody { reason: 0, detail: &detail }));
}

/// Only tables that a host put together have an OPEN whose context is zero: its requester cannot be told.
#[test]
fn a_requester_without_a_context_is_left_out() {
    let mut relay = relay(small());
    let id = open(&mut relay, b"r", 9, grant(b"e")).expect("an OPEN");
    let (runtime, mut tables) = relay.into_parts();
    tables.pending[0].requester_context = 0;
    let mut relay = Relay::from_parts(runtime, tables, Counting::default()).expect("stored parts");
    let ended = end(&mut relay, id).expect("an OPEN");
    assert_eq!(heard(&ended), (None, vec![told(b"e", id)]));
    nothing_left(&mut relay, &ended);
}

/// The records that there are, each with what its sides call it.
fn records(tables: &Tables) -> Vec<(u64, Told, Told)> {
    let seen = tables.in_use();
    let name = |peer: &[u8], context| told(peer, context);
    let waiting = |record: &RelayPending| {
        let requester = name(record.requester.as_bytes(), record.requester_context);
        (record.circuit_id, requester, name(record.endpoint.as_bytes(), record.circuit_id))
    };
    let circuit = |record: &RelayCircuit| {
        let context = record.circuit_id;
        (context, name(record.requester.as_bytes(), context), name(record.endpoint.as_bytes(), context))
    };
    let circuits = seen.circuits.iter().filter(|record| record.used).map(circuit);
    seen.pending.iter().filter(|record| record.used).map(waiting).chain(circuits).collect()
}

/// In relays as they come by chance each record can be ended: it alone goes, and both sides hear once.
#[test]
fn each_record_by_chance() {
    let (mut counted, mut uncounted, mut ambiguous) = (0, 0, 0);
    for seed in 0..64 {
        let mut chance = Chance::new(seed);
        for _ in 0..500 {
            let call = chance.call();
            // taken or refused: whatever comes of it
            let _ = call.made(&mut chance.relay);
            chance.between();
            let before = records(chance.relay.tables());
            if before.is_empty() {
                continue;
            }
            let record = chance.random.pick(&before);
            let (id, requester, endpoint) = record;
            let mut relay = Parts::of(&chance.relay).relay();
            let now = relay.status().trusted_time_high_water;
            let ended = relay.end_circuit(id.to_be_bytes(), REASON, DETAIL, now);
            let after = records(relay.tables());
            match ended {
                Ok(ended) => {
                    let (first, mut all) = heard(&ended);
                    all.extend(first);
                    all.sort();
                    let mut sides = [requester, endpoint];
                    sides.sort();
                    assert_eq!(all, sides);
                    assert_eq!(after, before.into_iter().filter(|other| *other != record).collect::<Vec<_>>());
                    let queued = relay.status().queued_actions;
                    match ended.counted {
                        Some(QueuedHnsrRouteBuf { action_id, .. }) => {
                            counted += 1;
                            assert!(relay.acknowledge(action_id, true).is_ok());
                            assert_eq!(relay.status().queued_actions, queued - 1);
                        }
                        None => uncounted += 1,
                    }
                    // nothing is outstanding under the id
                    let seen = relay.tables().in_use().inflight;
                    assert!(!seen.iter().any(|action| action.used && action.circuit_id == id));
                }
                Err(refused) => {
                    ambiguous += 1;
                    assert_eq!((refused, after), (InvalidAdmission, before));
                }
            }
        }
    }
    assert!(counted > 5_000 && uncounted > 100 && ambiguous > 0, "{counted}, {uncounted}, {ambiguous}");
    println!("compared: {counted} records ended with a route, {uncounted} without room for one, {ambiguous} not named");
}
