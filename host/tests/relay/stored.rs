//! A relay that goes on from stored parts.
use crate::fixture::{circuit, grant, open, peer, relay, restored, say, small, Counting, Relay, START};
use lekchnam_host::lent::{self, Packet, RelayPacket, RelayPending, StatusTold, StoredPeer, Tables};
use lekchnam_host::{HnsrActionId, HnsrOpcode, HnsrRuntimeError, Routes, MAXIMUM_PEER};
use std::collections::HashSet;

/// Every field of every place, also what stands behind a name, which `==` does not look at.
fn raw(tables: &Tables) -> String {
    format!("{tables:?}")
}

/// Whether two relays give the same from here on: answers, words, runtime and tables.
fn same(first: &mut Relay, second: &mut Relay, call: impl Fn(&mut Relay) -> Option<HnsrRuntimeError>) {
    assert_eq!(call(first), call(second));
    assert_eq!(first.words(), second.words());
    assert_eq!(first.runtime(), second.runtime());
    assert_eq!(raw(first.tables()), raw(second.tables()));
    assert_eq!((first.status(), first.next_due()), (second.status(), second.next_due()));
}

#[test]
fn a_stored_relay_goes_on_as_if_nothing_had_been() {
    let mut relay = relay(small());
    let id = circuit(&mut relay, b"r", b"e", 1);
    open(&mut relay, b"r", 2, grant(b"e")).expect("an OPEN");
    assert_eq!(say(&mut relay, b"r", HnsrOpcode::Data, id, b"on the way").expect("DATA").len(), 1);
    let mut other = restored(&relay);
    assert!(other.words().is_empty());

    let action_id = HnsrActionId { generation: 1, sequence: 4 };
    same(&mut relay, &mut other, |relay| relay.acknowledge(action_id, true).err());
    same(&mut relay, &mut other, |relay| say(relay, b"e", HnsrOpcode::Data, id, b"an answer").err());
    same(&mut relay, &mut other, |relay| open(relay, b"r", 3, grant(b"e")).err());
    same(&mut relay, &mut other, |relay| relay.expire(START + 10).err());
    same(&mut relay, &mut other, |relay| relay.acknowledge(action_id, true).err());
    same(&mut relay, &mut other, |relay| relay.replace_enabled(1, false).err());
    assert_eq!(relay.status().active_circuits + relay.status().pending_circuits, 0);
}

#[test]
fn parts_with_too_few_places_are_refused() {
    let (runtime, tables) = relay(small()).into_parts();
    let mut shorter = [tables.clone(), tables.clone(), tables.clone()];
    shorter[0].pending.pop();
    shorter[1].circuits.pop();
    shorter[2].inflight.pop();
    for tables in shorter {
        assert_eq!(Relay::from_parts(runtime, tables, Counting::default()).unwrap_err(), HnsrRuntimeError::Short);
    }
    assert!(Relay::from_parts(runtime, tables, Counting::default()).is_ok());
}

/// Two stored names are the same where the names are, as the relay reads them: no length over the most, nothing behind
/// the name.
#[test]
fn stored_names_are_equal_where_they_read_the_same() {
    let name = |len, behind| {
        let mut bytes = [behind; MAXIMUM_PEER];
        bytes[..2].copy_from_slice(b"ab");
        StoredPeer { len, bytes }
    };
    let names = [0, 1, 2, 3, MAXIMUM_PEER - 1, MAXIMUM_PEER, MAXIMUM_PEER + 1, usize::MAX]
        .map(|len| [name(len, 0), name(len, 9)]);
    for one in names.as_flattened() {
        for other in names.as_flattened() {
            let same = one.as_bytes() == other.as_bytes();
            assert_eq!(one == other, same);
            assert_eq!(HashSet::from([*one, *other]).len(), if same { 1 } else { 2 });
            let record = |requester| RelayPending { requester, ..RelayPending::default() };
            assert_eq!(record(*one) == record(*other), same);
        }
    }
    assert_eq!(name(2, 0), name(2, 9));
    assert_eq!(name(MAXIMUM_PEER, 9), name(usize::MAX, 9));
    assert_ne!(name(3, 0), name(3, 9));
}

/// TAB.9: of a length over 128 the first 128 bytes are the name. A name of no bytes is in a table only where a host put
/// it there.
#[test]
fn names_in_tables_are_read_as_found() {
    for len in [0, 1, MAXIMUM_PEER, MAXIMUM_PEER + 1, usize::MAX] {
        let read = len.min(MAXIMUM_PEER);
        let mut relay = relay(small());
        circuit(&mut relay, b"r", b"e", 1);
        let (runtime, mut tables) = relay.into_parts();
        tables.circuits[0].endpoint = StoredPeer { len, bytes: [7; MAXIMUM_PEER] };
        assert_eq!(tables.circuits[0].endpoint.as_bytes().len(), read);
        let mut relay = Relay::from_parts(runtime, tables, Counting::default()).expect("stored parts");
        let routes = relay.revoke_reservation([5; 16]).expect("not short");
        let names: Vec<usize> = routes.iter().map(|queued| queued.route.destination.as_bytes().len()).collect();
        assert_eq!(names, [1, read]);
        // a name of no bytes is no peer's, and the refusal is told
        let last = routes.iter().last().expect("two routes").route.destination;
        let expected = if read == 0 { Err(HnsrRuntimeError::InvalidPeer) } else { Ok(0) };
        assert_eq!(relay.disconnect(&last).map(|routes| routes.len()), expected);
        assert!(relay.words().is_empty());
    }
}

#[test]
fn an_exhausted_sequence_refuses() {
    let mut relay = relay(small());
    let id = circuit(&mut relay, b"r", b"e", 1);
    let (mut runtime, tables) = relay.into_parts();
    runtime.next_action_sequence = u64::MAX;
    let mut relay = Relay::from_parts(runtime, tables, Counting::default()).expect("stored parts");
    assert_eq!(say(&mut relay, b"r", HnsrOpcode::Data, id, b"x").unwrap_err(), HnsrRuntimeError::GenerationExhausted);
    assert_eq!(relay.revoke_reservation([5; 16]).map(|routes| routes.len()), Ok(0));
    assert_eq!(relay.status().revoked_work, 1);
}

/// The calls over lent tables give what the relay gives that owns them.
#[test]
fn lent_and_owned_agree() {
    let mut relay = relay(small());
    let id = circuit(&mut relay, b"r", b"e", 1);
    let (mut runtime, mut tables) = (*relay.runtime(), relay.tables().clone());
    let mut out = vec![0xdead_beef; tables.most_words()];
    let head = RelayPacket { opcode: HnsrOpcode::Data.into(), context_id: id, now: START, ..RelayPacket::default() };
    let packet = Packet { head, source: b"r", body: b"hello", ..Packet::default() };
    let words = lent::handle(&mut tables, &mut out, &mut runtime, &packet).expect("DATA");
    assert!(out[words..].iter().all(|word| *word == 0xdead_beef), "words beyond stay");

    let routes = say(&mut relay, b"r", HnsrOpcode::Data, id, b"hello").expect("DATA");
    assert_eq!(Routes::new(&out[..words]), routes);
    assert_eq!((relay.runtime(), raw(relay.tables())), (&runtime, raw(&tables)));
    let told = StatusTold {
        status: relay.status(),
        action_capacity: relay.action_capacity(&peer(b"e"), id.to_be_bytes()).expect("a name"),
    };
    assert_eq!(lent::status(&tables, &runtime, b"e", id), Ok(told));
    assert_eq!(lent::next_due(&tables, &runtime), Ok(relay.next_due()));
}
