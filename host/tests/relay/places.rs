//! The numbers of places in use: a place is used exactly if its mark is set and it lies below its table's number.
use crate::fixture::{accept_body, grant, open, peer, relay, restored, say, Counting, Relay, EXPIRY, START};
use lekchnam_host::lent::{
    self, InflightAction, Places, RelayCircuit, RelayPending, RelayTicket, ReservationUsage, Runtime, StoredPeer,
    Tables,
};
use lekchnam_host::{Grant, HnsrActionId, HnsrOpcode, HnsrRuntimeError, OpaqueRelayConfig};
use std::fmt::Debug;

/// Places of the ledger, and of the tables of pending records and circuits.
const FEW: usize = 4;

fn config() -> OpaqueRelayConfig {
    OpaqueRelayConfig { maximum_pending: FEW, maximum_circuits: FEW, ..crate::fixture::small() }
}

/// Every field of every place, also what stands behind a name, which `==` does not look at; but for the numbers.
fn raw(tables: &Tables) -> String {
    format!("{:?}", (&tables.pending, &tables.circuits, &tables.ledger, &tables.inflight))
}

/// The tables as they are seen: the marks at and above the numbers cleared, and then every mark counts.
fn seen(tables: &Tables) -> Tables {
    let (Places { pending, circuits, ledger, actions }, mut seen) = (tables.places, tables.clone());
    seen.pending.iter_mut().skip(pending).for_each(|record| record.used = false);
    seen.circuits.iter_mut().skip(circuits).for_each(|record| record.used = false);
    seen.ledger.iter_mut().skip(ledger).for_each(|record| record.used = false);
    seen.inflight.iter_mut().skip(actions).for_each(|record| record.used = false);
    Tables { places: Places::EVERY, ..seen }
}

/// The records, each with its place.
fn records(tables: &Tables) -> String {
    fn used<Record: Debug>(table: &[Record], used: fn(&Record) -> bool) -> String {
        format!("{:?}", table.iter().enumerate().filter(|(_, record)| used(record)).collect::<Vec<_>>())
    }
    let seen = tables.in_use();
    [
        used(seen.pending, |record| record.used),
        used(seen.circuits, |record| record.used),
        used(seen.ledger, |record| record.used),
        used(seen.inflight, |record| record.used),
    ]
    .join("\n")
}

fn name(name: &[u8]) -> StoredPeer {
    peer(name).into()
}

/// Every place has its mark set, and holds what the calls of `LIFE` would find, count or end.
fn littered() -> Tables {
    let ticket = RelayTicket {
        reservation_id: [5; 16].into(),
        expires_at: EXPIRY,
        max_active_circuits: 100,
        max_bytes_per_circuit: 20_000,
        max_total_bytes: 30_000,
    };
    let pending = RelayPending {
        used: true,
        circuit_id: 1,
        requester: name(b"r"),
        endpoint: name(b"e"),
        requester_context: 1,
        ticket,
        initial_window: 32_768,
        deadline: START + 5,
    };
    let circuit = RelayCircuit {
        used: true,
        circuit_id: 2,
        requester: name(b"r"),
        endpoint: name(b"e"),
        reservation_id: ticket.reservation_id,
        expires_at: START + 5,
        maximum_bytes: 20_000,
        maximum_total_bytes: 30_000,
        requester_credit: 1_000,
        endpoint_credit: 1_000,
        forwarded_bytes: 7,
        queued_to_requester: 3,
        queued_to_endpoint: 4,
    };
    let usage =
        ReservationUsage { used: true, reservation_id: ticket.reservation_id, bytes: 30_000, expires_at: START + 5 };
    let action = InflightAction {
        used: true,
        generation: 1,
        sequence: 1,
        circuit_id: 1,
        destination: name(b"e"),
        kind: 0,
        to_endpoint: true,
        bytes: 9,
    };
    Tables {
        pending: vec![pending; FEW],
        circuits: vec![circuit; FEW],
        ledger: vec![usage; FEW],
        inflight: vec![action; config().maximum_inflight_actions],
        places: Places::EVERY,
    }
}

type Step = fn(&mut Relay) -> Result<(), HnsrRuntimeError>;

fn action(sequence: u64) -> HnsrActionId {
    HnsrActionId { generation: 1, sequence }
}

fn other_grant(endpoint: &[u8]) -> Grant<'_> {
    Grant { reservation_id: [6; 16], ..grant(endpoint) }
}

/// Calls that look into every table, make records in each, and end them.
const LIFE: &[Step] = &[
    |relay| relay.disconnect(&peer(b"nobody")).map(drop),
    |relay| relay.acknowledge(action(1), true).map(drop),
    |relay| say(relay, b"r", HnsrOpcode::Data, 2, b"x").map(drop),
    |relay| say(relay, b"e", HnsrOpcode::Accept, 1, &accept_body()).map(drop),
    |relay| open(relay, b"r", 1, grant(b"e")).map(drop),
    |relay| open(relay, b"r", 2, other_grant(b"e")).map(drop),
    |relay| say(relay, b"e", HnsrOpcode::Accept, 1, &accept_body()).map(drop),
    |relay| say(relay, b"e", HnsrOpcode::Accept, 3, &accept_body()).map(drop),
    |relay| say(relay, b"e", HnsrOpcode::Accept, 5, &accept_body()).map(drop),
    |relay| say(relay, b"r", HnsrOpcode::Data, 1, b"hello").map(drop),
    |relay| say(relay, b"r", HnsrOpcode::Data, 2, b"hello").map(drop),
    |relay| say(relay, b"e", HnsrOpcode::Window, 1, &[1, 0, 0, 0]).map(drop),
    |relay| relay.acknowledge(action(2), true).map(drop),
    |relay| relay.acknowledge(action(3), true).map(drop),
    |relay| relay.acknowledge(action(4), true).map(drop),
    |relay| open(relay, b"s", 1, other_grant(b"r")).map(drop),
    |relay| open(relay, b"s", 2, grant(b"r")).map(drop),
    |relay| say(relay, b"s", HnsrOpcode::Close, 1, &[0, 0, 0]).map(drop),
    |relay| say(relay, b"e", HnsrOpcode::Close, 2, &[0, 0, 0]).map(drop),
    |relay| relay.acknowledge(action(6), false).map(drop),
    |relay| relay.revoke_reservation([6; 16]).map(drop),
    |relay| open(relay, b"t", 3, other_grant(b"u")).map(drop),
    |relay| relay.expire(START + 10).map(drop),
    |relay| relay.disconnect(&peer(b"r")).map(drop),
    |relay| relay.replace_enabled(1, false).map(drop),
    |relay| relay.observe_time(START + 11),
];

/// Status, what is due next, and how many more routes fit toward e by the first circuit.
fn told(relay: &Relay) -> impl Debug + PartialEq {
    (relay.status(), relay.next_due(), relay.action_capacity(&peer(b"e"), 1_u64.to_be_bytes()))
}

/// Two relays give the same from here on: answers, words, runtime, what they tell, and every record at its place.
fn live_alike(mut one: Relay, mut other: Relay) {
    for (number, step) in LIFE.iter().enumerate() {
        assert_eq!(told(&one), told(&other), "before step {number}");
        assert_eq!(step(&mut one), step(&mut other), "step {number}");
        assert_eq!(one.words(), other.words(), "step {number}");
        assert_eq!(one.runtime(), other.runtime(), "step {number}");
        assert_eq!(records(one.tables()), records(other.tables()), "step {number}");
    }
}

/// A relay whose first id is, of those that `settled` leaves, the last.
fn from_parts(runtime: Runtime, tables: Tables) -> Relay {
    let drawn = runtime.counters.admitted_opens.saturating_sub(1);
    Relay::from_parts(runtime, tables, Counting(drawn)).expect("places enough")
}

#[test]
fn a_new_relay_touches_no_table() {
    let mut tables = littered();
    let found = raw(&tables);
    let runtime = lent::new(&mut tables, [1; 16], 1, config(), START).expect("a relay");
    assert_eq!((raw(&tables), tables.places), (found, Places::NONE));

    let told = lent::status(&tables, &runtime, b"e", 1).expect("places enough");
    // of the actions that stand in the places none counts
    assert_eq!(told.action_capacity, 8);
    let told = told.status;
    let counts = [told.pending_circuits, told.active_circuits, told.queued_bytes, told.queued_actions];
    assert_eq!((counts, lent::next_due(&tables, &runtime)), ([0; 4], Ok(None)));
    // the first record of each table takes its lowest place, over what stood there
    let mut littered = from_parts(runtime, tables.clone());
    assert_eq!(open(&mut littered, b"r", 1, grant(b"e")), Ok(1));
    assert_eq!(littered.tables().places, Places { pending: 1, circuits: 0, ledger: 1, actions: 1 });
    assert_eq!((littered.status().pending_circuits, littered.status().queued_actions), (1, 1));
    assert_eq!(littered.tables().ledger[0].bytes, 0);

    live_alike(from_parts(runtime, tables), relay(config()));
}

#[test]
fn a_refused_new_leaves_the_tables_and_their_numbers() {
    let mut tables = littered();
    for places in [Places::NONE, Places::EVERY, Places { pending: 3, circuits: 2, ledger: 1, actions: 0 }] {
        tables.places = places;
        let before = tables.clone();
        for (session, generation) in [([0; 16], 1), ([1; 16], 0)] {
            let refused = lent::new(&mut tables, session, generation, config(), START);
            assert_eq!(refused, Err(HnsrRuntimeError::InvalidSession));
        }
        let more = OpaqueRelayConfig { maximum_pending: FEW + 1, ..config() };
        assert_eq!(lent::new(&mut tables, [1; 16], 1, more, START), Err(HnsrRuntimeError::Short));
        assert_eq!((raw(&tables), tables.places), (raw(&before), places));
    }
}

/// Two pending records, two circuits, two ledger records and four actions, each in the lowest places.
fn settled() -> (Runtime, Tables) {
    let mut relay = relay(config());
    for (context, grant) in [(1, grant(b"e")), (2, other_grant(b"e"))] {
        let id = open(&mut relay, b"r", context, grant).expect("an OPEN");
        let opened = say(&mut relay, b"e", HnsrOpcode::Accept, id, &accept_body()).expect("an ACCEPT");
        assert_eq!(opened.len(), 1);
    }
    for (context, grant) in [(3, grant(b"e")), (4, other_grant(b"e"))] {
        open(&mut relay, b"r", context, grant).expect("an OPEN");
    }
    let (runtime, tables) = relay.into_parts();
    assert_eq!(tables.places, Places { pending: 2, circuits: 2, ledger: 2, actions: 4 });
    (runtime, tables)
}

/// Whatever the numbers are, a relay is that over its tables as they are seen.
#[test]
fn all_numbers_mean_the_tables_as_they_are_seen() {
    let (runtime, tables) = settled();
    let numbers = [0, 1, 2, FEW, usize::MAX];
    for (pending, circuits, ledger, actions) in fours(&numbers) {
        let tables = Tables { places: Places { pending, circuits, ledger, actions }, ..tables.clone() };
        live_alike(from_parts(runtime, tables.clone()), from_parts(runtime, seen(&tables)));
    }
}

fn fours(numbers: &[usize]) -> impl Iterator<Item = (usize, usize, usize, usize)> + '_ {
    let pairs = || numbers.iter().flat_map(|one| numbers.iter().map(|other| (*one, *other)));
    pairs().flat_map(move |(a, b)| pairs().map(move |(c, d)| (a, b, c, d)))
}

#[test]
fn records_above_a_number_that_is_too_small_are_unused() {
    let (runtime, mut tables) = settled();
    let hidden = (tables.pending[1], tables.circuits[1], tables.ledger[1], tables.inflight[1]);
    tables.places = Places { pending: 1, circuits: 1, ledger: 1, actions: 1 };
    let mut relay = from_parts(runtime, tables);
    // not counted
    let told = relay.status();
    assert_eq!((told.pending_circuits, told.active_circuits, told.queued_actions), (1, 1, 1));
    // not found
    let (pending, circuit) = (hidden.0.circuit_id, hidden.1.circuit_id);
    let accept = say(&mut relay, b"e", HnsrOpcode::Accept, pending, &accept_body());
    assert_eq!(accept.unwrap_err(), HnsrRuntimeError::UnknownRequest);
    assert_eq!(say(&mut relay, b"r", HnsrOpcode::Data, circuit, b"x").unwrap_err(), HnsrRuntimeError::UnknownCircuit);
    assert_eq!(relay.acknowledge(action(hidden.3.sequence), true).unwrap_err(), HnsrRuntimeError::UnknownAction);
    // not ended: what goes by the second reservation is all hidden
    assert!(relay.revoke_reservation([6; 16]).expect("not short").is_empty());
    let left = relay.tables();
    assert_eq!((left.pending[1], left.circuits[1], left.ledger[1], left.inflight[1]), hidden);
    // written over by the next record
    let mut relay = restored(&relay);
    let id = open(&mut relay, b"s", 7, other_grant(b"f")).expect("an OPEN");
    let tables = relay.tables();
    assert_eq!((tables.pending[1].circuit_id, tables.pending[1].requester), (id, name(b"s")));
    assert_eq!((tables.ledger[1].reservation_id, tables.ledger[1].bytes), ([6; 16].into(), 0));
    assert_eq!((tables.inflight[1].circuit_id, tables.circuits[1]), (id, hidden.1));
    assert_eq!(tables.places, Places { pending: 2, circuits: 1, ledger: 2, actions: 2 });
}

#[test]
fn numbers_larger_than_the_tables_are_as_every() {
    let (runtime, tables) = settled();
    let with = |places| from_parts(runtime, Tables { places, ..tables.clone() });
    for more in [0, 1, usize::MAX - config().maximum_inflight_actions] {
        let places = Places {
            pending: FEW + more,
            circuits: FEW + more,
            ledger: tables.ledger.len() + more,
            actions: config().maximum_inflight_actions + more,
        };
        assert_eq!(with(places).status(), with(tables.places).status());
        live_alike(with(places), with(Places::EVERY));
        live_alike(with(places), with(tables.places));
    }
}
