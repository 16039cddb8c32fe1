//! Which row a refusal was, over lent tables that hold anything.
use crate::chance::good_body;
use crate::random::Random;
use crate::why::{name, ENTRY, ROWS};
use lekchnam_host::lent::{
    self, why, InflightAction, Packet, Places, RelayCircuit, RelayPacket, RelayPending, RelayTicket, ReservationUsage,
    Runtime, RuntimeCounters, StoredPeer, Tables, HANDLE_WORDS,
};
use lekchnam_host::{HnsrOpcode, OpaqueRelayConfig, Row};
use std::collections::{BTreeMap, BTreeSet};

/// Records of a table, by chance; of some the mark is not set.
fn some<Record>(random: &mut Random, mut record: impl FnMut(&mut Random) -> Record) -> Vec<Record> {
    let places = random.below(5);
    (0..places).map(|_| record(random)).collect()
}

/// A number near one that matters.
fn edge(random: &mut Random) -> u64 {
    random.pick(&[0, 1, 2, 9, 10, 11, 20_000, u64::MAX - 1, u64::MAX])
}

fn stored(random: &mut Random) -> StoredPeer {
    let first = random.pick(&[7, 8]);
    StoredPeer { len: random.pick(&[0, 1, 1, 1, 128, 129, usize::MAX]), bytes: [first; 128] }
}

fn ticket(random: &mut Random) -> RelayTicket {
    RelayTicket {
        reservation_id: [random.pick(&[5, 6]); 16].into(),
        expires_at: edge(random),
        max_active_circuits: random.pick(&[0, 1, 9]),
        max_bytes_per_circuit: edge(random),
        max_total_bytes: edge(random),
    }
}

/// Tables as no relay would leave them: ids and names that meet, names of any length, any numbers.
fn tables(random: &mut Random) -> Tables {
    let used = |random: &mut Random| random.below(2) == 0;
    let id = |random: &mut Random| random.below(3) as u64;
    let pending = |random: &mut Random| RelayPending {
        used: used(random),
        circuit_id: id(random),
        requester: stored(random),
        endpoint: stored(random),
        requester_context: id(random),
        ticket: ticket(random),
        initial_window: random.pick(&[16_384, 32_768]),
        deadline: edge(random),
    };
    let circuit = |random: &mut Random| RelayCircuit {
        used: used(random),
        circuit_id: id(random),
        requester: stored(random),
        endpoint: stored(random),
        reservation_id: ticket(random).reservation_id,
        expires_at: edge(random),
        maximum_bytes: edge(random),
        maximum_total_bytes: edge(random),
        requester_credit: edge(random) as u32,
        endpoint_credit: edge(random) as u32,
        forwarded_bytes: edge(random),
        queued_to_requester: edge(random) as usize,
        queued_to_endpoint: edge(random) as usize,
    };
    let usage = |random: &mut Random| {
        let RelayTicket { reservation_id, expires_at, max_total_bytes: bytes, .. } = ticket(random);
        ReservationUsage { used: used(random), reservation_id, bytes, expires_at }
    };
    let action = |random: &mut Random| InflightAction {
        used: used(random),
        generation: 1,
        sequence: edge(random),
        circuit_id: id(random),
        destination: stored(random),
        kind: random.byte(),
        to_endpoint: random.below(2) == 0,
        bytes: edge(random) as usize,
    };
    let number = |random: &mut Random| random.pick(&[0, 2, 4, usize::MAX]);
    Tables {
        pending: some(random, pending),
        circuits: some(random, circuit),
        ledger: some(random, usage),
        inflight: some(random, action),
        places: Places {
            pending: number(random),
            circuits: number(random),
            ledger: number(random),
            actions: number(random),
        },
    }
}

/// Limits that no `new` would take, too; mostly there are as many places as they ask.
fn runtime(random: &mut Random, tables: &Tables) -> Runtime {
    let limit = |random: &mut Random, places: usize| if random.below(8) == 0 { random.below(5) } else { places };
    let few = |random: &mut Random| random.pick(&[0, 2, 9, 9]);
    let config = OpaqueRelayConfig {
        maximum_pending: limit(random, tables.pending.len()),
        maximum_circuits: limit(random, tables.circuits.len()),
        maximum_circuits_per_peer: few(random),
        maximum_queue_bytes: edge(random) as usize,
        maximum_inflight_actions: limit(random, tables.inflight.len()),
        maximum_inflight_actions_per_circuit: few(random).into(),
        maximum_inflight_actions_per_peer: few(random).into(),
        maximum_bytes_per_circuit: edge(random),
        accept_timeout_seconds: edge(random),
    };
    Runtime {
        session: [1; 16],
        generation: 1,
        enabled: random.below(20) != 0,
        trusted_time_high_water: random.pick(&[0, 1]),
        config,
        next_action_sequence: random.pick(&[1, 2, u64::MAX]),
        counters: RuntimeCounters::default(),
    }
}

/// Whatever stands in lent tables, a refusal has its row.
#[test]
fn every_refusal_over_tables_by_chance_has_its_row() {
    use HnsrOpcode::{Accept, Close, Data, Error, Open, Window};
    let mut random = Random::new(15);
    let mut seen: BTreeMap<String, u64> = BTreeMap::new();
    let mut out = vec![0; HANDLE_WORDS];
    let draws: Vec<u8> = [0_u64, 1, 2, 3].map(u64::to_be_bytes).concat();
    for _ in 0..200_000 {
        let mut tables = tables(&mut random);
        let mut runtime = runtime(&mut random, &tables);
        let opcode = random.pick(&[Open, Accept, Data, Window, Close, Error]);
        let head = RelayPacket {
            opcode: opcode.into(),
            context_id: random.below(3) as u64,
            now: edge(&mut random),
            key_valid: random.below(20) != 0,
            admitted: random.below(20) != 0,
            ticket: ticket(&mut random),
        };
        let (source, endpoint) = (stored(&mut random), stored(&mut random));
        let mut body = good_body(random.below(1 << 20) as u64, opcode);
        if random.below(20) == 0 {
            body = random.damaged(&body);
        }
        let random_bytes = &draws[..8 * random.below(5)];
        let (source, endpoint) = (source.as_bytes(), endpoint.as_bytes());
        let packet = Packet { head, source, body: &body, endpoint, random: random_bytes };
        let words = if random.below(50) == 0 { HANDLE_WORDS - 1 } else { HANDLE_WORDS };
        if let Err(refused) = lent::handle(&mut tables, &mut out[..words], &mut runtime, &packet) {
            let row = why(&tables, &runtime, &packet, refused);
            assert_eq!(row.map(Row::refusal), Some(refused), "{opcode:?}");
            *seen.entry(row.map_or_else(String::new, name)).or_default() += 1;
        }
    }
    println!("compared: {} refusals over tables by chance, {} rows", seen.values().sum::<u64>(), seen.len());
    // all but `Opcode`
    let rows: BTreeSet<&str> = ROWS.iter().flat_map(|(_, rows)| *rows).chain(ENTRY).copied().collect();
    let only_here = ["TablesShort", "WordsShort", "SourceName", "RequesterContextZero", "EndedActions Circuit"];
    let expected: BTreeSet<&str> = rows.into_iter().chain(only_here).collect();
    assert_eq!(seen.keys().map(String::as_str).collect::<BTreeSet<_>>(), expected);
}
