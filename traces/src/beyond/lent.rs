//! Worlds that no run leaves: runtimes and tables by chance, of few names and ids, so that they meet.
use crate::Config;
use crate::reading::World;
use crate::rng::Rng;
use lekchnam_host::lent::{
    InflightAction, Places, RelayCircuit, RelayPending, RelayTicket, ReservationId, ReservationUsage, Runtime,
    RuntimeCounters, StoredPeer, Tables,
};
use lekchnam_host::limits::{
    MAX_CIRCUIT_QUEUE, MAX_CIRCUITS, MAX_DATA_SIZE, MAX_OPEN_DEADLINE_SECONDS, MAX_WINDOW, MAXIMUM_PEER, MIN_WINDOW,
};

/// No table has more places than this and some; limits above it are never met.
const MOST_PLACES: usize = 6;
const TOP: u64 = u64::MAX;
const LONG_NAME: [u8; MAXIMUM_PEER] = [b'x'; MAXIMUM_PEER];

/// Alike but for one byte, or of one byte.
const NAMES: [&[u8]; 6] =
    [b"a", b"b", b"peer-number-0001", b"peer-number-0002", b"peer-number-1001", b"deer-number-0001"];

/// Ids and contexts.
pub fn id(rng: &mut Rng) -> u64 {
    if rng.chance(4) { 0 } else { *rng.pick(&[1, 1, 2, 2, 3, 3, 1 << 56, TOP]) }
}

pub fn reservation(rng: &mut Rng) -> ReservationId {
    let (high, low) =
        if rng.chance(4) { (0, 0) } else { *rng.pick(&[(0, 1), (0, 1), (0, 1), (0, 2), (0, 2), (1, 0), (TOP, TOP)]) };
    ReservationId { high, low }
}

/// A name as a record may hold it: of no bytes, of more than the most, with what it likes behind.
pub fn stored_name(rng: &mut Rng) -> StoredPeer {
    let mut name = StoredPeer::default();
    if rng.chance(30) {
        name.bytes = rng.bytes();
    }
    match rng.below(24) {
        0 => name.len = 0,
        1 => (name.len, name.bytes) = (MAXIMUM_PEER, LONG_NAME),
        2 => (name.len, name.bytes) = (*rng.pick(&[MAXIMUM_PEER + 1, 2 * MAXIMUM_PEER, usize::MAX]), LONG_NAME),
        _ => {
            let bytes = *rng.pick(&NAMES);
            name.len = bytes.len();
            name.bytes[..bytes.len()].copy_from_slice(bytes);
        }
    }
    name
}

/// A name as a caller may give it.
pub fn given_name(rng: &mut Rng) -> Vec<u8> {
    match rng.below(40) {
        0 => Vec::new(),
        1 | 2 => LONG_NAME.to_vec(),
        3 => vec![b'x'; *rng.pick(&[MAXIMUM_PEER + 1, MAXIMUM_PEER + 2, 1_000])],
        _ => rng.pick(&NAMES).to_vec(),
    }
}

/// Around a time, and at the ends.
pub fn time(rng: &mut Rng, about: u64) -> u64 {
    match rng.below(32) {
        0 => 0,
        1 => TOP,
        2..=4 => about.saturating_sub(rng.below(2)),
        _ => about.saturating_add(*rng.pick(&[1, 2, 10, 100])),
    }
}

/// Small, or at the top.
fn amount(rng: &mut Rng) -> u64 {
    *rng.pick(&[0, 1, 100, 20_000, 65_536, 1 << 20, 1 << 20, TOP - 1, TOP])
}

/// Mostly small, so that limits are met; now and then one that `validate` refuses.
pub fn config(rng: &mut Rng) -> Config {
    let mut most = |least: u64, high: u64| {
        let number = if rng.chance(2) { *rng.pick(&[0, 0, 1_000, TOP]) } else { rng.range(least, high) };
        number as usize
    };
    let (maximum_pending, maximum_circuits) = (most(1, 5), most(1, 5));
    let (actions, per_circuit, per_peer) = (most(4, 6), most(2, 4), most(3, 6));
    Config {
        maximum_pending,
        maximum_circuits,
        maximum_circuits_per_peer: *rng.pick(&[0, 2, 8, 8, MAX_CIRCUITS, MAX_CIRCUITS, MAX_CIRCUITS, u16::MAX]),
        maximum_queue_bytes: *rng.pick(&[
            0,
            100,
            MAX_DATA_SIZE,
            MAX_CIRCUIT_QUEUE,
            MAX_CIRCUIT_QUEUE,
            MAX_CIRCUIT_QUEUE,
            usize::MAX,
        ]),
        maximum_inflight_actions: actions,
        maximum_inflight_actions_per_circuit: per_circuit,
        maximum_inflight_actions_per_peer: per_peer,
        maximum_bytes_per_circuit: amount(rng),
        accept_timeout_seconds: *rng.pick(&[0, 1, MAX_OPEN_DEADLINE_SECONDS, MAX_OPEN_DEADLINE_SECONDS, TOP]),
    }
}

fn runtime(rng: &mut Rng) -> Runtime {
    let mut counter = || if rng.chance(80) { rng.below(5) } else { TOP - rng.below(2) };
    let counters = RuntimeCounters {
        admitted_opens: counter(),
        opened_circuits: counter(),
        bytes_sent: counter(),
        bytes_received: counter(),
        revoked_work: counter(),
    };
    Runtime {
        session: rng.bytes(),
        generation: *rng.pick(&[0, 1, 2, 2, TOP - 1, TOP]),
        enabled: rng.chance(95),
        trusted_time_high_water: *rng.pick(&[0, 100, 100, 100, 100, 100, TOP - 10, TOP]),
        config: config(rng),
        next_action_sequence: *rng.pick(&[0, 1, 5, 5, 5, 5, 5, 5, TOP - 1, TOP]),
        counters,
    }
}

/// As many places as a limit asks, or more, or fewer.
fn places(rng: &mut Rng, limit: usize) -> usize {
    let limit = limit.min(MOST_PLACES);
    match rng.below(80) {
        0 => 0,
        1 => rng.below(limit as u64 + 1) as usize,
        _ => limit + rng.below(3) as usize,
    }
}

fn ticket(rng: &mut Rng, now: u64) -> RelayTicket {
    RelayTicket {
        reservation_id: reservation(rng),
        expires_at: time(rng, now),
        max_active_circuits: *rng.pick(&[0, 1, 2, 5, 32, u16::MAX]),
        max_bytes_per_circuit: amount(rng),
        max_total_bytes: amount(rng),
    }
}

fn pending(rng: &mut Rng, now: u64) -> RelayPending {
    RelayPending {
        used: rng.chance(40),
        circuit_id: id(rng),
        requester: stored_name(rng),
        endpoint: stored_name(rng),
        requester_context: id(rng),
        ticket: ticket(rng, now),
        initial_window: *rng.pick(&[0, MIN_WINDOW, 2 * MIN_WINDOW, MAX_WINDOW, u32::MAX]),
        deadline: time(rng, now),
    }
}

fn circuit(rng: &mut Rng, now: u64) -> RelayCircuit {
    let mut queued = || *rng.pick(&[0, 0, 0, 0, 100, MAX_CIRCUIT_QUEUE, usize::MAX]);
    let (queued_to_requester, queued_to_endpoint) = (queued(), queued());
    RelayCircuit {
        used: rng.chance(40),
        circuit_id: id(rng),
        requester: stored_name(rng),
        endpoint: stored_name(rng),
        reservation_id: reservation(rng),
        expires_at: time(rng, now),
        maximum_bytes: amount(rng),
        maximum_total_bytes: amount(rng),
        requester_credit: *rng.pick(&[0, 100, MIN_WINDOW, MIN_WINDOW, MAX_WINDOW, u32::MAX]),
        endpoint_credit: *rng.pick(&[0, 100, MIN_WINDOW, MAX_WINDOW, u32::MAX]),
        forwarded_bytes: *rng.pick(&[0, 0, 0, 100, TOP - 1, TOP]),
        queued_to_requester,
        queued_to_endpoint,
    }
}

fn usage(rng: &mut Rng, now: u64) -> ReservationUsage {
    let bytes = *rng.pick(&[0, 0, 0, 100, TOP - 1, TOP]);
    ReservationUsage { used: rng.chance(60), reservation_id: reservation(rng), bytes, expires_at: time(rng, now) }
}

fn action(rng: &mut Rng, runtime: &Runtime) -> InflightAction {
    InflightAction {
        used: rng.chance(30),
        generation: if rng.chance(80) { runtime.generation } else { rng.below(3) },
        sequence: *rng.pick(&[0, 1, 2, 3, runtime.next_action_sequence, TOP]),
        circuit_id: id(rng),
        destination: stored_name(rng),
        kind: *rng.pick(&[0, 0, 1, 1, 2, 2, 3, 3, 4, 4, 5, 6, 128, 255]),
        to_endpoint: rng.chance(50),
        bytes: *rng.pick(&[0, 1, 100, 65_536, usize::MAX]),
    }
}

/// So many records, in a block of memory of just their size.
fn table<R>(rng: &mut Rng, limit: usize, mut record: impl FnMut(&mut Rng) -> R) -> Vec<R> {
    let records: Box<[R]> = (0..places(rng, limit)).map(|_| record(rng)).collect();
    records.into_vec()
}

/// Of so many places: none in use, some, all, more than there are, or the largest number.
fn number(rng: &mut Rng, places: usize) -> usize {
    match rng.below(20) {
        0 => 0,
        1..=6 => rng.below(places as u64 + 1) as usize,
        7..=10 => places,
        11..=14 => places + rng.range(1, 3) as usize,
        _ => usize::MAX,
    }
}

pub fn numbers(rng: &mut Rng, tables: &Tables) -> Places {
    Places {
        pending: number(rng, tables.pending.len()),
        circuits: number(rng, tables.circuits.len()),
        ledger: number(rng, tables.ledger.len()),
        actions: number(rng, tables.inflight.len()),
    }
}

/// Puts other records into the unused places; at and above the number any mark will do.
fn others<R>(
    rng: &mut Rng,
    table: &mut [R],
    number: usize,
    used: fn(&R) -> bool,
    record: impl Fn(&mut Rng, bool) -> R,
) {
    for (place, stands) in table.iter_mut().enumerate() {
        let above = place >= number;
        if above || !used(stands) {
            let mark = above && rng.chance(50);
            *stands = record(rng, mark);
        }
    }
}

impl World {
    pub(super) fn by_chance(rng: &mut Rng) -> Self {
        let runtime = runtime(rng);
        let (config, now) = (&runtime.config, runtime.trusted_time_high_water);
        let mut tables = Tables {
            pending: table(rng, config.maximum_pending, |rng| pending(rng, now)),
            circuits: table(rng, config.maximum_circuits, |rng| circuit(rng, now)),
            ledger: table(rng, 4, |rng| usage(rng, now)),
            inflight: table(rng, config.maximum_inflight_actions, |rng| action(rng, &runtime)),
            places: Places::EVERY,
        };
        tables.places = numbers(rng, &tables);
        Self { runtime, tables }
    }

    /// The same used records, and others in the unused places.
    pub(super) fn with_other_unused_places(&self, rng: &mut Rng) -> Self {
        let mut other = self.clone();
        let (runtime, now, tables) = (self.runtime, self.runtime.trusted_time_high_water, &mut other.tables);
        let numbers = tables.places;
        others(
            rng,
            &mut tables.pending,
            numbers.pending,
            |p| p.used,
            |rng, used| RelayPending { used, ..pending(rng, now) },
        );
        others(
            rng,
            &mut tables.circuits,
            numbers.circuits,
            |c| c.used,
            |rng, used| RelayCircuit { used, ..circuit(rng, now) },
        );
        others(
            rng,
            &mut tables.ledger,
            numbers.ledger,
            |u| u.used,
            |rng, used| ReservationUsage { used, ..usage(rng, now) },
        );
        let other_action = |rng: &mut Rng, used| InflightAction { used, ..action(rng, &runtime) };
        others(rng, &mut tables.inflight, numbers.actions, |action| action.used, other_action);
        other
    }
}
