//! How many more routes fit toward a peer and about a circuit: what the three limits of actions leave
//! (QUEUE.11, STATUS.5, STATUS.6).
use crate::chance::{Call, Chance, Drawing, Draws, Parts, FREE_ID, NAMES, NOBODY};
use crate::fixture::{accept_body, circuit, grant, open, peer, relay, say, small, Relay};
use lekchnam_host::lent::{self, InflightAction, Places, Runtime, StoredPeer, Tables};
use lekchnam_host::HnsrOpcode::{Accept, Data, Open, Window};
use lekchnam_host::HnsrRuntimeError::{Capacity, InvalidPeer, Short};
use lekchnam_host::{
    Action, ActionLimit, Admission, Circuit, HnsrOpcode, HnsrPeerId, HnsrRuntimeError, OpaqueRelayConfig,
    OpaqueRelayRuntime, Row, MAXIMUM_PEER,
};
use std::collections::BTreeMap;

/// In this order the limits are asked, here and by `why`.
const LIMITS: [ActionLimit; 3] = [ActionLimit::Relay, ActionLimit::Circuit, ActionLimit::Peer];

fn most(limits: &OpaqueRelayConfig) -> [usize; 3] {
    [
        limits.maximum_inflight_actions,
        limits.maximum_inflight_actions_per_circuit,
        limits.maximum_inflight_actions_per_peer,
    ]
}

/// The configuration of the sixteen cases, with other limits of actions.
fn limited([all, about, toward]: [usize; 3]) -> OpaqueRelayConfig {
    OpaqueRelayConfig {
        maximum_inflight_actions: all,
        maximum_inflight_actions_per_circuit: about,
        maximum_inflight_actions_per_peer: toward,
        ..small()
    }
}

/// The number.
fn left<Random>(relay: &OpaqueRelayRuntime<Random>, to: &[u8], about: u64) -> usize {
    relay.action_capacity(&peer(to), about.to_be_bytes()).expect("a good name")
}

/// What each limit leaves, counted by hand.
fn lefts<Random>(relay: &OpaqueRelayRuntime<Random>, to: &[u8], about: u64) -> [usize; 3] {
    let all = relay.actions().count();
    let about = relay.actions().filter(|action| action.circuit_id == about.to_be_bytes()).count();
    let toward = relay.actions().filter(|action| action.destination.as_bytes() == to).count();
    let [most_of_all, most_about, most_toward] = most(&relay.runtime().config);
    [most_of_all.saturating_sub(all), most_about.saturating_sub(about), most_toward.saturating_sub(toward)]
}

/// The limits of which that is left.
fn reached(lefts: [usize; 3], left: usize) -> Vec<ActionLimit> {
    LIMITS.into_iter().zip(lefts).filter(|(_, of)| *of == left).map(|(limit, _)| limit).collect()
}

/// Every peer that `Chance` knows and one that never is a peer, with every id that it draws or says and some that it
/// does not.
fn pairs() -> impl Iterator<Item = (&'static [u8], u64)> {
    let ids = || (0..=8).chain([FREE_ID, u64::MAX]);
    NAMES.into_iter().chain([NOBODY]).flat_map(move |name| ids().map(move |id| (name, id)))
}

fn numbers(relay: &Drawing) -> Vec<usize> {
    pairs().map(|(to, about)| left(relay, to, about)).collect()
}

// ---- found tables

/// A place of the actions: its mark, where the route goes and what it is about.
type Found<'a> = (bool, &'a [u8], u64);

/// The parts of a relay in whose lowest places these stand, and so many places are in use. The actions are of any
/// generation and of any kind.
fn found(limits: [usize; 3], actions: &[Found<'_>], number: usize) -> (Runtime, Tables) {
    let config = limited(limits);
    let (runtime, mut tables) = relay(small()).into_parts();
    tables.inflight = vec![InflightAction::default(); config.maximum_inflight_actions.max(actions.len())];
    for (at, ((used, to, about), place)) in actions.iter().zip(&mut tables.inflight).enumerate() {
        *place = InflightAction {
            used: *used,
            generation: at as u64 % 3,
            sequence: at as u64,
            circuit_id: *about,
            destination: peer(to).into(),
            kind: at as u8 * 4,
            to_endpoint: false,
            bytes: at,
        };
    }
    (Runtime { config, ..runtime }, Tables { places: Places { actions: number, ..Places::EVERY }, ..tables })
}

fn told((runtime, tables): &(Runtime, Tables), to: &[u8], about: u64) -> Result<usize, HnsrRuntimeError> {
    lent::status(tables, runtime, to, about).map(|told| told.action_capacity)
}

#[test]
fn the_least_of_three_limits_counts() {
    const EVERY: usize = usize::MAX;
    const TWICE: [Found<'_>; 2] = [(true, b"e", 1), (true, b"e", 1)];
    // the limits, the actions, how many places are in use; then the numbers of e and of r, each by circuit 1 and by 2
    type Row<'a> = ([usize; 3], &'a [Found<'a>], usize, [usize; 4]);
    let rows: [Row<'_>; 22] = [
        ([8, 3, 4], &[], EVERY, [3, 3, 3, 3]),
        // each limit in turn
        ([8, 8, 8], &TWICE, EVERY, [6, 6, 6, 6]),
        ([8, 3, 8], &TWICE, EVERY, [1, 3, 1, 3]),
        ([8, 8, 5], &TWICE, EVERY, [3, 3, 5, 5]),
        ([8, 3, 4], &TWICE, EVERY, [1, 2, 1, 3]),
        ([8, 4, 3], &TWICE, EVERY, [1, 1, 2, 3]),
        ([3, 3, 3], &TWICE, EVERY, [1, 1, 1, 1]),
        // another peer, another circuit, and one that differs in its first byte alone
        ([8, 3, 4], &[(true, b"r", 1)], EVERY, [2, 3, 2, 3]),
        ([8, 3, 3], &[(true, b"r", 1)], EVERY, [2, 3, 2, 2]),
        ([8, 3, 3], &[(true, b"ee", 1 << 56 | 1)], EVERY, [3, 3, 3, 3]),
        // nothing is left, of each in turn
        ([2, 2, 2], &TWICE, EVERY, [0, 0, 0, 0]),
        ([8, 2, 4], &TWICE, EVERY, [0, 2, 0, 2]),
        ([8, 4, 2], &TWICE, EVERY, [0, 0, 2, 2]),
        // more than a limit allows: the difference stops at 0
        ([1, 8, 8], &TWICE, EVERY, [0, 0, 0, 0]),
        ([8, 1, 8], &TWICE, EVERY, [0, 1, 0, 1]),
        ([8, 8, 1], &TWICE, EVERY, [0, 0, 1, 1]),
        ([8, 0, 0], &[], EVERY, [0, 0, 0, 0]),
        ([8, usize::MAX, usize::MAX], &TWICE, EVERY, [6, 6, 6, 6]),
        // unused places, and places at and above the number
        ([8, 3, 4], &[(false, b"e", 1), (true, b"e", 1), (false, b"e", 1)], EVERY, [2, 3, 2, 3]),
        ([8, 3, 4], &TWICE, 2, [1, 2, 1, 3]),
        ([8, 3, 4], &TWICE, 1, [2, 3, 2, 3]),
        ([8, 3, 4], &TWICE, 0, [3, 3, 3, 3]),
    ];
    for (limits, actions, number, expected) in rows {
        let parts = found(limits, actions, number);
        let pairs: [(&[u8], u64); 4] = [(b"e", 1), (b"e", 2), (b"r", 1), (b"r", 2)];
        let came = pairs.map(|(to, about)| told(&parts, to, about));
        assert_eq!(came, expected.map(Ok), "{limits:?} {actions:?}, {number} in use");
    }
}

/// The places behind the relay's limit count too.
#[test]
fn tables_with_more_actions_than_the_limit_leave_nothing() {
    let many = [(true, &b"e"[..], 1); 12];
    for (number, expected) in [(12, 0), (9, 0), (8, 0), (7, 1), (usize::MAX, 0)] {
        assert_eq!(told(&found([8, 100, 100], &many, number), b"r", 2), Ok(expected), "{number} in use");
    }
    let behind = [vec![(false, &b"e"[..], 1); 8], vec![(true, &b"e"[..], 1); 2]].concat();
    let parts = found([8, 3, 4], &behind, usize::MAX);
    assert_eq!([(b"e", 1), (b"e", 2), (b"r", 2)].map(|(to, about)| told(&parts, to, about)), [Ok(1), Ok(2), Ok(3)]);
}

#[test]
fn a_name_has_1_to_128_bytes_and_any_circuit_is_asked() {
    let longest = [b'x'; MAXIMUM_PEER];
    let parts = found([8, 3, 4], &[(true, &longest, 0), (true, &longest, 0), (true, b"x", u64::MAX)], usize::MAX);
    let cases: [(&[u8], [usize; 3]); 4] =
        [(&longest, [1, 2, 2]), (&longest[1..], [1, 2, 3]), (b"x", [1, 2, 3]), (b"y", [1, 2, 3])];
    for (name, expected) in cases {
        assert_eq!([0, u64::MAX, 7].map(|about| told(&parts, name, about)), expected.map(Ok), "{} bytes", name.len());
    }
    for name in [&[][..], &[b'x'; MAXIMUM_PEER + 1], &[b'x'; 1_000]] {
        assert_eq!([0, 1, u64::MAX].map(|about| told(&parts, name, about)), [Err(InvalidPeer); 3]);
    }
}

/// TAB.9, in the tables; what is asked about has no length but its own.
#[test]
fn stored_names_are_read_up_to_their_length() {
    let longest = [b'x'; MAXIMUM_PEER];
    let (runtime, mut tables) = found([8, 8, 4], &[(true, &b"x"[..], 1); 4], usize::MAX);
    for (len, place) in [0, 1, MAXIMUM_PEER + 1, usize::MAX].into_iter().zip(&mut tables.inflight) {
        place.destination = StoredPeer { len, bytes: longest };
    }
    let parts = (runtime, tables);
    assert_eq!(told(&parts, &longest, 2), Ok(2));
    assert_eq!(told(&parts, b"x", 2), Ok(3));
    assert_eq!(told(&parts, b"xx", 2), Ok(4));
    // the name of no bytes that the first place has cannot be asked about
    let (runtime, tables) = parts;
    let relay = Relay::from_parts(runtime, tables, Default::default()).expect("places enough");
    let names: Vec<HnsrPeerId> = relay.actions().map(|action| action.destination).collect();
    let asked: Vec<_> = names.iter().map(|name| relay.action_capacity(name, [0; 8])).collect();
    assert_eq!(asked, [Err(InvalidPeer), Ok(3), Ok(2), Ok(2)]);
}

#[test]
fn a_short_table_is_refused_before_a_bad_name() {
    let (runtime, tables) = found([8, 3, 4], &[(true, b"e", 1)], usize::MAX);
    let mut shorter = [tables.clone(), tables.clone(), tables.clone()];
    shorter[0].pending.pop();
    shorter[1].circuits.pop();
    shorter[2].inflight.pop();
    for name in [&b"e"[..], b"", &[7; MAXIMUM_PEER + 1]] {
        for tables in &shorter {
            assert_eq!(lent::status(tables, &runtime, name, 1), Err(Short));
        }
    }
    // the ledger is not lent
    let tables = Tables { ledger: Vec::new(), ..tables };
    assert_eq!(told(&(runtime, tables), b"e", 1), Ok(2));
}

// ---- a relay

/// With the lowest limits that there are.
#[test]
fn limits_of_two() {
    let mut relay = relay(limited([2, 2, 2]));
    assert_eq!((left(&relay, b"e", 1), left(&relay, b"r", 1)), (2, 2));
    let id = open(&mut relay, b"r", 1, grant(b"e")).expect("an OPEN");
    assert_eq!((left(&relay, b"e", id), left(&relay, b"r", id), left(&relay, b"z", 0)), (1, 1, 1));
    assert_eq!(open(&mut relay, b"r", 2, grant(b"e")), Ok(id + 1));
    assert_eq!((left(&relay, b"e", id), left(&relay, b"z", 0)), (0, 0));
    assert_eq!(open(&mut relay, b"s", 3, grant(b"f")), Err(Capacity));
    // nothing is left for others, and the ACCEPT passes: its OPENED takes the place of the INCOMING
    assert_eq!(say(&mut relay, b"e", Accept, id, &accept_body()).map(|routes| routes.len()), Ok(1));
    assert_eq!((left(&relay, b"r", id), left(&relay, b"e", id)), (0, 0));
    assert_eq!(say(&mut relay, b"r", Data, id, b"x").unwrap_err(), Capacity);
    // the end of the other OPEN frees its INCOMING, and its CLOSE takes the place
    assert_eq!(say(&mut relay, b"r", HnsrOpcode::Close, 2, &[0, 0, 0]).map(|routes| routes.len()), Ok(1));
    assert_eq!(left(&relay, b"e", id), 0);
    let oldest = relay.oldest_action().expect("two are outstanding").action_id;
    assert_eq!(relay.acknowledge(oldest, true).map(|routes| routes.len()), Ok(0));
    assert_eq!((left(&relay, b"e", id), left(&relay, b"z", 0)), (1, 1));
}

/// Off: the routes of the last generation are gone, and two notices are under way.
#[test]
fn a_relay_that_is_off_is_asked_too() {
    let mut relay = relay(limited([8, 3, 4]));
    let id = circuit(&mut relay, b"r", b"e", 1);
    assert_eq!(say(&mut relay, b"r", Data, id, b"hello").map(|routes| routes.len()), Ok(1));
    assert_eq!(relay.replace_enabled(1, false).map(|routes| routes.len()), Ok(2));
    assert_eq!((left(&relay, b"r", id), left(&relay, b"e", 0), left(&relay, b"z", 0)), (1, 3, 3));
    assert_eq!(say(&mut relay, b"r", Data, id, b"hello").unwrap_err(), HnsrRuntimeError::Disabled);
    assert_eq!(left(&relay, b"r", id), 1);
}

#[test]
fn asking_changes_nothing() {
    let mut relay = relay(limited([8, 3, 4]));
    let id = circuit(&mut relay, b"r", b"e", 1);
    assert_eq!(say(&mut relay, b"r", Data, id, b"hello").map(|routes| routes.len()), Ok(1));
    let all = |relay: &Relay| format!("{:?}", (relay.runtime(), relay.tables(), relay.words(), relay.outgoing()));
    let before = all(&relay);
    for (name, about) in [(b"e", id), (b"r", id), (b"z", id), (b"e", 0), (b"z", u64::MAX)] {
        assert_eq!(left(&relay, name, about), left(&relay, name, about));
    }
    assert_eq!(lent::status(relay.tables(), relay.runtime(), b"", 0), Err(InvalidPeer));
    assert_eq!(all(&relay), before);
}

// ---- relays by chance

const SEEDS: u64 = 48;
const CALLS: usize = 200;

#[test]
fn calls_by_chance_leave_what_is_counted() {
    let (mut asked, mut alone) = (0, BTreeMap::new());
    let (mut zeros, mut together) = (0, 0);
    for seed in 0..SEEDS {
        let mut chance = Chance::new(seed);
        for _ in 0..CALLS {
            let call = chance.call();
            let _ = call.made(&mut chance.relay);
            chance.between();
            for (to, about) in pairs() {
                let (number, counted) = (left(&chance.relay, to, about), lefts(&chance.relay, to, about));
                assert_eq!(Some(number), counted.into_iter().min(), "{counted:?} by hand");
                asked += 1;
                zeros += usize::from(number == 0);
                match reached(counted, number)[..] {
                    [limit] => *alone.entry(limit.to_string()).or_insert(0) += 1,
                    _ => together += 1,
                }
            }
        }
    }
    assert!(alone.len() == 3 && alone.values().all(|times| *times > 1_000), "{alone:?}");
    assert!(zeros > 1_000 && together > 1_000, "{zeros} {together}");
    println!("compared: {asked} numbers of routes that still fit with a count by hand, {zeros} of them 0");
}

/// Sends WINDOWs from one side of a circuit until one is refused. The number says how many pass, and each takes one.
/// Acknowledged, each gives one back. All other numbers move by one with it, or stay. Which limits are reached then.
fn filled(chance: &mut Chance, circuit: &Circuit, [from, to]: [&HnsrPeerId; 2]) -> (usize, Vec<ActionLimit>) {
    let mut parts = Parts::of(&chance.relay);
    // neither credit nor numbers are to be the reason
    parts.tables.circuits.iter_mut().for_each(|record| (record.requester_credit, record.endpoint_credit) = (0, 0));
    if parts.runtime.next_action_sequence > u64::MAX - 1_000 {
        parts.runtime.next_action_sequence = 1;
    }
    let limits = &mut parts.runtime.config;
    // each limit is to be the least at times
    let unlimited = chance.random.below(3);
    if unlimited > 0 {
        limits.maximum_inflight_actions_per_circuit = usize::MAX;
    }
    if unlimited > 1 {
        limits.maximum_inflight_actions_per_peer = usize::MAX;
    }
    let (limits, now) = (*limits, parts.runtime.trusted_time_high_water);
    let mut relay = parts.relay();
    let named = |name: &HnsrPeerId| NAMES.into_iter().find(|known| *known == name.as_bytes()).expect("one of them");
    let (source, to, context) = (named(from), named(to), u64::from_be_bytes(circuit.circuit_id));
    let body = 1_u32.to_le_bytes().to_vec();
    let window = Call { admission: Admission::Refused, source, opcode: Window, context, body, now };

    let count = left(&relay, to, context);
    for passed in 1..=count {
        let before = numbers(&relay);
        assert_eq!(window.made(&mut relay), Ok(()));
        assert_eq!(left(&relay, to, context), count - passed);
        moved(&numbers(&relay), &before);
    }
    let reached = reached(lefts(&relay, to, context), 0);
    let refused = window.made(&mut relay).expect_err("no room is left");
    assert_eq!(refused, Capacity);
    let (of, most) = LIMITS.into_iter().zip(most(&limits)).find(|(limit, _)| reached.contains(limit)).expect("a limit");
    assert_eq!(window.why(&relay, refused), Some(Row::Actions { of, most }));
    assert_eq!(left(&relay, to, context), 0);

    let mut sent: Vec<Action> = relay.actions().collect();
    sent.retain(|action| action.circuit_id == circuit.circuit_id && action.destination.as_bytes() == to);
    for expected in 1..=sent.len().min(3) {
        let before = numbers(&relay);
        let next = sent.swap_remove(chance.random.below(sent.len()));
        assert_eq!(relay.acknowledge(next.action_id, true).map(|routes| routes.len()), Ok(0));
        assert_eq!(left(&relay, to, context), expected);
        moved(&before, &numbers(&relay));
    }
    (count, reached)
}

/// Each is as low, or lower by one.
fn moved(lower: &[usize], higher: &[usize]) {
    let steps = higher.iter().zip(lower).map(|(higher, lower)| higher.checked_sub(*lower));
    assert!(steps.clone().all(|step| matches!(step, Some(0 | 1))), "{lower:?} {higher:?}");
    assert!(steps.clone().any(|step| step == Some(1)), "{lower:?}");
}

#[test]
fn so_many_windows_pass_and_no_more() {
    let (mut passed, mut alone) = (BTreeMap::new(), BTreeMap::new());
    for seed in 0..SEEDS {
        let mut chance = Chance::new(seed);
        for _ in 0..CALLS {
            let call = chance.call();
            let _ = call.made(&mut chance.relay);
            chance.between();
            let circuits: Vec<Circuit> = chance.relay.circuits().collect();
            if circuits.is_empty() || chance.random.below(4) != 0 {
                continue;
            }
            let circuit = chance.random.pick(&circuits);
            for sides in [[&circuit.requester, &circuit.endpoint], [&circuit.endpoint, &circuit.requester]] {
                let (count, reached) = filled(&mut chance, &circuit, sides);
                *passed.entry(count).or_insert(0) += 1;
                if let [limit] = reached[..] {
                    *alone.entry(limit.to_string()).or_insert(0) += 1;
                }
            }
        }
    }
    assert!(alone.len() == 3 && alone.values().all(|times| *times > 50), "{alone:?}");
    assert!((0..=6).all(|count| passed.get(&count).is_some_and(|times| *times > 20)), "{passed:?}");
    let filled: usize = passed.values().sum();
    println!("compared: how many WINDOWs pass with the number, {filled} times; one limit alone: {alone:?}");
}

/// Whether a message found room for its route; nothing where it was refused before that is asked.
fn found_room(call: &Call, relay: &Drawing, answer: Result<(), HnsrRuntimeError>) -> Option<bool> {
    let Err(refused) = answer else { return Some(true) };
    match call.why(relay, refused)? {
        Row::Actions { .. } => Some(false),
        // the rows behind it
        Row::Deadline
        | Row::LedgerFull { .. }
        | Row::ExpiryDiffers { .. }
        | Row::ReservationSpent { .. }
        | Row::NoLedgerRecord
        | Row::CircuitBytes { .. }
        | Row::TotalBytes { .. }
        | Row::Credit { .. }
        | Row::DataOverQueue { .. }
        | Row::Queue { .. }
        | Row::CreditOverMost { .. }
        | Row::Sequence => Some(true),
        _ => None,
    }
}

/// The number that a message goes by: that of its route's peer and circuit. An OPEN draws an id that no route is about.
/// Of an ACCEPT the routes of its OPEN do not count.
fn number_for(parts: &Parts, call: &Call) -> Option<usize> {
    let Parts { runtime, tables, .. } = parts;
    let id = call.context.to_be_bytes();
    let number =
        |tables: &Tables, to: &[u8], about: u64| Some(lent::status(tables, runtime, to, about).ok()?.action_capacity);
    match call.opcode {
        Open => match call.admission {
            Admission::Granted(grant) => number(tables, grant.endpoint, FREE_ID),
            _ => None,
        },
        Accept => {
            let requester = tables.pending().find(|pending| pending.circuit_id == id)?.requester;
            let mut freed = tables.clone();
            for action in freed.inflight.iter_mut().filter(|action| action.circuit_id == call.context) {
                action.used = false;
            }
            let ordinary = number(tables, requester.as_bytes(), call.context);
            let replacing = number(&freed, requester.as_bytes(), call.context);
            assert!(ordinary <= replacing, "a lower bound");
            replacing
        }
        Data | Window => {
            let circuit = tables.circuits().find(|circuit| circuit.circuit_id == id)?;
            let by_requester = circuit.requester.as_bytes() == call.source;
            let to = if by_requester { circuit.endpoint } else { circuit.requester };
            number(tables, to.as_bytes(), call.context)
        }
        _ => None,
    }
}

#[test]
fn messages_find_no_room_exactly_at_0() {
    let mut met = BTreeMap::new();
    for seed in 0..4 * SEEDS {
        let mut chance = Chance::new(seed);
        for _ in 0..CALLS {
            let call = chance.call();
            let mut parts = Parts { draws: Draws::Free, ..Parts::of(&chance.relay) };
            // an ACCEPT seldom finds no room, so a limit is lowered at times, also below what there is
            let lower = chance.random.below(12);
            match lower {
                0..3 => parts.runtime.config.maximum_inflight_actions_per_peer = lower,
                3..6 => parts.runtime.config.maximum_inflight_actions = lower - 3,
                _ => {}
            }
            let mut tried = parts.clone().relay();
            let answer = call.made(&mut tried);
            if let (Some(number), Some(room)) = (number_for(&parts, &call), found_room(&call, &tried, answer)) {
                assert_eq!(room, number > 0, "{call:?}: {answer:?}, {number} fit");
                *met.entry((call.opcode.to_string(), room)).or_insert(0) += 1;
            }
            let _ = call.made(&mut chance.relay);
            chance.between();
        }
    }
    assert!(met.len() == 8 && met.values().all(|times| *times > 50), "{met:?}");
    println!("compared: whether a message finds room with the number: {met:?}");
}
