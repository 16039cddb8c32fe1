//! Which row a refusal was, held to the calls: by chance, and row by row.
use crate::chance::{good_body, Call, Chance, Drawing, Draws, Parts, NAMES, NOBODY};
use lekchnam_host::lent::{Places, RelayCircuit, RelayPending, ReservationUsage, Tables};
use lekchnam_host::{ActionLimit, Admission, Advice, Grant, HnsrOpcode, HnsrRuntimeError, Row};
use std::collections::BTreeMap;

const RELAYS: u64 = 320;
const CALLS: usize = 1_000;

/// The rows of every message, in the order in which they are asked.
pub const ENTRY: &[&str] = &["Packet", "Clock", "Disabled"];
/// Of each message its rows behind these, in their order.
pub const ROWS: [(HnsrOpcode, &[&str]); 6] = [
    (
        HnsrOpcode::Open,
        &[
            "PendingFull",
            "CircuitsFull",
            "RequesterWork",
            "ContextPending",
            "Body",
            "NotAdmitted",
            "GrantOver",
            "EndpointName",
            "EndpointIsRequester",
            "EndpointWork",
            "ReservationWork",
            "Draws",
            "Actions Relay",
            "Actions Peer",
            "Actions Circuit",
            "Deadline",
            "LedgerFull",
            "ExpiryDiffers",
            "ReservationSpent",
            "Sequence",
        ],
    ),
    (
        HnsrOpcode::Accept,
        &[
            "NotPending",
            "OtherPeer",
            "AcceptLate",
            "Body",
            "WindowOverOffered",
            "CircuitsFull",
            "ReservationWork",
            "Actions Relay",
            "Actions Circuit",
            "Actions Peer",
            "Sequence",
        ],
    ),
    (
        HnsrOpcode::Data,
        &[
            "Body",
            "Unaccepted",
            "NoCircuit",
            "OtherPeer",
            "Actions Relay",
            "Actions Circuit",
            "Actions Peer",
            "NoLedgerRecord",
            "CircuitBytes",
            "TotalBytes",
            "Credit",
            "DataOverQueue",
            "Queue",
            "Sequence",
        ],
    ),
    (
        HnsrOpcode::Window,
        &[
            "Body",
            "Unaccepted",
            "NoCircuit",
            "OtherPeer",
            "Actions Relay",
            "Actions Circuit",
            "Actions Peer",
            "CreditOverMost",
            "Sequence",
        ],
    ),
    (HnsrOpcode::Close, ENDING),
    (HnsrOpcode::Error, ENDING),
];
/// The record's own actions have gone when they are counted, so that the circuit's limit is never the one.
const ENDING: &[&str] =
    &["Body", "NamesTwo", "NoCircuit", "OtherPeer", "EndedActions Relay", "EndedActions Peer", "EndedSequence"];

/// The rows that no run reaches, each with why.
const UNREACHABLE: &[(HnsrOpcode, &str)] = &[
    // ACCEPT drops the actions of its own circuit and counts them nowhere
    (HnsrOpcode::Accept, "Actions Circuit"),
];

/// What refusals are counted under: every packet, a message, another packet.
const EVERY: &str = "every";
const OTHER: &str = "other";

fn label(opcode: HnsrOpcode, row: Row) -> String {
    let own = ROWS.iter().any(|(of, _)| *of == opcode);
    match order(opcode, row) < ENTRY.len() {
        true => EVERY.to_owned(),
        false if own => format!("{opcode:?}"),
        false => OTHER.to_owned(),
    }
}

pub fn name(row: Row) -> String {
    match row {
        Row::Actions { of, .. } => format!("Actions {of:?}"),
        Row::EndedActions { of, .. } => format!("EndedActions {of:?}"),
        row => format!("{row:?}").split([' ', '(']).next().expect("a name").to_owned(),
    }
}

/// Where a row stands in the order of its message.
fn order(opcode: HnsrOpcode, row: Row) -> usize {
    let (name, own) = (name(row), ROWS.iter().find(|(of, _)| *of == opcode).map_or(&["Opcode"][..], |(_, rows)| rows));
    ENTRY.iter().chain(own).position(|row| *row == name).unwrap_or_else(|| panic!("{opcode:?} has no {name}"))
}

/// The tables with the marks alone deciding, so that places can be put behind.
fn plain(tables: &mut Tables) {
    let places = tables.places;
    tables.pending.iter_mut().skip(places.pending).for_each(|record| record.used = false);
    tables.circuits.iter_mut().skip(places.circuits).for_each(|record| record.used = false);
    tables.ledger.iter_mut().skip(places.ledger).for_each(|record| record.used = false);
    tables.inflight.iter_mut().skip(places.actions).for_each(|record| record.used = false);
    tables.places = Places::EVERY;
}

fn pending_of(tables: &mut Tables, id: u64) -> &mut RelayPending {
    tables.pending.iter_mut().find(|record| record.used && record.circuit_id == id).expect("an OPEN that waits")
}

fn circuit_of(tables: &mut Tables, id: u64) -> &mut RelayCircuit {
    tables.circuits.iter_mut().find(|record| record.used && record.circuit_id == id).expect("a circuit")
}

/// A limit of actions raised by one.
fn raised(parts: &mut Parts, of: ActionLimit) {
    let limits = &mut parts.runtime.config;
    match of {
        ActionLimit::Relay => {
            limits.maximum_inflight_actions += 1;
            parts.tables.inflight.push(Default::default());
        }
        ActionLimit::Circuit => limits.maximum_inflight_actions_per_circuit += 1,
        ActionLimit::Peer => limits.maximum_inflight_actions_per_peer += 1,
    }
}

/// Takes away the one thing that a row is about, and leaves the rest; false where that would be another packet.
fn cured(row: Row, parts: &mut Parts, call: &mut Call) -> bool {
    plain(&mut parts.tables);
    let Parts { runtime, tables, draws } = parts;
    match row {
        Row::Packet(_) => call.context = 1,
        Row::Clock { high_water, .. } => call.now = high_water,
        Row::Disabled { .. } => runtime.enabled = true,
        Row::PendingFull { .. } => {
            runtime.config.maximum_pending += 1;
            tables.pending.push(RelayPending::default());
        }
        Row::CircuitsFull { .. } => {
            runtime.config.maximum_circuits += 1;
            tables.circuits.push(RelayCircuit::default());
        }
        Row::RequesterWork { .. } | Row::EndpointWork { .. } => runtime.config.maximum_circuits_per_peer += 1,
        Row::ContextPending | Row::NamesTwo => {
            let context = call.context;
            for pending in tables.pending.iter_mut().filter(|pending| pending.requester_context == context) {
                pending.requester_context = 99;
            }
        }
        Row::Body(_) => {
            call.body = good_body(1, call.opcode);
            if matches!(call.admission, Admission::KeyInvalid) {
                call.admission = Admission::Refused;
            }
        }
        Row::NotAdmitted => call.admission = Admission::Granted(Grant::default()),
        Row::GrantOver { now, .. } => call.grant().expect("a grant").expires_at = now + 1,
        Row::EndpointName { .. } | Row::EndpointIsRequester => call.grant().expect("a grant").endpoint = NOBODY,
        Row::ReservationWork { .. } => match call.opcode {
            HnsrOpcode::Open => call.grant().expect("a grant").max_active_circuits = u16::MAX,
            _ => pending_of(tables, call.context).ticket.max_active_circuits = u16::MAX,
        },
        Row::Draws => *draws = Draws::Free,
        Row::Actions { of, .. } | Row::EndedActions { of, .. } => raised(parts, of),
        Row::Deadline => runtime.config.accept_timeout_seconds = 0,
        Row::LedgerFull { .. } => tables.ledger.push(ReservationUsage::default()),
        Row::ExpiryDiffers { recorded, .. } => call.grant().expect("a grant").expires_at = recorded,
        Row::ReservationSpent { used, .. } => call.grant().expect("a grant").max_total_bytes = used + 1,
        Row::OtherPeer => {
            let endpoint = match call.opcode {
                HnsrOpcode::Accept => pending_of(tables, call.context).endpoint,
                _ => circuit_of(tables, call.context).endpoint,
            };
            call.source = NAMES.into_iter().find(|name| *name == endpoint.as_bytes()).expect("a peer");
        }
        Row::AcceptLate { now, .. } => {
            let pending = pending_of(tables, call.context);
            (pending.deadline, pending.ticket.expires_at) = (now + 1, now + 1);
        }
        Row::WindowOverOffered { accepted, .. } => pending_of(tables, call.context).initial_window = accepted,
        Row::NoLedgerRecord => {
            let reservation_id = circuit_of(tables, call.context).reservation_id;
            tables.ledger.push(ReservationUsage { used: true, reservation_id, bytes: 0, expires_at: u64::MAX });
        }
        Row::CircuitBytes { .. } => circuit_of(tables, call.context).maximum_bytes = u64::MAX,
        Row::TotalBytes { .. } => circuit_of(tables, call.context).maximum_total_bytes = u64::MAX,
        Row::Credit { left, asked } => {
            let (more, circuit) = ((asked - left) as u32, circuit_of(tables, call.context));
            match circuit.requester.as_bytes() == call.source {
                true => circuit.requester_credit += more,
                false => circuit.endpoint_credit += more,
            }
        }
        Row::DataOverQueue { asked, .. } => runtime.config.maximum_queue_bytes = asked as usize,
        Row::Queue { left, asked } => runtime.config.maximum_queue_bytes += (asked - left) as usize,
        Row::CreditOverMost { .. } => {
            let circuit = circuit_of(tables, call.context);
            (circuit.requester_credit, circuit.endpoint_credit) = (0, 0);
        }
        Row::Sequence | Row::EndedSequence => runtime.next_action_sequence = 1 << 40,
        _ => return false,
    }
    true
}

/// How many bytes or how much credit a row says are left, where a packet can ask for just that.
fn left(row: Row) -> Option<u64> {
    match row {
        Row::CircuitBytes { left, .. }
        | Row::TotalBytes { left, .. }
        | Row::Credit { left, .. }
        | Row::Queue { left, .. }
        | Row::CreditOverMost { left, .. } => Some(left),
        _ => None,
    }
}

/// The same packet asking for so much.
fn asking(call: &Call, much: u64) -> Call {
    let body = match call.opcode {
        HnsrOpcode::Window => (much as u32).to_le_bytes().to_vec(),
        _ => vec![7; much as usize],
    };
    Call { body, ..call.clone() }
}

/// The row by which a call is refused over parts; none if it is taken.
fn refused(parts: Parts, call: &Call) -> Option<Row> {
    let mut relay = parts.relay();
    let refused = call.made(&mut relay).err()?;
    Some(call.why(&relay, refused).expect("a row"))
}

/// With its cause taken away a call is refused by no row at or before this one.
fn is_the_cause(row: Row, before: &Parts, call: &Call) -> bool {
    let (mut parts, mut other) = (before.clone(), call.clone());
    let tried = cured(row, &mut parts, &mut other);
    if tried {
        if let Some(next) = refused(parts, &other) {
            assert!(order(call.opcode, next) > order(call.opcode, row), "{row:?}, then {next:?}: {call:?}");
        }
    }
    tried
}

/// What is left is taken as far as this row goes, and one more is not.
fn is_just_so_much(row: Row, before: &Parts, call: &Call) {
    let Some(left) = left(row) else { return };
    let later = |next: Row| order(call.opcode, next) > order(call.opcode, row);
    if left > 0 {
        assert!(refused(before.clone(), &asking(call, left)).is_none_or(later), "{row:?}: {call:?}");
    }
    let more = refused(before.clone(), &asking(call, left + 1)).expect("one too many");
    assert_eq!(name(more), name(row));
}

/// Where the row says more than number and message do, as its text has it; else both say the same.
fn advice_fits(row: Row, refused: HnsrRuntimeError, opcode: HnsrOpcode) {
    let (exact, by_number) = (row.advice(), refused.advice(Some(opcode)));
    match (row, opcode) {
        (Row::Actions { .. }, HnsrOpcode::Open | HnsrOpcode::Accept) => {
            assert_eq!((exact, by_number), (Advice::OfferAgain, Advice::TurnDown));
        }
        (Row::Credit { .. } | Row::DataOverQueue { .. }, _) => {
            assert_eq!((exact, by_number), (Advice::EndCircuit, Advice::OfferAgain));
        }
        (Row::WindowOverOffered { .. }, _) => assert_eq!((exact, by_number), (Advice::EndCircuit, Advice::TurnDown)),
        (Row::Unaccepted, _) => assert_eq!((exact, by_number), (Advice::EndCircuit, Advice::Late)),
        (Row::ContextPending, _) => assert_eq!((exact, by_number), (Advice::EndConnection, Advice::TurnDown)),
        (Row::ExpiryDiffers { .. }, _) => assert_eq!((exact, by_number), (Advice::MendHost, Advice::TurnDown)),
        _ => assert_eq!(exact, by_number, "{row:?} of {opcode:?}"),
    }
}

/// What the advice rests on.
fn advice_holds(row: Row, before: &Parts, relay: &Drawing, call: &Call) {
    let ended = relay.runtime().counters.revoked_work - before.runtime.counters.revoked_work;
    assert_eq!(ended, u64::from(row.advice() == Advice::TellOtherSide), "{row:?}");
    if row.advice() == Advice::EndCircuit {
        let seen = relay.tables().in_use();
        let circuits = seen.circuits.iter().filter(|record| record.used && record.circuit_id == call.context);
        let pending = seen.pending.iter().filter(|record| record.used && record.circuit_id == call.context);
        let circuits = circuits.map(|record| [record.requester, record.endpoint]);
        let mut sides = pending.map(|record| [record.requester, record.endpoint]).chain(circuits).flatten();
        assert!(sides.any(|side| side.as_bytes() == call.source), "{row:?}");
    }
}

#[test]
fn every_refusal_by_chance_has_its_row() {
    let mut seen: BTreeMap<(String, String), u64> = BTreeMap::new();
    let (mut calls, mut taken, mut cures) = (0, 0, 0);
    for seed in 0..RELAYS {
        let mut chance = Chance::new(seed);
        for _ in 0..CALLS {
            let (before, call) = (Parts::of(&chance.relay), chance.call());
            calls += 1;
            match call.made(&mut chance.relay) {
                Ok(()) => taken += 1,
                Err(refused) => {
                    let row = call.why(&chance.relay, refused);
                    let row = row.unwrap_or_else(|| panic!("seed {seed}: {refused:?} has no row: {call:?}"));
                    assert_eq!((row.refusal(), row.number()), (refused, refused.number()), "{call:?}");
                    cures += u64::from(is_the_cause(row, &before, &call));
                    is_just_so_much(row, &before, &call);
                    advice_fits(row, refused, call.opcode);
                    advice_holds(row, &before, &chance.relay, &call);
                    *seen.entry((label(call.opcode, row), name(row))).or_default() += 1;
                }
            }
            chance.between();
        }
    }
    for ((of, name), count) in &seen {
        println!("{of}: {name} {count}");
    }
    println!("compared: {calls} calls by chance, {taken} taken, {cures} refusals with their cause taken away");
    let mut expected: Vec<_> = ENTRY.iter().map(|name| (EVERY.to_owned(), (*name).to_owned())).collect();
    expected.push((OTHER.to_owned(), "Opcode".to_owned()));
    for (opcode, rows) in ROWS {
        let reached = rows.iter().filter(|name| !UNREACHABLE.contains(&(opcode, name)));
        expected.extend(reached.map(|name| (format!("{opcode:?}"), (*name).to_owned())));
    }
    expected.sort();
    assert_eq!(seen.into_keys().collect::<Vec<_>>(), expected);
}
