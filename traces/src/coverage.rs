//! What traces show: answers, causes, acknowledgements, ends of records, what refusals leave, edges.
use crate::event::{Change, Event};
use crate::state::{Kind, Pending};
use crate::{Call, Cause, Class, Grant};
use lekchnam_host::{HnsrOpcode, HnsrRuntimeError};
use std::fmt::{self, Display, Formatter};

/// One thing that a call shows. A label is the message of a packet, else the call's name.
#[derive(Clone, Debug, Eq, Ord, PartialEq, PartialOrd)]
pub enum Item {
    Class(Class),
    /// Those of no message are one.
    Opcode(u8),
    Answer(&'static str, u8),
    /// The cause of a 1.
    Cause(&'static str, String),
    /// The kind of a route that was written.
    Written(Kind),
    /// Kind, delivered or not, and the answer.
    Acknowledged(Kind, bool, u8),
    /// A refusal that moved the clock and left all else.
    Clock(&'static str, u8),
    /// A refusal that left more changed than the clock.
    Kept(&'static str, u8),
    Ended(&'static str, Ended),
    /// A revocation that skipped a message.
    Skipped(&'static str),
    Edge(Edge),
}

impl Display for Item {
    fn fmt(&self, f: &mut Formatter<'_>) -> fmt::Result {
        match self {
            Self::Class(class) => write!(f, "class {class}"),
            Self::Opcode(opcode) => write!(f, "opcode {opcode}"),
            Self::Answer(label, number) => write!(f, "{label} answers {number}"),
            Self::Cause(label, cause) => write!(f, "{label} answers 1 by {cause}"),
            Self::Written(kind) => write!(f, "{kind:?} is written"),
            Self::Acknowledged(kind, delivered, number) => {
                write!(
                    f,
                    "{kind:?} is acknowledged, {}delivered, and answers {number}",
                    if *delivered { "" } else { "not " }
                )
            }
            Self::Clock(label, number) => write!(f, "{label} answers {number} with the clock moved"),
            Self::Kept(label, number) => write!(f, "{label} answers {number} with more than the clock changed"),
            Self::Ended(label, ended) => write!(f, "{label} ends {ended:?}"),
            Self::Skipped(label) => write!(f, "{label} skips a message"),
            Self::Edge(edge) => write!(f, "{edge:?}"),
        }
    }
}

/// Which records a call ended.
#[derive(Clone, Copy, Debug, Eq, Ord, PartialEq, PartialOrd)]
pub enum Ended {
    Pending,
    Circuit,
    /// More than one.
    Several,
    /// Pending records and circuits.
    Both,
}

/// What is easy to get wrong, or far out.
#[derive(Clone, Copy, Debug, Eq, Ord, PartialEq, PartialOrd)]
pub enum Edge {
    DataPastExpiry,
    GrantUnderAnotherId,
    IdWithActionsOutstanding,
    ZeroDrawn,
    TakenIdDrawn,
    ShortDraw,
    PendingClosedByRequester,
    PendingClosedByEndpoint,
    CircuitClosedByRequester,
    CircuitClosedByEndpoint,
    GenerationOver32Bits,
    GenerationAtTop,
    TimeAtTop,
    SequenceAtTop,
    LastSequence,
}

/// All that one call shows.
pub fn items(event: &Event) -> Vec<Item> {
    let (label, number) = (event.call.label(), event.answer.number);
    let mut items = vec![Item::Class(event.class), Item::Answer(label, number)];
    if event.answer.cause != Cause::None {
        items.push(Item::Cause(label, event.answer.cause.kind()));
    }
    if let Call::Handle { opcode, .. } = &event.call {
        items.push(Item::Opcode((*opcode).min(HnsrOpcode::COUNT)));
    }
    if let Some(change) = event.change() {
        items.extend(acknowledged(event, &change));
        items.extend(stays(event, &change));
        items.extend(ends(event, &change));
        items.extend(change.written().iter().map(|action| Item::Written(action.kind)));
        items.extend(edges(event, &change).into_iter().map(Item::Edge));
    }
    items
}

fn acknowledged(event: &Event, change: &Change<'_>) -> Option<Item> {
    let Call::Acknowledge { generation, sequence, delivered } = &event.call else { return None };
    let action = change.before.actions.iter().find(|a| (a.generation, a.sequence) == (*generation, *sequence))?;
    Some(Item::Acknowledged(action.kind, *delivered, event.answer.number))
}

/// What a refusal leaves.
fn stays(event: &Event, change: &Change<'_>) -> Option<Item> {
    let (label, number) = (event.call.label(), event.answer.number);
    match number {
        0 => None,
        _ if change.beside_the_clock() => Some(Item::Kept(label, number)),
        _ => (change.before != change.after).then_some(Item::Clock(label, number)),
    }
}

/// The records that a call ended, and whether it skipped a message that it owed for them.
fn ends(event: &Event, change: &Change<'_>) -> Vec<Item> {
    let label = event.call.label();
    // what an ACCEPT ends goes on as a circuit
    let pending = if label == "ACCEPT" { 0 } else { change.ended_pending().len() };
    let circuits = change.ended_circuits().len();
    let owed = match &event.call {
        Call::Disconnect { .. } => pending + 2 * circuits,
        Call::Revoke { .. } | Call::Expire { .. } | Call::Replace { .. } => 2 * (pending + circuits),
        Call::Acknowledge { .. } => 2 * circuits,
        _ => 0,
    };
    shown([
        (pending > 0, Item::Ended(label, Ended::Pending)),
        (circuits > 0, Item::Ended(label, Ended::Circuit)),
        (pending + circuits > 1, Item::Ended(label, Ended::Several)),
        (pending > 0 && circuits > 0, Item::Ended(label, Ended::Both)),
        (change.written().len() < owed, Item::Skipped(label)),
    ])
}

fn edges(event: &Event, change: &Change<'_>) -> Vec<Edge> {
    let (before, after, top) = (change.before, change.after, u64::MAX);
    let mut edges = shown([
        ((1 << 32..top).contains(&after.generation), Edge::GenerationOver32Bits),
        (after.generation == top, Edge::GenerationAtTop),
        (after.high_water == top, Edge::TimeAtTop),
        (before.next_sequence == top && event.refused_with(HnsrRuntimeError::GenerationExhausted), Edge::SequenceAtTop),
        (change.written().iter().any(|action| action.sequence == top - 1), Edge::LastSequence),
    ]);
    let Call::Handle { source, opcode, context, now, .. } = &event.call else { return edges };
    match HnsrOpcode::from(*opcode) {
        HnsrOpcode::Open => edges.extend(edges_of_open(event, change)),
        HnsrOpcode::Data if event.taken() => {
            let over = before.circuits.iter().any(|c| c.id == *context && c.expires_at <= *now);
            edges.extend(over.then_some(Edge::DataPastExpiry));
        }
        HnsrOpcode::Close | HnsrOpcode::Error => edges.extend(edge_of_close(source, change)),
        _ => {}
    }
    edges
}

fn edges_of_open(event: &Event, change: &Change<'_>) -> Vec<Edge> {
    let Call::Handle { body, admission, random, .. } = &event.call else { return Vec::new() };
    let before = change.before;
    let outstanding = |made: &Pending| before.actions.iter().any(|action| action.circuit_id == made.id);
    let id_taken = |id: &[u8]| before.pending.iter().any(|p| p.id == id) || before.circuits.iter().any(|c| c.id == id);
    let another_id = |grant: &Grant| body.get(32..48) != Some(&grant.reservation_id);
    let (taken, out_of_draws) = (event.taken(), event.refused_with(HnsrRuntimeError::Randomness));
    shown([
        (taken && admission.as_ref().is_some_and(another_id), Edge::GrantUnderAnotherId),
        (change.made_pending().is_some_and(outstanding), Edge::IdWithActionsOutstanding),
        ((taken || out_of_draws) && random.starts_with(&[0; 8]), Edge::ZeroDrawn),
        ((taken || out_of_draws) && random.get(..8).is_some_and(id_taken), Edge::TakenIdDrawn),
        (out_of_draws && random.len() % 8 != 0, Edge::ShortDraw),
    ])
}

/// Which side ended which record.
fn edge_of_close(source: &[u8], change: &Change<'_>) -> Option<Edge> {
    match (change.ended_pending().first(), change.ended_circuits().first()) {
        (Some(p), _) if p.requester == source => Some(Edge::PendingClosedByRequester),
        (Some(_), _) => Some(Edge::PendingClosedByEndpoint),
        (_, Some(c)) if c.requester == source => Some(Edge::CircuitClosedByRequester),
        (_, Some(_)) => Some(Edge::CircuitClosedByEndpoint),
        _ => None,
    }
}

fn shown<Shown, const N: usize>(list: [(bool, Shown); N]) -> Vec<Shown> {
    list.into_iter().filter(|(shown, _)| *shown).map(|(_, item)| item).collect()
}
