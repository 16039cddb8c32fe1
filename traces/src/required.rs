//! What the fixed list must show. 19 and 21 are answers of other parts of the Rust, 22 and 23 of no
//! part of it, so no trace has them.
use crate::call::CLASSES;
use crate::coverage::{Edge, Ended, Item};
use crate::state::Kind;
use lekchnam_host::HnsrOpcode;

type Numbers = &'static [u8];

const ANSWERS: [(&str, Numbers); 16] = [
    ("new", &[0, 2, 3]),
    ("OPEN", &[0, 1, 4, 6, 7, 8, 9, 10, 12, 18]),
    ("ACCEPT", &[0, 1, 6, 7, 9, 10, 11, 13, 15]),
    ("DATA", &[0, 1, 4, 6, 7, 9, 10, 11, 14, 15, 17, 18]),
    ("WINDOW", &[0, 1, 6, 7, 9, 10, 14, 15, 17]),
    ("CLOSE", &[0, 1, 4, 6, 7, 9, 10, 11, 14, 15]),
    ("ERROR", &[0, 1, 4, 6, 7, 9, 10, 11, 14, 15]),
    ("opcode other", &[1, 7, 9, 16]),
    ("opcode 21+", &[7, 9, 16]),
    ("acknowledge", &[0, 5, 6, 10, 20]),
    ("disconnect", &[0, 4]),
    ("revoke_reservation", &[0]),
    ("expire", &[0, 7]),
    ("observe_time", &[0, 7]),
    ("replace_enabled", &[0, 5, 6]),
    ("poke_sequence", &[0]),
];

/// Refusals that leave the clock moved and all else as it was.
const CLOCK: [(&str, Numbers); 8] = [
    ("OPEN", &[1, 4, 8, 9, 10, 12, 18]),
    ("ACCEPT", &[1, 9, 10, 11, 13, 15]),
    ("DATA", &[1, 9, 10, 11, 14, 15, 17, 18]),
    ("WINDOW", &[1, 9, 10, 14, 15, 17]),
    ("CLOSE", &[1, 9, 11, 14, 15]),
    ("ERROR", &[1, 9, 11, 14, 15]),
    ("opcode other", &[9, 16]),
    ("opcode 21+", &[9, 16]),
];

/// Refusals that leave more changed than the clock.
const KEPT: [(&str, Numbers); 7] = [
    ("OPEN", &[4, 6, 8, 10, 12, 18]),
    ("ACCEPT", &[6]),
    ("DATA", &[6]),
    ("WINDOW", &[6]),
    ("CLOSE", &[6, 10]),
    ("ERROR", &[6, 10]),
    ("acknowledge", &[6, 10]),
];

const CONTEXT_ZERO: &str = "invalid:HNSR_context_ID_is_zero";
const DETAIL: &str = "invalid:invalid_HNSR_diagnostic_detail";
const NOT_UTF8: &str = "invalid:HNSR_detail_is_not_UTF-8";

const CAUSES: [(&str, &[&str]); 7] = [
    ("OPEN", &["end", "trailing", "invalid:invalid_HNSR_open_parameters", "admission", "large", CONTEXT_ZERO]),
    ("ACCEPT", &["end", "trailing", "invalid:invalid_HNSR_accept_response", CONTEXT_ZERO]),
    ("DATA", &["invalid:invalid_HNSR_DATA_size", "large", CONTEXT_ZERO]),
    ("WINDOW", &["end", "trailing", "invalid:invalid_HNSR_window_credit", CONTEXT_ZERO]),
    ("CLOSE", &["end", DETAIL, NOT_UTF8, "large", CONTEXT_ZERO]),
    ("ERROR", &["end", DETAIL, NOT_UTF8, "large", CONTEXT_ZERO]),
    ("opcode other", &[CONTEXT_ZERO]),
];

const KINDS: [Kind; 6] =
    [Kind::Incoming, Kind::Opened, Kind::DataToRequester, Kind::DataToEndpoint, Kind::Control, Kind::Close];

const REVOKING: [&str; 4] = ["disconnect", "revoke_reservation", "expire", "replace_enabled"];

const EDGES: [Edge; 15] = [
    Edge::DataPastExpiry,
    Edge::GrantUnderAnotherId,
    Edge::IdWithActionsOutstanding,
    Edge::ZeroDrawn,
    Edge::TakenIdDrawn,
    Edge::ShortDraw,
    Edge::PendingClosedByRequester,
    Edge::PendingClosedByEndpoint,
    Edge::CircuitClosedByRequester,
    Edge::CircuitClosedByEndpoint,
    Edge::GenerationOver32Bits,
    Edge::GenerationAtTop,
    Edge::TimeAtTop,
    Edge::SequenceAtTop,
    Edge::LastSequence,
];

/// All of it.
pub fn required() -> Vec<Item> {
    let mut items: Vec<Item> = CLASSES.into_iter().map(Item::Class).collect();
    items.extend((0..=HnsrOpcode::COUNT).map(Item::Opcode));
    items.extend(numbered(&ANSWERS, Item::Answer));
    items.extend(numbered(&CLOCK, Item::Clock));
    items.extend(numbered(&KEPT, Item::Kept));
    items.extend(
        CAUSES.iter().flat_map(|(label, causes)| causes.iter().map(|cause| Item::Cause(label, cause.to_string()))),
    );
    items.extend(
        KINDS.into_iter().flat_map(|kind| {
            [Item::Written(kind), Item::Acknowledged(kind, true, 0), Item::Acknowledged(kind, false, 0)]
        }),
    );
    items.extend([6, 10].map(|number| Item::Acknowledged(Kind::Incoming, false, number)));
    items.extend(
        ["CLOSE", "ERROR", "acknowledge"].into_iter().flat_map(|label| ended(label, &[Ended::Pending, Ended::Circuit])),
    );
    items.extend(
        REVOKING
            .into_iter()
            .flat_map(|label| ended(label, &[Ended::Pending, Ended::Circuit, Ended::Several, Ended::Both])),
    );
    items.extend(REVOKING.into_iter().chain(["acknowledge"]).map(Item::Skipped));
    items.extend(EDGES.map(Item::Edge));
    items
}

fn numbered(table: &[(&'static str, Numbers)], item: fn(&'static str, u8) -> Item) -> Vec<Item> {
    table.iter().flat_map(|(label, numbers)| numbers.iter().map(move |number| item(label, *number))).collect()
}

fn ended(label: &'static str, what: &[Ended]) -> Vec<Item> {
    what.iter().map(|ended| Item::Ended(label, *ended)).collect()
}
