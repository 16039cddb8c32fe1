//! The figures as tables of Markdown.
mod goal;
mod once;

pub use goal::goal;
pub use once::{Endings, endings, new};

use crate::call::{Call, Refusal};
use crate::level::{Level, config, records};
use crate::page::{grouped, short, table, texts};
use crate::pair::Cost;

/// What every call costs at a level, in the order of `Call::ALL`.
pub type Figure = (Level, Vec<Cost>);

/// What the calls cost with so many actions outstanding.
pub type Outstanding = (usize, Vec<Cost>);

/// Where there is no number.
const NONE: &str = "–";

/// The calls of the table of outstanding actions.
const AGAINST_USE: [Call; 8] = [
    Call::Data(1),
    Call::Acknowledge,
    Call::Delivered,
    Call::Open,
    Call::Refused(Refusal::Circuit),
    Call::Refused(Refusal::Body),
    Call::Refused(Refusal::Request),
    Call::Refused(Refusal::Opcode),
];

/// The calls of the table of sizes, and of the plot.
pub const CHOSEN: [Call; 6] =
    [Call::Open, Call::Data(1), Call::Acknowledge, Call::Close, Call::Disconnect, Call::Expire];

/// Library / Rust: calls by levels.
pub fn ratios(figures: &[Figure]) -> String {
    let levels: Vec<&str> = figures.iter().map(|(level, _)| level.label).collect();
    let row = |call: Call| {
        let cells = figures.iter().map(|(_, costs)| short(costs[call.place()].ratio())).collect();
        [texts(&[call.label()]), cells].concat()
    };
    table(&texts(&[&["call"], &levels[..]].concat()), &Call::ALL.map(row))
}

/// All figures: a row for each call and level.
pub fn costs(figures: &[Figure], actions: usize) -> String {
    let titles = ["call", "in use", "library, ns", "the Rust, ns", "library / Rust", "library, ns for each record"];
    let row = |call: Call, (level, costs): &Figure| {
        let cost = costs[call.place()];
        let records = records(call, &config(actions), *level);
        let each = records.map_or(NONE.to_owned(), |records| format!("{:.2}", cost.library / records as f64));
        let numbers = [grouped(cost.library), grouped(cost.rust), short(cost.ratio()), each];
        [texts(&[call.label(), level.label]), numbers.to_vec()].concat()
    };
    let rows: Vec<_> = Call::ALL.iter().flat_map(|call| figures.iter().map(|figure| row(*call, figure))).collect();
    table(&texts(&titles), &rows)
}

/// The chosen calls by table size: library / Rust = ratio, at each level that every size has.
pub fn sizes(list: &[(usize, Vec<Figure>)]) -> String {
    let levels = Level::OF_SIZES.map(|level| level.label);
    let row = |call: Call, (actions, figures): &(usize, Vec<Figure>)| {
        let cells = figures.iter().map(|(_, costs)| both(costs[call.place()])).collect();
        [texts(&[call.label(), &grouped(*actions as f64)]), cells].concat()
    };
    let rows: Vec<_> = CHOSEN.iter().flat_map(|call| list.iter().map(|size| row(*call, size))).collect();
    table(&texts(&[&["call", "actions"], &levels[..]].concat()), &rows)
}

/// Cost against use: a row for each call and number of outstanding actions.
pub fn outstanding(list: &[Outstanding]) -> String {
    let row = |call: Call, (actions, costs): &Outstanding| {
        let cost = costs[call.place()];
        let numbers = [grouped(*actions as f64), grouped(cost.library), grouped(cost.rust), short(cost.ratio())];
        [texts(&[call.label()]), numbers.to_vec()].concat()
    };
    let rows: Vec<_> = AGAINST_USE.iter().flat_map(|call| list.iter().map(|number| row(*call, number))).collect();
    table(&texts(&["call", "actions", "library, ns", "the Rust, ns", "library / Rust"]), &rows)
}

fn outstanding_titles(list: &[Outstanding]) -> Vec<String> {
    list.iter().map(|(actions, _)| grouped(*actions as f64)).collect()
}

/// Library / Rust = ratio.
fn both(cost: Cost) -> String {
    format!("{} / {} = {}", grouped(cost.library), grouped(cost.rust), short(cost.ratio()))
}
