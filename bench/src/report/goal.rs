//! The goal, and how far it is reached.
use super::{Figure, Outstanding, grouped, outstanding_titles, table, texts};
use crate::call::{Call, Refusal};
use crate::level::Level;

/// Library / Rust at the levels of `Level::RISING`, at most.
const RATIOS: [(Call, [f64; Level::RISING.len()]); 7] = [
    (Call::Data(1), [1.2, 0.8, 0.6, 0.6, 0.6]),
    (Call::Window, [1.2, 0.8, 0.6, 0.6, 0.6]),
    (Call::Open, [1.5, 0.8, 0.8, 0.8, 0.6]),
    (Call::Accept, [3.0, 1.5, 1.0, 1.0, 1.0]),
    (Call::Close, [3.0, 1.5, 1.0, 1.0, 1.0]),
    (Call::Disconnect, [3.0, 1.5, 1.0, 1.0, 1.0]),
    (Call::Delivered, [1.2, 0.9, 0.8, 0.8, 0.8]),
];

/// The packets that are to be refused in less than so many nanoseconds, however many actions are outstanding.
const REFUSED: [Refusal; 3] = [Refusal::Circuit, Refusal::Body, Refusal::Request];
const REFUSED_UNDER: f64 = 500.0;

/// What was reached of what was asked; bold where it was missed.
fn cell(reached: String, asked: &str, holds: bool) -> String {
    if holds { format!("{reached} ({asked})") } else { format!("**{reached} ({asked})**") }
}

/// Ratios by levels, and refused packets by outstanding actions.
pub fn goal(by_use: &[Figure], by_outstanding: &[Outstanding]) -> String {
    let by_level = |(call, limits): (Call, [f64; Level::RISING.len()])| {
        let cells = by_use.iter().zip(limits).map(|((_, costs), limit)| {
            let ratio = costs[call.place()].ratio();
            cell(format!("{ratio:.3}"), &limit.to_string(), ratio <= limit)
        });
        texts(&[call.label()]).into_iter().chain(cells).collect()
    };
    let by_actions = |refusal: Refusal| {
        let call = Call::Refused(refusal);
        let cells = by_outstanding.iter().map(|(_, costs)| {
            let time = costs[call.place()].library;
            cell(grouped(time), &grouped(REFUSED_UNDER), time < REFUSED_UNDER)
        });
        texts(&[call.label()]).into_iter().chain(cells).collect()
    };
    let levels = Level::RISING.map(|level| level.label);
    let ratios = table(&texts(&[&["library / Rust (at most)"], &levels[..]].concat()), &RATIOS.map(by_level));
    let title = texts(&["library, ns (under), by actions outstanding"]);
    let refused = table(&[title, outstanding_titles(by_outstanding)].concat(), &REFUSED.map(by_actions));
    let tables = format!("{ratios}\n{refused}");
    let missed = tables.matches(")**").count();
    let all = by_use.len().min(levels.len()) * RATIOS.len() + by_outstanding.len() * REFUSED.len();
    format!("{missed} of {all} are missed.\n\n{tables}")
}

#[cfg(test)]
mod tests {
    use super::{cell, goal};
    use crate::call::Call;
    use crate::level::Level;
    use crate::pair::Cost;

    #[test]
    fn what_is_missed_is_marked_and_counted() {
        assert_eq!(cell("0.55".to_owned(), "0.6", true), "0.55 (0.6)");
        assert_eq!(cell("0.61".to_owned(), "0.6", false), "**0.61 (0.6)**");
        let costs = |library| vec![Cost { library, rust: 100.0 }; Call::ALL.len()];
        let by_use = |library| Level::RISING.map(|level| (level, costs(library)));
        assert!(goal(&by_use(60.0), &[(256, costs(499.0))]).starts_with("0 of 38 are missed."));
        assert!(goal(&by_use(301.0), &[(256, costs(500.0))]).starts_with("38 of 38 are missed."));
        assert!(goal(&by_use(f64::NAN), &[(256, costs(f64::NAN))]).starts_with("38 of 38 are missed."));
    }
}
