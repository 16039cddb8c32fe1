//! What happens once to a relay: it is made, and it ends.
use super::{NONE, grouped, short, table, texts};
use crate::alone::{End, Ended, Made};
use crate::level::Level;

/// How a relay ended: by which call, at which level, how many records, and on each side.
pub type Endings = (End, Level, usize, [Ended; 2]);

/// Nanoseconds for each record that ends.
pub fn endings(list: &[Endings]) -> String {
    let titles =
        ["call", "in use", "records that end", "library, ns for each", "the Rust, ns for each", "library / Rust"];
    let row = |(end, level, records, [library, rust]): &Endings| {
        let each = [library, rust].map(|ended| grouped(ended.time / *records as f64));
        let numbers = [&[grouped(*records as f64)][..], &each, &[short(library.time / rust.time)]].concat();
        [texts(&[end.label(), level.label]), numbers].concat()
    };
    table(&texts(&titles), &list.iter().map(row).collect::<Vec<_>>())
}

/// A new relay, and the memory of a full one.
pub fn new(made: [Made; 2], full: [Ended; 2]) -> String {
    let row = |what: &str, unit: &str, numbers: [f64; 2]| {
        let cell = |number: f64| if number.is_nan() { NONE.to_owned() } else { format!("{} {unit}", grouped(number)) };
        [texts(&[what]), numbers.map(cell).to_vec()].concat()
    };
    let rows = [
        row("`new`, the first of a process", "ns", made.map(|side| side.first)),
        row("`new` again, after another was dropped", "ns", made.map(|side| side.again)),
        row("the call alone, over tables that are there", "ns", made.map(|side| side.call)),
        row("memory of a new relay", "kB", made.map(|side| side.memory)),
        row("memory of a full one", "kB", full.map(|side| side.memory)),
    ];
    table(&texts(&["", "library", "the Rust"]), &rows)
}
