//! What it costs to count one peer's work in each of three ways. Writes the figures into docs/BENCHMARKS.md.
#[path = "../../src/median.rs"]
mod median;
#[path = "../../src/page.rs"]
mod page;
mod tables;
mod turns;

use page::{grouped, short, table, texts, write_between};
use std::env;
use std::path::Path;
use std::time::Duration;
use tables::{Names, Share, Size, Tables};
use turns::timed;

/// For how long the three ways take turns on one pair of tables.
const BUDGET: Duration = Duration::from_millis(1_000);
/// The same where only the program is tried.
const SHORT: Duration = Duration::from_millis(20);

fn main() {
    let arguments: Vec<String> = env::args().skip(1).collect();
    let arguments: Vec<&str> = arguments.iter().map(String::as_str).collect();
    let (docs, budget) = match arguments[..] {
        [docs] => (docs, BUDGET),
        [docs, "short"] => (docs, SHORT),
        _ => panic!("the folder of BENCHMARKS.md is to be named, and short if only the program is tried"),
    };
    let machine = env::var("BENCH_MACHINE").unwrap_or_default();
    let text = format!("{machine}\n\n{}", figures(budget));
    write_between(&Path::new(docs).join("BENCHMARKS.md"), &[("peer work", text)]);
}

/// A row for each size, kind of names and share in use. The columns of the ways are in the order of `Way::ALL`.
fn figures(budget: Duration) -> String {
    let mut rows = Vec::new();
    for size in Size::ALL {
        for names in Names::ALL {
            for share in Share::ALL {
                eprintln!("{} and {}, {}, {}", size.pending, size.circuits, names.label(), share.label);
                rows.push(row(size, names, share, budget));
            }
        }
    }
    let titles = ["tables", "names", "in use", "in place, ns", "copying, ns", "before, ns"];
    let ratios = ["in place / copying", "in place / before"];
    table(&texts(&[&titles[..], &ratios].concat()), &rows)
}

fn row(size: Size, names: Names, share: Share, budget: Duration) -> Vec<String> {
    let tables = Tables::new(size, names, share);
    tables.compare();
    let places = (size.pending + size.circuits) as f64;
    let each = timed(budget, |way| tables.count(way)).map(|time| time / places);
    let [in_place, copying, before] = each;
    let label = format!("{} and {}", grouped(size.pending as f64), grouped(size.circuits as f64));
    let numbers = each.map(short);
    let ratios = [in_place / copying, in_place / before].map(short);
    [texts(&[&label, names.label(), share.label]), numbers.to_vec(), ratios.to_vec()].concat()
}
