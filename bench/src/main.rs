//! The proved relay against the Rust: what each call costs. Writes the figures into docs/BENCHMARKS.md
//! and draws docs/benchmarks.svg.
mod alone;
mod call;
mod circuit;
mod level;
mod load;
mod median;
mod page;
mod pair;
mod plan;
mod plot;
mod relay;
mod report;
mod side;
mod times;

use alone::{ALONE, End, ended, made};
use call::Turn;
use level::{Level, config, few_circuits};
use load::Fill;
use page::write_between;
use pair::Pair;
use plan::Plan;
use report::{Endings, Figure, Outstanding};
use std::path::Path;
use std::{env, fs};

fn main() {
    let arguments: Vec<String> = env::args().skip(1).collect();
    let arguments: Vec<&str> = arguments.iter().map(String::as_str).collect();
    match arguments[..] {
        [ALONE, side, ref question @ ..] => alone::answer(side, question),
        [docs] => write(Path::new(docs), &Plan::WHOLE),
        [docs, "short"] => write(Path::new(docs), &Plan::SHORT),
        _ => panic!("the folder of BENCHMARKS.md is to be named, and short if only the program is tried"),
    }
}

fn write(docs: &Path, plan: &Plan) {
    eprintln!("new relays");
    let made = made(plan.processes);
    let actions = plan.actions();
    let by_use = measured(plan, actions, &[&Level::RISING[..], &[Level::EMPTIED]].concat());
    let size =
        |size: usize| (size, if size == actions { chosen(&by_use) } else { measured(plan, size, &Level::OF_SIZES) });
    let by_size: Vec<_> = plan.sizes.iter().map(|actions| size(*actions)).collect();
    let by_outstanding = by_outstanding(plan);
    let endings = endings(plan);
    let (.., full) = *endings.last().expect("some end");
    let rising = &by_use[..Level::RISING.len()];
    fs::write(docs.join("benchmarks.svg"), plot::svg(rising).expect("a string takes all"))
        .expect("benchmarks.svg is written");
    let parts = [
        ("machine", env::var("BENCH_MACHINE").unwrap_or_default() + "\n"),
        ("goal", report::goal(&by_use, &by_outstanding)),
        ("ratios", report::ratios(&by_use)),
        ("outstanding", report::outstanding(&by_outstanding)),
        ("new", report::new(made, full)),
        ("endings", report::endings(&endings)),
        ("figures", report::costs(&by_use, actions)),
        ("sizes", report::sizes(&by_size)),
    ];
    write_between(&docs.join("BENCHMARKS.md"), &parts);
}

/// One relay of each side, filled step by step.
fn measured(plan: &Plan, actions: usize, levels: &[Level]) -> Vec<Figure> {
    let config = config(actions);
    let mut pair = Pair::new(config, plan.budget);
    let mut figures = Vec::new();
    for level in levels {
        eprintln!("{actions} actions, {}", level.label);
        pair.fill(Fill::share(&config, level.share));
        figures.push((*level, pair.measure(&Turn::ALL)));
    }
    figures
}

/// Those of all levels that the table of sizes has.
fn chosen(figures: &[Figure]) -> Vec<Figure> {
    let wanted = |level: &Level| Level::OF_SIZES.iter().any(|other| other.label == level.label);
    figures.iter().filter(|(level, _)| wanted(level)).cloned().collect()
}

/// One relay of each side, in which few circuits have more and more actions.
fn by_outstanding(plan: &Plan) -> Vec<Outstanding> {
    let mut pair = Pair::new(few_circuits(plan.actions()), plan.budget);
    let mut list = Vec::new();
    for outstanding in plan.outstanding {
        eprintln!("few circuits, {outstanding} actions");
        pair.fill(Fill::few_circuits(*outstanding));
        list.push((*outstanding, pair.measure(&[Turn::Traffic(1), Turn::Life, Turn::Refused])));
    }
    list
}

/// All that is in use ends, at each level that has a load; the last is full.
fn endings(plan: &Plan) -> Vec<Endings> {
    let mut list = Vec::new();
    for end in End::ALL {
        for (level, count) in Level::loaded().iter().zip(plan.endings) {
            eprintln!("{}, {}", end.label(), level.label);
            let ending = Fill::share(&config(plan.actions()), level.share).ending();
            list.push((end, *level, ending, ended(end, plan.actions(), level.share, count)));
        }
    }
    list
}
