//! pick FIRST COUNT CALLS TRACES DIR   writes TRACES small traces that together show all that the fixed list must show
//!
//! Looks at COUNT seeds from FIRST on, CALLS calls each. For each thing in turn, the rarest first, it takes the seed
//! that shows it soonest, and of that seed's calls no more than are needed; then seeds from FIRST on, until there are
//! TRACES. The private state stands behind the last call of each trace. Exits 1 where something is not shown.
use lekchnam_traces::coverage::{Item, items};
use lekchnam_traces::file::Writer;
use lekchnam_traces::required::required;
use oracle::generate::Run;
use std::collections::{BTreeMap, BTreeSet};
use std::process::ExitCode;

/// The calls of a trace that only fills the list up.
const FILLING: usize = 30;

/// What one seed shows, and by how many calls.
type Shown = BTreeMap<Item, usize>;

fn shown_by(seed: u64, calls: usize) -> Shown {
    let mut shown = Shown::new();
    for (index, event) in Run::new(seed, calls).enumerate() {
        for item in items(&event) {
            shown.entry(item).or_insert(index + 1);
        }
    }
    shown
}

/// For each seed that is needed, how many of its calls are.
fn needed(seeds: &BTreeMap<u64, Shown>) -> BTreeMap<u64, usize> {
    let showing = |item: &Item| seeds.values().filter(|shown| shown.contains_key(item)).count();
    let mut wanted = required();
    wanted.sort_by_cached_key(showing);
    let mut taken = BTreeMap::new();
    let mut covered = BTreeSet::new();
    for item in wanted {
        let soonest = seeds.iter().filter_map(|(seed, shown)| Some((*shown.get(&item)?, *seed))).min();
        let (false, Some((calls, seed))) = (covered.contains(&item), soonest) else { continue };
        taken.entry(seed).and_modify(|most: &mut usize| *most = calls.max(*most)).or_insert(calls);
        covered.extend(seeds[&seed].iter().filter(|(_, at)| **at <= calls).map(|(item, _)| item.clone()));
    }
    taken
}

/// One trace; its text, and what it shows.
fn written(seed: u64, calls: usize) -> (String, Vec<Item>) {
    let run = Run::new(seed, calls);
    let mut trace = Writer::new(&format!("trace {seed}, its first {calls} calls"), run.places, false);
    let mut shown = Vec::new();
    let mut state = None;
    for event in run {
        trace.call(event.class, &event.call, &event.answer);
        shown.extend(items(&event));
        state = event.after;
    }
    state.iter().for_each(|state| trace.state(state));
    (trace.text(), shown)
}

fn pick([first, count, calls, traces]: [u64; 4], dir: &str) -> Vec<Item> {
    let seeds: BTreeMap<u64, Shown> =
        (first..first + count).map(|seed| (seed, shown_by(seed, calls as usize))).collect();
    let mut taken = needed(&seeds);
    let needed = taken.len();
    for seed in first..first + count {
        if taken.len() < traces as usize {
            taken.entry(seed).or_insert(FILLING);
        }
    }
    let (mut bytes, mut missing) = (0, required());
    for (seed, calls) in &taken {
        let (text, shown) = written(*seed, *calls);
        bytes += text.len();
        missing.retain(|item| !shown.contains(item));
        std::fs::write(format!("{dir}/{seed:06}.trace"), text).expect("DIR can be written to");
    }
    let calls: usize = taken.values().sum();
    println!("{} traces, {calls} calls, {bytes} bytes; {needed} of the traces show what is required", taken.len());
    missing
}

fn main() -> ExitCode {
    let args: Vec<String> = std::env::args().skip(1).collect();
    let numbers: Option<Vec<u64>> = args.iter().take(4).map(|number| number.parse().ok()).collect();
    let (Some(Ok(numbers)), [_, _, _, _, dir]) = (numbers.map(<[u64; 4]>::try_from), &args[..]) else {
        eprintln!("pick FIRST COUNT CALLS TRACES DIR");
        return ExitCode::from(2);
    };
    std::fs::create_dir_all(dir).expect("DIR can be made");
    let missing = pick(numbers, dir);
    for item in &missing {
        println!("not shown: {item}");
    }
    ExitCode::from(u8::from(!missing.is_empty()))
}
