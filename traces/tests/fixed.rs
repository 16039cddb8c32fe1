//! The fixed list: the library answers as recorded, and the list shows all that it must.
use lekchnam_traces::coverage::{Item, items};
use lekchnam_traces::file::{Places, Trace, read};
use lekchnam_traces::reading::Reading;
use lekchnam_traces::replay::{Machine, replay};
use lekchnam_traces::required::required;
use lekchnam_traces::{Event, Relay};
use std::collections::BTreeSet;
use std::path::PathBuf;

const LEAST_TRACES: usize = 200;

/// The traces by the name of their file.
fn traces() -> Vec<(String, Trace)> {
    let folder = PathBuf::from(env!("CARGO_MANIFEST_DIR")).join("fixed");
    let mut files: Vec<PathBuf> =
        folder.read_dir().expect("the list is there").map(|entry| entry.unwrap().path()).collect();
    files.sort();
    let traces = files.iter().flat_map(|path| {
        let text = std::fs::read_to_string(path).unwrap();
        let traces = read(&text).unwrap_or_else(|fault| panic!("{}:{}: {}", path.display(), fault.line, fault.reason));
        traces.into_iter().map(|trace| (path.display().to_string(), trace))
    });
    traces.collect()
}

fn replayed<Runs: Machine>(who: &str, make: impl Fn(Places) -> Runs) {
    let traces = traces();
    let mut calls = 0;
    for (path, trace) in &traces {
        let replayed = replay(trace, &mut make(trace.places));
        calls += replayed.unwrap_or_else(|found| panic!("{path}:{}: {}", found.line, found.what));
    }
    println!("compared with answers recorded from the Rust: {} traces, {calls} calls of {who}", traces.len());
}

#[test]
fn the_library_answers_as_recorded() {
    replayed("the library", Relay::new);
}

#[test]
fn the_second_reading_answers_as_recorded() {
    replayed("the second reading", Reading::new);
}

fn shown(trace: &Trace) -> Vec<Item> {
    let mut relay = Relay::new(trace.places);
    let mut shown = Vec::new();
    for line in &trace.lines {
        let before = relay.state();
        let answer = relay.call(line.class, &line.call);
        let event = Event { class: line.class, call: line.call.clone(), before, answer, after: relay.state() };
        shown.extend(items(&event));
    }
    shown
}

#[test]
fn all_that_is_required_is_shown() {
    let traces = traces();
    assert!(traces.len() >= LEAST_TRACES, "{} traces", traces.len());
    let shown: BTreeSet<Item> = traces.iter().flat_map(|(_, trace)| shown(trace)).collect();
    let missing: Vec<String> = required().iter().filter(|item| !shown.contains(item)).map(Item::to_string).collect();
    assert!(missing.is_empty(), "not shown: {}", missing.join("; "));
}

#[test]
fn each_generated_trace_ends_in_its_state() {
    let without = traces().into_iter().filter(|(_, trace)| trace.lines.last().is_none_or(|line| line.state.is_none()));
    let names: BTreeSet<String> = without.map(|(path, _)| path.rsplit('/').next().unwrap().to_owned()).collect();
    assert_eq!(names, ["bodies.trace", "config.trace", "draws.trace", "sequence.trace"].map(str::to_owned).into());
}
