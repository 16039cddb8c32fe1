//! trace gen FIRST COUNT CALLS DIR [--full] [--state]   write trace files and print statistics
//! trace stats FIRST COUNT CALLS                        statistics only
//! trace replay FILE...                                 run files again on the Rust; exit 1 at the first difference

mod stats;

use lekchnam_traces::file::Writer;
use lekchnam_traces::replay::replay_files;
use lekchnam_traces::{Event, State};
use oracle::generate::Run;
use oracle::history::History;
use oracle::run::Rust;
use stats::Stats;
use std::process::ExitCode;

const USAGE: &str = "trace gen FIRST COUNT CALLS DIR [--full] [--state] | stats FIRST COUNT CALLS | replay FILE...";

#[derive(Clone, Copy)]
struct Options {
    full: bool,
    state: bool,
}

/// What is reckoned beside one trace.
struct Reckoning {
    history: History,
    lenient: History,
    poked: bool,
}

impl Reckoning {
    fn new() -> Self {
        Self { history: History::default(), lenient: History::lenient(), poked: false }
    }

    fn step(&mut self, event: &Event, stats: &mut Stats) {
        self.poked |= event.class == 'p';
        for wrong in self.history.step(event) {
            stats.history(if self.poked { "poked" } else { "in a run" }, wrong);
        }
        for wrong in self.lenient.step(event) {
            stats.lenient(wrong);
        }
    }
}

/// The text of one trace.
fn one(seed: u64, calls: usize, options: Options, stats: &mut Stats) -> String {
    let run = Run::new(seed, calls);
    let mut trace = Writer::new(&format!("trace {seed}"), run.places, options.full);
    let mut reckoning = Reckoning::new();
    stats.traces += 1;
    for event in run {
        let (count, limit) =
            (event.answer.words.count, event.call.words_needed(event.before.as_ref().map_or(0, State::records)));
        assert!(count <= limit, "{count} words, OUT.8 allows {limit}: {}", event.call.text(event.class));
        stats.count(&event);
        reckoning.step(&event, stats);
        trace.call(event.class, &event.call, &event.answer);
        if let (true, Some(state)) = (options.state, &event.after) {
            trace.state(state);
        }
    }
    trace.text()
}

/// Seeds FIRST .. FIRST + COUNT, and what is done with the text of each.
fn generate(numbers: [&str; 3], options: Options, keep: impl Fn(u64, String)) {
    let [first, count, calls] = numbers.map(|number| number.parse::<u64>().expect("a number"));
    let mut stats = Stats::default();
    for seed in first..first + count {
        keep(seed, one(seed, calls as usize, options, &mut stats));
    }
    stats.print();
}

fn main() -> ExitCode {
    let args: Vec<String> = std::env::args().skip(1).collect();
    let has = |flag: &str| args.iter().any(|arg| arg == flag);
    let options = Options { full: has("--full"), state: has("--state") };
    let words: Vec<&str> = args.iter().map(String::as_str).filter(|arg| !arg.starts_with("--")).collect();
    match words[..] {
        ["gen", first, count, calls, dir] => {
            std::fs::create_dir_all(dir).expect("DIR can be made");
            generate([first, count, calls], options, |seed, text| {
                std::fs::write(format!("{dir}/{seed:06}.trace"), text).expect("DIR can be written to");
            });
        }
        ["stats", first, count, calls] => generate([first, count, calls], options, |_, _| {}),
        ["replay", _, ..] => return replay_files(&args[1..], "the Rust", |_| Rust::default()),
        _ => {
            eprintln!("{USAGE}");
            return ExitCode::from(2);
        }
    }
    ExitCode::SUCCESS
}
