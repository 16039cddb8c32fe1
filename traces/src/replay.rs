//! Recorded traces, held to what runs their calls.
use crate::file::{self, Line, Places, Trace};
use crate::state::first_difference;
use crate::{Answer, Call, Class, State};
use std::io::Read;
use std::process::ExitCode;

/// What runs the calls of a trace: the proved library, or the Rust.
pub trait Machine {
    /// Runs a call. A `new` that is taken starts afresh, one that is refused leaves all as it is.
    fn call(&mut self, class: Class, call: &Call) -> Answer;

    /// The private state, once a `new` is taken.
    fn state(&self) -> Option<State>;

    /// How many more actions fit toward a peer of a good name and about a circuit, once a `new` is taken. No line of a
    /// trace has it.
    fn action_capacity(&self, peer: &[u8], circuit: [u8; 8]) -> Option<usize>;
}

/// The first line of a trace where the machine does something else.
#[derive(Clone, Debug, Eq, PartialEq)]
pub struct Difference {
    pub line: usize,
    /// What differs, what is expected there and what came.
    pub what: String,
}

/// Runs all calls; how many.
pub fn replay(trace: &Trace, machine: &mut impl Machine) -> Result<usize, Difference> {
    for line in &trace.lines {
        step(machine, line).map_err(|what| Difference { line: line.number, what })?;
    }
    Ok(trace.lines.len())
}

/// Runs the call of one line, and compares the answer, and the state where the line has one.
fn step(machine: &mut impl Machine, line: &Line) -> Result<(), String> {
    let came = machine.call(line.class, &line.call);
    if let Some(what) = line.answer.difference(&came) {
        return Err(what);
    }
    let Some(expected) = &line.state else { return Ok(()) };
    let came = machine.state().map_or(Vec::new(), |state| state.lines());
    first_difference(expected, &came).map_or(Ok(()), |what| Err(format!("state: {what}")))
}

/// Why replaying ended early: the place and what is wrong there.
enum Ended {
    Different(String),
    Unreadable(String),
}

/// Replays files, `-` being the standard input, and says how many calls agree. Ends with 1 at the first difference
/// and with 2 where a file cannot be read, and names the place.
pub fn replay_files<Runs: Machine>(files: &[String], who: &str, make: impl Fn(Places) -> Runs) -> ExitCode {
    let (mut traces, mut calls) = (0, 0);
    for path in files {
        match replay_file(path, &make) {
            Ok((more_traces, more_calls)) => (traces, calls) = (traces + more_traces, calls + more_calls),
            Err(Ended::Different(reason)) => {
                eprintln!("{reason}");
                return ExitCode::from(1);
            }
            Err(Ended::Unreadable(reason)) => {
                eprintln!("{reason}");
                return ExitCode::from(2);
            }
        }
    }
    println!("{traces} traces, {calls} calls: {who} answers as recorded");
    ExitCode::SUCCESS
}

/// How many traces and calls of a file agree.
fn replay_file<Runs: Machine>(path: &str, make: &impl Fn(Places) -> Runs) -> Result<(usize, usize), Ended> {
    let text = text(path).map_err(|error| Ended::Unreadable(format!("{path}: {error}")))?;
    let traces =
        file::read(&text).map_err(|fault| Ended::Unreadable(format!("{path}:{}: {}", fault.line, fault.reason)))?;
    let mut calls = 0;
    for trace in &traces {
        let replayed = replay(trace, &mut make(trace.places));
        calls += replayed.map_err(|found| Ended::Different(format!("{path}:{}: {}", found.line, found.what)))?;
    }
    Ok((traces.len(), calls))
}

fn text(path: &str) -> std::io::Result<String> {
    if path != "-" {
        return std::fs::read_to_string(path);
    }
    let mut text = String::new();
    std::io::stdin().read_to_string(&mut text)?;
    Ok(text)
}
