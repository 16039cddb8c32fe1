//! The command `replay`: what it says of a trace with one change, and what it exits with.
use std::path::PathBuf;
use std::process::{Command, Output};

const TRACE: &str = include_str!("../fixed/sequence.trace");
const STATE: &str = include_str!("../fixed/100001.trace");

/// Replays a text from a file of its own.
fn replay(name: &str, text: &str) -> (Output, String) {
    let path = PathBuf::from(env!("CARGO_TARGET_TMPDIR")).join(name);
    std::fs::write(&path, text).unwrap();
    let output = Command::new(env!("CARGO_BIN_EXE_replay")).arg(&path).output().unwrap();
    (output, path.display().to_string())
}

/// Of the lines that have it, the one that is nearest to the middle: its number from 1, and the text with it changed.
fn changed(text: &str, old: &str, new: &str) -> (usize, String) {
    let mut lines: Vec<String> = text.lines().map(str::to_owned).collect();
    let having: Vec<usize> = (0..lines.len()).filter(|at| lines[*at].contains(old)).collect();
    let at = having[having.len() / 2];
    lines[at] = lines[at].replacen(old, new, 1);
    (at + 1, lines.join("\n"))
}

/// Where the command ends: with this code, naming this line and what differs there.
fn ends(name: &str, text: &str, code: i32, line: usize, reason: &str) {
    let (output, path) = replay(name, text);
    let said = String::from_utf8(output.stderr).unwrap();
    assert_eq!(output.status.code(), Some(code), "{said}");
    assert!(said.starts_with(&format!("{path}:{line}: ")) && said.contains(reason), "{said} and not {line}: {reason}");
}

#[test]
fn a_trace_as_it_is() {
    let (output, _) = replay("as-it-is", TRACE);
    assert_eq!(output.status.code(), Some(0));
    assert_eq!(String::from_utf8(output.stdout).unwrap(), "1 traces, 448 calls: the library answers as recorded\n");
}

#[test]
fn one_changed_word() {
    // a route's first word, with the length of the name
    let (line, text) = changed(TRACE, " 10000003 ", " 10000004 ");
    ends("word", &text, 1, line, "word 0: expected 10000004, came 10000003");
}

#[test]
fn one_changed_answer() {
    let (line, text) = changed(TRACE, " => 6 - 0 ", " => 0 - 0 ");
    ends("answer", &text, 1, line, "answer: expected 0, came 6");
}

#[test]
fn one_changed_number_of_the_status() {
    let (line, text) = changed(TRACE, " | 1 1 ", " | 2 1 ");
    ends("status", &text, 1, line, "generation: expected 2, came 1");
}

#[test]
fn one_changed_line_of_state() {
    let (line, text) = changed(STATE, "#state next_sequence ", "#state next_sequence 1");
    // the state belongs to the call in front of it
    ends("state", &text, 1, line - 1, "state: expected #state next_sequence 1");
}

#[test]
fn one_damaged_line() {
    let (line, text) = changed(TRACE, " => ", " -> ");
    ends("damaged", &text, 2, line, "no => behind the call");
}

#[test]
fn a_file_that_is_not_there() {
    let output = Command::new(env!("CARGO_BIN_EXE_replay")).arg("nowhere.trace").output().unwrap();
    assert_eq!(output.status.code(), Some(2));
    assert!(String::from_utf8(output.stderr).unwrap().starts_with("nowhere.trace: "));
}
