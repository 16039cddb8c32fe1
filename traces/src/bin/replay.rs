//! replay FILE...   holds the proved library to recorded traces; `-` is the standard input
//!
//! Exits 1 at the first difference and 2 where a file cannot be read, and names the place.
use lekchnam_traces::Relay;
use lekchnam_traces::replay::replay_files;
use std::process::ExitCode;

fn main() -> ExitCode {
    let files: Vec<String> = std::env::args().skip(1).collect();
    if files.is_empty() {
        eprintln!("replay FILE...");
        return ExitCode::from(2);
    }
    replay_files(&files, "the library", Relay::new)
}
