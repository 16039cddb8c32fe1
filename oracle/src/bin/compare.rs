//! compare FIRST COUNT CALLS   holds the proved library to the Rust: the traces of COUNT seeds from FIRST on,
//!                             CALLS calls each
//!
//! Exits 1 at the first difference, with the seed, the line that the call has in the seed's trace, the call and both
//! answers.
use lekchnam_traces::Relay;
use oracle::compare::{Compared, compare};
use std::process::ExitCode;
use std::time::Instant;

fn numbers() -> Option<[u64; 3]> {
    let numbers: Option<Vec<u64>> = std::env::args().skip(1).map(|number| number.parse().ok()).collect();
    numbers?.try_into().ok()
}

fn main() -> ExitCode {
    let Some([first, count, calls]) = numbers() else {
        eprintln!("compare FIRST COUNT CALLS");
        return ExitCode::from(2);
    };
    let start = Instant::now();
    let mut compared = Compared::default();
    for seed in first..first + count {
        if let Err(difference) = compare(seed, calls as usize, Relay::new, &mut compared) {
            println!("{difference}");
            return ExitCode::from(1);
        }
    }
    let seconds = start.elapsed().as_secs_f64();
    println!("compared with the Rust: {count} traces, {seconds:.1} seconds, no difference; {compared}");
    ExitCode::SUCCESS
}
