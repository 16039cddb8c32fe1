//! beyond SEED CALLS   makes so many calls on the library with runtimes, tables, output words and names that no run has
//!
//! Exits 1 at the first call that is wrong, and prints it with what it was lent.
use lekchnam_traces::beyond::beyond;
use std::process::ExitCode;
use std::time::Instant;

fn main() -> ExitCode {
    let numbers: Option<Vec<u64>> = std::env::args().skip(1).map(|number| number.parse().ok()).collect();
    let Some(Ok([seed, calls])) = numbers.map(<[u64; 2]>::try_from) else {
        eprintln!("beyond SEED CALLS");
        return ExitCode::from(2);
    };
    let start = Instant::now();
    match beyond(seed, calls) {
        Ok(answers) => {
            println!(
                "{calls} calls beyond the domain, {:.1} seconds, nothing wrong; answers by call:",
                start.elapsed().as_secs_f64()
            );
            print!("{answers}");
            ExitCode::SUCCESS
        }
        Err(wrong) => {
            println!("{wrong}");
            ExitCode::from(1)
        }
    }
}
