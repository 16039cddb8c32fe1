//! What such a process does.
use super::{End, Question, Told};
use crate::level::config;
use crate::load::{Fill, Load};
use crate::median::median;
use crate::side::{Library, Rust, Seen, Side};
use crate::times::clock;
use lekchnam_traces::Config;
use std::fs;
use std::hint::black_box;
use std::sync::LazyLock;
use std::time::{Duration, Instant};

/// How often a process makes a relay again, and how often together where that is short.
const AGAIN: usize = 101;
const TOGETHER: usize = 100;

/// Prints the numbers in one line, and behind it what must be the same on both sides.
pub fn answer(side: &str, arguments: &[&str]) {
    let question = Question::parse(arguments);
    let (numbers, told) = match side {
        "library" => told::<Library>(question),
        "rust" => told::<Rust>(question),
        _ => panic!("no such side: {side}"),
    };
    let numbers: Vec<String> = numbers.iter().map(f64::to_string).collect();
    print!("{}\n{told}", numbers.join(" "));
}

fn told<S: Side>(question: Question) -> Told {
    match question {
        Question::New => make::<S>(),
        Question::End(how, actions, share) => {
            let config = config(actions);
            end::<S>(how, config, Fill::share(&config, share))
        }
    }
}

fn make<S: Side>() -> Told {
    let config = Config::default();
    timed(|| ());
    let before = resident();
    let (first, relay) = timed(|| S::new(config));
    let memory = resident() - before;
    drop(relay);
    let mut again: Vec<f64> = (0..AGAIN).map(|_| timed(|| S::new(config)).0).collect();
    let mut calls: Vec<f64> = S::renew(config).map_or(Vec::new(), |mut call| {
        let mut together = || timed(|| (0..TOGETHER).for_each(|_| call())).0 / TOGETHER as f64;
        (0..AGAIN).map(|_| together()).collect()
    });
    (vec![first, median(&mut again), median(&mut calls), memory], String::new())
}

fn end<S: Side>(end: End, config: Config, fill: Fill) -> Told {
    let mut load = Load::<S>::ready(fill);
    let mut seen = Seen::default();
    seen.ids.reserve(2 * fill.ending());
    let before = resident();
    let mut side = S::new(config);
    load.fill(&mut side, fill);
    let memory = resident() - before;
    let (time, ()) = timed(|| match end {
        End::Expire => side.expire(u64::MAX, &mut seen),
        End::Off => side.switch_off(&mut seen),
    });
    seen.log = Some(Vec::new());
    side.status(&mut seen);
    (vec![time, memory], format!("{} routes, {:?}", seen.ids.len(), seen.log))
}

/// Nanoseconds, and what was made meanwhile.
fn timed<Made>(make: impl FnOnce() -> Made) -> (f64, Made) {
    static CLOCK: LazyLock<Duration> = LazyLock::new(clock);
    let clock = *CLOCK;
    let start = Instant::now();
    let made = black_box(make());
    (start.elapsed().saturating_sub(clock).as_nanos() as f64, made)
}

/// The kilobytes of this process that stand in memory, counted page by page, without the pages of its program.
fn resident() -> f64 {
    let told = fs::read_to_string("/proc/self/smaps_rollup").expect("the system tells");
    let line = told.lines().find_map(|line| line.strip_prefix("Anonymous:")).expect("a line of it");
    line.trim().trim_end_matches(" kB").parse().expect("a number")
}

#[cfg(test)]
mod tests {
    use super::{End, end};
    use crate::level::{Level, config};
    use crate::load::Fill;
    use crate::side::{Library, Rust};

    #[test]
    fn the_sides_agree_when_all_ends() {
        let config = config(8_192);
        for level in Level::loaded() {
            let fill = Fill::share(&config, level.share);
            for how in End::ALL {
                let (library, rust) = (end::<Library>(how, config, fill).1, end::<Rust>(how, config, fill).1);
                assert_eq!(library, rust, "{how:?}, {}", level.label);
                assert!(library.contains(&format!("revoked_work: {}", fill.ending())), "{library}");
            }
        }
    }
}
