//! Both sides in one run: compared, then timed in turns.
use crate::call::{Call, Turn};
use crate::load::Fill;
use crate::relay::Relay;
use crate::side::{Library, Rust, Side};
use lekchnam_traces::Config;
use std::ops::Add;
use std::time::{Duration, Instant};

/// Turns that are not counted, and how many are: the least and the most. Between these a budget of time decides.
const WARM_UP: usize = 3;
const LEAST: usize = 15;
const MOST: usize = 2_000;

/// Nanoseconds of one call.
#[derive(Clone, Copy, Debug)]
pub struct Cost {
    pub library: f64,
    pub rust: f64,
}

impl Cost {
    pub fn ratio(self) -> f64 {
        self.library / self.rust
    }
}

impl Add for Cost {
    type Output = Self;

    fn add(self, other: Self) -> Self {
        Self { library: self.library + other.library, rust: self.rust + other.rust }
    }
}

pub struct Pair {
    library: Relay<Library>,
    rust: Relay<Rust>,
    budget: Duration,
}

impl Pair {
    pub fn new(config: Config, budget: Duration) -> Self {
        Self { library: Relay::new(Library::new(config)), rust: Relay::new(Rust::new(config)), budget }
    }

    pub fn fill(&mut self, to: Fill) {
        self.library.fill(to);
        self.rust.fill(to);
    }

    /// The cost of every call of these turns, in the order of `Call::ALL`; that of other calls is not a number.
    pub fn measure(&mut self, turns: &[Turn]) -> Vec<Cost> {
        for turn in turns {
            self.compare(*turn);
            (0..WARM_UP).for_each(|count| self.turn(*turn, count % 2 == 0));
        }
        self.library.times.forget();
        self.rust.times.forget();
        turns.iter().for_each(|turn| self.run(*turn));
        Call::ALL.map(|call| self.cost(call)).to_vec()
    }

    /// Ends the run where the answers differ.
    fn compare(&mut self, turn: Turn) {
        self.library.seen.log = Some(Vec::new());
        self.rust.seen.log = Some(Vec::new());
        self.turn(turn, true);
        assert_eq!(self.library.seen.log.take(), self.rust.seen.log.take(), "the sides differ in {turn:?}");
    }

    fn run(&mut self, turn: Turn) {
        let start = Instant::now();
        for count in 0..MOST {
            if count >= LEAST && start.elapsed() > self.budget {
                return;
            }
            self.turn(turn, count % 2 == 0);
        }
    }

    fn turn(&mut self, turn: Turn, library_first: bool) {
        if library_first {
            self.library.turn(turn);
        }
        self.rust.turn(turn);
        if !library_first {
            self.library.turn(turn);
        }
    }

    fn cost(&mut self, call: Call) -> Cost {
        match call {
            Call::Delivered => self.cost(Call::Data(1)) + self.cost(Call::Acknowledge),
            call => Cost { library: self.library.times.median(call), rust: self.rust.times.median(call) },
        }
    }
}

#[cfg(test)]
mod tests {
    use super::Pair;
    use crate::call::Turn;
    use crate::level::{Level, config, few_circuits};
    use crate::load::Fill;
    use crate::plan::Plan;
    use crate::relay::OWN;

    #[test]
    fn the_sides_agree_at_every_level_of_the_smallest_relays() {
        for config in [64, 1_024].map(config) {
            let mut pair = Pair::new(config, Plan::SHORT.budget);
            for level in [&Level::RISING[..], &[Level::EMPTIED]].concat() {
                pair.fill(Fill::share(&config, level.share));
                Turn::ALL.iter().for_each(|turn| pair.compare(*turn));
            }
        }
    }

    #[test]
    fn packets_are_refused_as_their_labels_say() {
        let mut pair = Pair::new(config(64), Plan::SHORT.budget);
        pair.library.seen.log = Some(Vec::new());
        pair.turn(Turn::Refused, true);
        let words = pair.library.seen.log.take().expect("it was asked for");
        let short = "unexpected end of input at byte 0; needed 1 more byte(s)";
        let expected =
            ["unknown HNSR circuit", short, "unknown HNSR circuit request", "unexpected HNSR runtime opcode"];
        assert_eq!(words, expected.map(|words| [words; OWN]).concat());
    }

    #[test]
    fn the_sides_agree_where_few_circuits_have_all_actions() {
        let config = few_circuits(1_024);
        let mut pair = Pair::new(config, Plan::SHORT.budget);
        for outstanding in [256, 1_024] {
            pair.fill(Fill::few_circuits(outstanding));
            Turn::ALL.iter().for_each(|turn| pair.compare(*turn));
        }
    }
}
