//! How long calls take.
use crate::call::Call;
use crate::median::median;
use std::time::{Duration, Instant};

/// Calls that take longer are timed one by one: the clock does not show then, and a pause of the process spoils one
/// of them only. Shorter ones are timed together.
const LONG: f64 = 20_000.0;

/// Nanoseconds of single calls, by the call's place.
pub struct Times {
    list: [Vec<f64>; Call::ALL.len()],
    /// What it takes to read the clock, which is in every timed part.
    clock: Duration,
}

impl Times {
    pub fn new() -> Self {
        Self { list: Default::default(), clock: clock() }
    }

    /// Makes so many calls, and notes what one takes.
    pub fn note(&mut self, call: Call, count: usize, mut each: impl FnMut(usize)) {
        let times = &mut self.list[call.place()];
        let alone = times.last().is_some_and(|took| *took > LONG);
        let part = if alone { 1 } else { count };
        for first in (0..count).step_by(part) {
            let start = Instant::now();
            (first..first + part).for_each(&mut each);
            let took = start.elapsed().saturating_sub(self.clock);
            times.push(took.as_nanos() as f64 / part as f64);
        }
    }

    pub fn forget(&mut self) {
        self.list = Default::default();
    }

    pub fn median(&mut self, call: Call) -> f64 {
        median(&mut self.list[call.place()])
    }
}

/// What it takes to read the clock.
pub fn clock() -> Duration {
    let mut readings: Vec<f64> = (0..10_000).map(|_| Instant::now().elapsed().as_nanos() as f64).collect();
    Duration::from_nanos(median(&mut readings) as u64)
}
