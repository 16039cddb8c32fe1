//! The three ways, timed in turns.
use crate::median::median;
use lekchnam_peer_work::Way;
use std::hint::black_box;
use std::time::{Duration, Instant};

/// Turns that are not counted, and the least that are.
const WARM_UP: usize = 4;
const LEAST: usize = 101;
/// Counts of short tables are timed together, for at least so long: the clock does not show then.
const PART: Duration = Duration::from_micros(50);

/// Nanoseconds of one count by each way. Who is first changes with each turn.
pub fn timed(budget: Duration, count: impl Fn(Way) -> usize) -> [f64; 3] {
    let part = Way::ALL.map(|way| so_many(|| count(way)));
    let mut times: [Vec<f64>; 3] = Default::default();
    let start = Instant::now();
    for turn in 0.. {
        for place in 0..Way::ALL.len() {
            let place = (turn + place) % Way::ALL.len();
            let took = together(part[place], || count(Way::ALL[place]));
            if turn >= WARM_UP {
                times[place].push(took.as_nanos() as f64 / part[place] as f64);
            }
        }
        if turn >= WARM_UP + LEAST && start.elapsed() > budget {
            break;
        }
    }
    times.each_mut().map(|list| median(list))
}

/// How many fill a part.
fn so_many(count: impl Fn() -> usize) -> u32 {
    let mut many = 1;
    while together(many, &count) < PART {
        many *= 2;
    }
    many
}

fn together(many: u32, count: impl Fn() -> usize) -> Duration {
    let start = Instant::now();
    (0..many).for_each(|_| {
        black_box(count());
    });
    start.elapsed()
}
