//! What is measured in a process of its own, on one side: a new relay, and one that ends at once. So no earlier relay
//! has left memory behind, and what a relay takes can be told.
mod answer;

pub use answer::answer;

use crate::median::median;
use std::env;
use std::process::Command;

/// The first argument of such a process.
pub const ALONE: &str = "alone";

/// All in use ends by one call.
#[derive(Clone, Copy, Debug, Eq, PartialEq)]
pub enum End {
    Expire,
    Off,
}

impl End {
    pub const ALL: [Self; 2] = [Self::Expire, Self::Off];

    pub fn label(self) -> &'static str {
        match self {
            Self::Expire => "expire, all due",
            Self::Off => "replace_enabled(off)",
        }
    }
}

/// What a process is asked.
#[derive(Clone, Copy, Debug)]
enum Question {
    New,
    /// The size of the tables in actions, and the share that is in use.
    End(End, usize, f64),
}

/// What a process tells: numbers, and a text that must be the same on both sides.
type Told = (Vec<f64>, String);

/// A new relay of the default configuration: nanoseconds and kilobytes.
#[derive(Clone, Copy, Debug)]
pub struct Made {
    pub first: f64,
    pub again: f64,
    /// Over tables that are there; not a number where a side has none.
    pub call: f64,
    pub memory: f64,
}

/// A relay that ended: nanoseconds of the call, and the kilobytes that it took before.
#[derive(Clone, Copy, Debug)]
pub struct Ended {
    pub time: f64,
    pub memory: f64,
}

/// The median of so many new relays of each side: the library, the Rust.
pub fn made(processes: usize) -> [Made; 2] {
    let told: Vec<[Told; 2]> = (0..processes).map(|_| ask(Question::New)).collect();
    [0, 1].map(|side| {
        let [first, again, call, memory] = [0, 1, 2, 3].map(|number| middle(&told, side, number));
        Made { first, again, call, memory }
    })
}

/// The median of so many relays of each side that end.
pub fn ended(end: End, actions: usize, share: f64, count: usize) -> [Ended; 2] {
    let told: Vec<[Told; 2]> = (0..count).map(|_| ask(Question::End(end, actions, share))).collect();
    [0, 1].map(|side| {
        let [time, memory] = [0, 1].map(|number| middle(&told, side, number));
        Ended { time, memory }
    })
}

fn middle(told: &[[Told; 2]], side: usize, number: usize) -> f64 {
    median(&mut told.iter().map(|sides| sides[side].0[number]).collect::<Vec<_>>())
}

/// Asks both sides, and ends the run where they differ.
fn ask(question: Question) -> [Told; 2] {
    let told = ["library", "rust"].map(|side| {
        let program = env::current_exe().expect("this program");
        let output =
            Command::new(program).args([ALONE, side]).args(question.arguments()).output().expect("it runs again");
        assert!(output.status.success(), "{side}, {question:?}: {}", String::from_utf8_lossy(&output.stderr));
        let text = String::from_utf8(output.stdout).expect("what `answer` prints");
        let (numbers, told) = text.split_once('\n').expect("two lines");
        (numbers.split(' ').map(|number| number.parse().expect("a number")).collect(), told.to_owned())
    });
    assert_eq!(told[0].1, told[1].1, "the sides differ in {question:?}");
    told
}

impl Question {
    fn arguments(self) -> Vec<String> {
        match self {
            Self::New => Vec::new(),
            Self::End(end, actions, share) => vec![end.label().to_owned(), actions.to_string(), share.to_string()],
        }
    }

    fn parse(arguments: &[&str]) -> Self {
        match arguments {
            [] => Self::New,
            [label, actions, share] => {
                let end = End::ALL.into_iter().find(|end| end.label() == *label).expect("one of both");
                Self::End(end, actions.parse().expect("a number"), share.parse().expect("a share"))
            }
            _ => panic!("unknown: {arguments:?}"),
        }
    }
}
