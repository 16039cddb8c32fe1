//! A whole trace by its seed: each call as it is made, on the Rust.
use super::Generator;
use crate::run::Rust;
use lekchnam_traces::file::Places;
use lekchnam_traces::replay::Machine;
use lekchnam_traces::{Call, Class, Event, State};
use std::vec::IntoIter;

/// The calls of one seed, so many of them.
pub struct Run {
    pub places: Places,
    generator: Generator,
    opening: IntoIter<Call>,
    rust: Rust,
    state: Option<State>,
    left: usize,
}

impl Run {
    pub fn new(seed: u64, calls: usize) -> Self {
        let mut generator = Generator::new(seed);
        let opening = generator.opening().into_iter();
        Self { places: generator.places(), generator, opening, rust: Rust::default(), state: None, left: calls }
    }

    /// The Rust, as the last call left it.
    pub fn rust(&self) -> &Rust {
        &self.rust
    }

    fn next_call(&mut self) -> (Class, Call) {
        match self.opening.next() {
            Some(call) => ('d', call),
            None => self.generator.next(self.state.as_ref().expect("the opening ends in a taken new")),
        }
    }
}

impl Iterator for Run {
    type Item = Event;

    fn next(&mut self) -> Option<Event> {
        self.left = self.left.checked_sub(1)?;
        let (class, call) = self.next_call();
        let outcome = self.rust.run(class, &call);
        if let Ok(routes) = &outcome {
            self.generator.saw(routes);
        }
        let (answer, after) = (self.rust.answer(&outcome), self.rust.state());
        let before = std::mem::replace(&mut self.state, after.clone());
        Some(Event { class, call, before, answer, after })
    }
}
