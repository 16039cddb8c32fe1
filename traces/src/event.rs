//! A call with all that is seen of it.
use crate::state::{Action, Circuit, Pending};
use crate::{Answer, Call, Class, State};
use lekchnam_host::HnsrRuntimeError;

/// A call, what it answered, and the private state before and after it.
#[derive(Clone, Debug, Eq, PartialEq)]
pub struct Event {
    pub class: Class,
    pub call: Call,
    pub before: Option<State>,
    pub answer: Answer,
    pub after: Option<State>,
}

/// What a call changed in the private state.
pub struct Change<'event> {
    pub before: &'event State,
    pub after: &'event State,
}

impl Event {
    pub fn taken(&self) -> bool {
        self.answer.number == 0
    }

    pub fn refused_with(&self, refusal: HnsrRuntimeError) -> bool {
        u32::from(self.answer.number) == refusal.number()
    }

    /// None before a `new` is taken, and of a `new`.
    pub fn change(&self) -> Option<Change<'_>> {
        match (&self.call, &self.before, &self.after) {
            (Call::New { .. }, ..) => None,
            (_, Some(before), Some(after)) => Some(Change { before, after }),
            _ => None,
        }
    }
}

impl<'event> Change<'event> {
    /// The pending records that ended, by an ACCEPT too.
    pub fn ended_pending(&self) -> Vec<&'event Pending> {
        self.before.pending.iter().filter(|p| !self.after.pending.iter().any(|q| q.id == p.id)).collect()
    }

    /// The circuits that ended.
    pub fn ended_circuits(&self) -> Vec<&'event Circuit> {
        self.before.circuits.iter().filter(|c| !self.after.circuits.iter().any(|d| d.id == c.id)).collect()
    }

    /// The pending record that was made.
    pub fn made_pending(&self) -> Option<&'event Pending> {
        self.after.pending.iter().find(|p| !self.before.pending.iter().any(|q| q.id == p.id))
    }

    /// The actions of the routes that were written.
    pub fn written(&self) -> Vec<&'event Action> {
        let old =
            |a: &Action| self.before.actions.iter().any(|b| (a.generation, a.sequence) == (b.generation, b.sequence));
        self.after.actions.iter().filter(|action| !old(action)).collect()
    }

    /// Whether anything but the clock is another.
    pub fn beside_the_clock(&self) -> bool {
        *self.after != State { high_water: self.after.high_water, ..self.before.clone() }
    }
}
