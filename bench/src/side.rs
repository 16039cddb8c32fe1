//! The two sides, behind one driver: the same messages go in, and the same routes come out.
mod library;
mod rust;

pub use library::Library;
pub use rust::Rust;

use lekchnam_host::HnsrOpcode;
use lekchnam_traces::{Config, Grant};
use std::fmt::{Debug, Display};
use std::hint::black_box;

/// The clock of every call. It stands still, so that no OPEN of the load runs out.
pub const NOW: u64 = 1_000_000;

/// What a relay is made with.
const SESSION: [u8; 16] = [1; 16];
const GENERATION: u64 = 1;

/// A peer's name.
pub type Name = [u8; 16];

/// What `handle` is given.
pub struct Message {
    pub source: Name,
    pub opcode: HnsrOpcode,
    pub context: [u8; 8],
    pub body: Vec<u8>,
    /// Of an OPEN.
    pub grant: Option<Grant>,
}

#[derive(Clone, Copy, Debug, Eq, PartialEq)]
pub struct ActionId {
    pub generation: u64,
    pub sequence: u64,
}

/// A route as a host reads it.
#[derive(Debug, Eq, PartialEq)]
pub struct Route<'a> {
    pub id: ActionId,
    pub destination: &'a [u8],
    pub opcode: u8,
    pub context: [u8; 8],
    pub body: &'a [u8],
}

/// What a host does with the routes of a call: it reads each, and keeps its number.
#[derive(Default)]
pub struct Seen {
    pub ids: Vec<ActionId>,
    /// Every answer as text, where the sides are compared.
    pub log: Option<Vec<String>>,
}

impl Seen {
    pub fn route(&mut self, route: Route<'_>) {
        let route = black_box(route);
        self.ids.push(route.id);
        self.note(&route);
    }

    pub fn refusal(&mut self, words: impl Display) {
        let words = black_box(words);
        if let Some(log) = &mut self.log {
            log.push(words.to_string());
        }
    }

    pub fn note(&mut self, answer: &impl Debug) {
        if let Some(log) = &mut self.log {
            log.push(format!("{answer:?}"));
        }
    }
}

/// A relay under test. Every call must be taken, but `refused` must not: else the run ends.
pub trait Side {
    /// A message as this side takes it, made before the clock runs.
    type Packet;
    type Peer;

    fn new(config: Config) -> Self;
    /// `new` alone, over tables that are there; none where a side has no tables.
    fn renew(config: Config) -> Option<impl FnMut()>;
    fn packet(message: &Message) -> Self::Packet;
    fn peer(name: &Name) -> Self::Peer;
    fn handle(&mut self, packet: &Self::Packet, seen: &mut Seen);
    fn refused(&mut self, packet: &Self::Packet, seen: &mut Seen);
    fn acknowledge(&mut self, id: ActionId, seen: &mut Seen);
    fn disconnect(&mut self, peer: &Self::Peer, seen: &mut Seen);
    fn expire(&mut self, now: u64, seen: &mut Seen);
    fn switch_off(&mut self, seen: &mut Seen);
    fn status(&self, seen: &mut Seen);
}
