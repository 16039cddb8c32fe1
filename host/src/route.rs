//! The routes that a call hands out, read from its output words.
use crate::ffi::bytes_of;
use crate::limits::{words_of, ADDRESS_WORDS, HEAD_WORDS, MAXIMUM_PEER};
use crate::packet::HnsrPacket;
use crate::peer::HnsrPeerId;
use std::fmt::{self, Debug, Display, Formatter};
use std::iter::FusedIterator;

// OUT.2 to OUT.5: a kind word with the name's length; generation and sequence, high word first; the
// name; a kind word with the opcode and the body's length; the context; and the body behind these.
const GENERATION: usize = 1;
const SEQUENCE: usize = GENERATION + 2;
const NAME: usize = SEQUENCE + 2;
const PACKET: usize = ADDRESS_WORDS;
const CONTEXT: usize = PACKET + 1;

/// The number of a route, by which the host acknowledges it. Numbers are ordered as their routes were written, and
/// shown with a dot between generation and sequence.
///
/// ```
/// use lekchnam_host::HnsrActionId;
///
/// let number = |generation, sequence| HnsrActionId { generation, sequence };
/// assert!(number(1, 2) < number(1, 10) && number(1, 10) < number(2, 1));
/// assert_eq!(number(1, 10).to_string(), "1.10");
/// ```
#[derive(Clone, Copy, Debug, Eq, Hash, Ord, PartialEq, PartialOrd)]
pub struct HnsrActionId {
    /// The relay's generation when it was written.
    pub generation: u64,
    /// Its number in that generation, from 1 on.
    pub sequence: u64,
}

impl Display for HnsrActionId {
    fn fmt(&self, f: &mut Formatter<'_>) -> fmt::Result {
        f.pad(&format!("{}.{}", self.generation, self.sequence))
    }
}

/// A packet and the peer that it goes to.
#[derive(Clone, Copy, Debug, Eq, PartialEq)]
pub struct HnsrRoute<'a> {
    /// The peer.
    pub destination: HnsrPeerId,
    /// The packet.
    pub packet: HnsrPacket<'a>,
}

/// A route that counts as unacknowledged until
/// [`acknowledge`](crate::OpaqueRelayRuntime::acknowledge) is called with its number.
#[derive(Clone, Copy, Debug, Eq, PartialEq)]
pub struct QueuedHnsrRoute<'a> {
    /// Its number.
    pub action_id: HnsrActionId,
    /// What to send, and where.
    pub route: HnsrRoute<'a>,
}

/// The routes of a call, in the order in which they are to be sent. Nothing is copied: bodies
/// are parts of the output words. [`to_vec`](Self::to_vec) copies them.
///
/// Each route is to be sent, and acknowledged whether it could be sent or not, also one to a peer that is gone. Until
/// then it has a place among the unacknowledged ones, and no place comes back by itself. So the compiler warns where
/// routes are dropped:
///
/// ```compile_fail
/// #![deny(unused_must_use)]
/// use lekchnam_host::{HnsrPeerId, HnsrRuntimeError, OpaqueRelayRuntime};
///
/// fn gone(relay: &mut OpaqueRelayRuntime, peer: &HnsrPeerId) -> Result<(), HnsrRuntimeError> {
///     relay.disconnect(peer)?;
///     Ok(())
/// }
/// ```
///
/// The routes of a connection that ended are told apart by their destination. What went to it is not delivered.
///
/// ```
/// #![deny(unused_must_use)]
/// use lekchnam_host::{HnsrPeerId, HnsrRuntimeError, OpaqueRelayRuntime, QueuedHnsrRouteBuf};
///
/// /// The routes that are to be sent.
/// fn gone(
///     relay: &mut OpaqueRelayRuntime,
///     peer: &HnsrPeerId,
/// ) -> Result<Vec<QueuedHnsrRouteBuf>, HnsrRuntimeError> {
///     let routes = relay.disconnect(peer)?.to_vec();
///     let (lost, live): (Vec<_>, Vec<_>) = routes.into_iter().partition(|queued| queued.route.destination == *peer);
///     for queued in lost {
///         // a CLOSE that was not delivered has no routes
///         let _ = relay.acknowledge(queued.action_id, false)?;
///     }
///     Ok(live)
/// }
/// ```
#[must_use = "each route is to be sent and acknowledged, or its place never comes back"]
#[derive(Clone, Copy, Default, Eq, PartialEq)]
pub struct Routes<'a>(&'a [u32]);

impl<'a> Routes<'a> {
    /// The routes that stand in these words. Words that are no route end them.
    pub fn new(words: &'a [u32]) -> Self {
        Self(words)
    }

    /// The words.
    pub fn words(&self) -> &'a [u32] {
        self.0
    }

    /// Each in turn.
    pub fn iter(&self) -> RouteIter<'a> {
        RouteIter(self.0)
    }

    /// How many.
    pub fn len(&self) -> usize {
        self.iter().count()
    }

    /// Whether there is none.
    pub fn is_empty(&self) -> bool {
        self.iter().next().is_none()
    }
}

impl Debug for Routes<'_> {
    fn fmt(&self, f: &mut Formatter<'_>) -> fmt::Result {
        f.debug_list().entries(self).finish()
    }
}

impl<'a> IntoIterator for Routes<'a> {
    type Item = QueuedHnsrRoute<'a>;
    type IntoIter = RouteIter<'a>;

    fn into_iter(self) -> RouteIter<'a> {
        self.iter()
    }
}

impl<'a> IntoIterator for &Routes<'a> {
    type Item = QueuedHnsrRoute<'a>;
    type IntoIter = RouteIter<'a>;

    fn into_iter(self) -> RouteIter<'a> {
        self.iter()
    }
}

/// The routes of a call, one by one.
#[must_use = "each route is to be sent and acknowledged, or its place never comes back"]
#[derive(Clone, Debug)]
pub struct RouteIter<'a>(&'a [u32]);

impl<'a> Iterator for RouteIter<'a> {
    type Item = QueuedHnsrRoute<'a>;

    fn next(&mut self) -> Option<QueuedHnsrRoute<'a>> {
        let (route, rest) = first_route(self.0)?;
        self.0 = rest;
        Some(route)
    }
}

impl FusedIterator for RouteIter<'_> {}

/// The route in front, and the words behind it.
fn first_route(words: &[u32]) -> Option<(QueuedHnsrRoute<'_>, &[u32])> {
    let (head, rest) = words.split_first_chunk::<HEAD_WORDS>()?;
    if kind(head[0]) != 1 || kind(head[PACKET]) != 2 {
        return None;
    }
    let length = (head[PACKET] & 0xffff) as usize;
    let (body, rest) = rest.split_at_checked(words_of(length))?;
    let context = &bytes_of(&head[CONTEXT..])[..8];
    let packet = HnsrPacket {
        opcode: ((head[PACKET] >> 16) as u8).into(),
        context_id: context.try_into().expect("eight bytes"),
        body: &bytes_of(body)[..length],
    };
    let action_id = HnsrActionId { generation: number(head, GENERATION), sequence: number(head, SEQUENCE) };
    Some((QueuedHnsrRoute { action_id, route: HnsrRoute { destination: name(head), packet } }, rest))
}

/// The kind: the four highest bits.
fn kind(word: u32) -> u32 {
    word >> 28
}

fn number(head: &[u32; HEAD_WORDS], at: usize) -> u64 {
    u64::from(head[at]) << 32 | u64::from(head[at + 1])
}

fn name(head: &[u32; HEAD_WORDS]) -> HnsrPeerId {
    let length = (head[0] & 0xff) as usize;
    HnsrPeerId::padded(&bytes_of(&head[NAME..PACKET])[..length.min(MAXIMUM_PEER)])
}
