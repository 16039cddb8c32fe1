//! The calls over tables and output words that the host keeps itself and lends for each call.
//!
//! Every call takes any records, any runtime, any words and any bytes, and answers with how many output words it wrote
//! or with a refusal. [`Routes`](crate::Routes) reads the words. A refusal leaves the output always, and the tables and
//! the runtime but where the rules (docs/RULES.md) say that something stays.
//!
//! With the tables go four numbers, [`Places`]: of each table how many places are in use. A call takes them from the
//! tables and puts them back there, so a host has only to store them with the records.
//!
//! ```
//! use lekchnam_host::lent::{self, Tables};
//! use lekchnam_host::{HnsrRuntimeError, OpaqueRelayConfig};
//!
//! let config = OpaqueRelayConfig { maximum_pending: 2, maximum_circuits: 2, ..OpaqueRelayConfig::default() };
//! let mut tables = Tables::new(&config, 1)?;
//! let mut out = vec![0; tables.most_words()];
//! let mut runtime = lent::new(&mut tables, [1; 16], 1, config, 100)?;
//! assert_eq!(lent::expire(&mut tables, &mut out, &mut runtime, 101), Ok(0));
//! assert_eq!(lent::expire(&mut tables, &mut out, &mut runtime, 100), Err(HnsrRuntimeError::ClockRollback));
//! # Ok::<(), HnsrRuntimeError>(())
//! ```
mod places;
mod records;
mod tables;

use crate::config::OpaqueRelayConfig;
use crate::error::{answered, HnsrRuntimeError};
use crate::ffi::relay as ffi;
use crate::ffi::Cause;
use crate::route::HnsrActionId;

pub use crate::limits::{CLOSING_WORDS, HANDLE_WORDS};
pub use crate::status::StatusTold;
pub use crate::why::why;
pub use places::Places;
pub use records::{
    InflightAction, RelayCircuit, RelayPacket, RelayPending, RelayTicket, ReservationId, ReservationUsage, Runtime,
    RuntimeCounters, StoredPeer,
};
pub(crate) use tables::unused;
pub use tables::{InUse, Tables};

/// A packet, and what the host hands over with it.
#[derive(Clone, Copy, Debug, Default, Eq, PartialEq)]
pub struct Packet<'a> {
    /// All that has a fixed length.
    pub head: RelayPacket,
    /// The sender's name.
    pub source: &'a [u8],
    /// The body.
    pub body: &'a [u8],
    /// Of an OPEN that is admitted: the endpoint's name.
    pub endpoint: &'a [u8],
    /// Of an OPEN: random bytes, eight for each draw. [`RANDOM_BYTES`](crate::RANDOM_BYTES) never run out.
    pub random: &'a [u8],
}

/// Makes a relay: sets the numbers of places in use to 0, so that every place is unused, and gives its runtime. No
/// place is read or written, whatever stands there. A refusal leaves the numbers.
pub fn new(
    tables: &mut Tables,
    session: [u8; 16],
    generation: u64,
    config: OpaqueRelayConfig,
    now: u64,
) -> Result<Runtime, HnsrRuntimeError> {
    let reply = ffi::new(tables, session, generation, config, now);
    answered(reply.answer, reply.cause)?;
    tables.places = reply.places;
    Ok(reply.runtime)
}

/// Takes a packet.
pub fn handle(
    tables: &mut Tables,
    out: &mut [u32],
    runtime: &mut Runtime,
    packet: &Packet<'_>,
) -> Result<usize, HnsrRuntimeError> {
    let reply = ffi::handle(tables, out, *runtime, packet);
    kept(tables, runtime, reply)
}

/// Takes the word that a route was delivered, or was not.
pub fn acknowledge(
    tables: &mut Tables,
    out: &mut [u32],
    runtime: &mut Runtime,
    action_id: HnsrActionId,
    delivered: bool,
) -> Result<usize, HnsrRuntimeError> {
    let reply = ffi::acknowledge(tables, out, *runtime, action_id, delivered);
    kept(tables, runtime, reply)
}

/// Ends all that a peer is a side of.
pub fn disconnect(
    tables: &mut Tables,
    out: &mut [u32],
    runtime: &mut Runtime,
    peer: &[u8],
) -> Result<usize, HnsrRuntimeError> {
    let reply = ffi::disconnect(tables, out, *runtime, peer);
    kept(tables, runtime, reply)
}

/// Ends all that goes by a reservation.
pub fn revoke_reservation(
    tables: &mut Tables,
    out: &mut [u32],
    runtime: &mut Runtime,
    reservation_id: ReservationId,
) -> Result<usize, HnsrRuntimeError> {
    let reply = ffi::revoke_reservation(tables, out, *runtime, reservation_id);
    kept(tables, runtime, reply)
}

/// Moves the clock and ends all whose time is over.
pub fn expire(
    tables: &mut Tables,
    out: &mut [u32],
    runtime: &mut Runtime,
    now: u64,
) -> Result<usize, HnsrRuntimeError> {
    let reply = ffi::expire(tables, out, *runtime, now);
    kept(tables, runtime, reply)
}

/// Switches the relay on or off.
pub fn replace_enabled(
    tables: &mut Tables,
    out: &mut [u32],
    runtime: &mut Runtime,
    expected_generation: u64,
    enabled: bool,
) -> Result<usize, HnsrRuntimeError> {
    let reply = ffi::replace_enabled(tables, out, *runtime, expected_generation, enabled);
    kept(tables, runtime, reply)
}

/// Moves the clock.
pub fn observe_time(runtime: &mut Runtime, now: u64) -> Result<(), HnsrRuntimeError> {
    // It is lent no table, and the numbers stay.
    let reply = ffi::observe_time(*runtime, Places::NONE, now);
    *runtime = reply.runtime;
    answered(reply.answer, reply.cause)
}

/// What the relay tells of itself, and how many more routes fit toward a peer and about a circuit, known to the relay
/// or not. That is the least of three differences, each of which stops at 0:
///
/// - [`maximum_inflight_actions`](OpaqueRelayConfig::maximum_inflight_actions) less all unacknowledged routes;
/// - [`maximum_inflight_actions_per_circuit`](OpaqueRelayConfig::maximum_inflight_actions_per_circuit) less those about
///   the circuit;
/// - [`maximum_inflight_actions_per_peer`](OpaqueRelayConfig::maximum_inflight_actions_per_peer) less those toward the
///   peer.
///
/// Refused with 22 where a table is shorter than its limit, and then with 4 where the name has no bytes or more than
/// [`MAXIMUM_PEER`](crate::MAXIMUM_PEER). Any circuit's id is taken, 0 too, and also where the relay is switched off.
/// Names are compared as [`StoredPeer`]s are.
///
/// ```
/// use lekchnam_host::lent::{self, Tables};
/// use lekchnam_host::{HnsrRuntimeError, OpaqueRelayConfig};
///
/// let config = OpaqueRelayConfig {
///     maximum_inflight_actions: 8,
///     maximum_inflight_actions_per_circuit: 4,
///     maximum_inflight_actions_per_peer: 6,
///     ..OpaqueRelayConfig::default()
/// };
/// let mut tables = Tables::new(&config, 1)?;
/// let runtime = lent::new(&mut tables, [1; 16], 1, config, 100)?;
/// assert_eq!(lent::status(&tables, &runtime, b"merchant", 7)?.action_capacity, 4);
/// assert_eq!(lent::status(&tables, &runtime, b"", 7), Err(HnsrRuntimeError::InvalidPeer));
/// # Ok::<(), HnsrRuntimeError>(())
/// ```
pub fn status(
    tables: &Tables,
    runtime: &Runtime,
    peer: &[u8],
    circuit_id: u64,
) -> Result<StatusTold, HnsrRuntimeError> {
    let reply = ffi::status(tables, *runtime, peer, circuit_id);
    answered(reply.answer, Cause::NONE)
        .map(|()| StatusTold { status: reply.status, action_capacity: reply.action_capacity })
}

/// When [`expire`] has work: the first of all deadlines of pending records, ends of circuits and ends of the
/// reservations in the ledger. `None` where there is no such record.
///
/// Tables may be found in which a pending record's ticket ends before its deadline. `expire` ends such a record by its
/// ticket, and this tells its deadline (DUE.6).
pub fn next_due(tables: &Tables, runtime: &Runtime) -> Result<Option<u64>, HnsrRuntimeError> {
    let reply = ffi::next_due(tables, *runtime);
    answered(reply.answer, Cause::NONE).map(|()| reply.some.then_some(reply.due))
}

/// The runtime and the numbers as the call leaves them, refused or not, and the answer.
fn kept(tables: &mut Tables, runtime: &mut Runtime, reply: ffi::RelayReply) -> Result<usize, HnsrRuntimeError> {
    *runtime = reply.runtime;
    tables.places = reply.places;
    answered(reply.answer, reply.cause).map(|()| reply.words)
}
