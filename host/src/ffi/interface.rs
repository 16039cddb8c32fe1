//! What the archive tells of itself, held to what is declared here: once, before the first call that passes a struct.
//!
//! Found is another version of the interface, and a struct in which a field is elsewhere, of another width, or in
//! another's place. Not found is a field that was added where C leaves bytes unused and no other field moves.
mod sample;

use super::body::{AcceptBody, IncomingBody, OpenBody, OpenedBody, ReasonDetail, WindowBody};
use super::relay::{DueReply, RelayReply, StatusReply};
use super::Cause;
use crate::config::OpaqueRelayConfig;
use crate::lent::{
    InflightAction, Places, RelayCircuit, RelayPacket, RelayPending, RelayTicket, ReservationId, ReservationUsage,
    Runtime, RuntimeCounters, StoredPeer,
};
use crate::status::HnsrRuntimeStatus;
pub use sample::Layout;
use sample::SAMPLE;
use std::sync::OnceLock;

/// The C interface that is declared here.
const VERSION: u32 = 3;

/// The archive's `Layout`, by its bytes: of another archive they may be no `Layout`, and more than this one has.
#[repr(C, align(8))]
struct Told([u8; 2 * size_of::<Layout>()]);

extern "C" {
    fn lekchnam_version() -> u32;
    /// Returns a `Layout`: a struct of more than sixteen bytes, for which the C convention of x86-64 has the caller's
    /// room as a first parameter.
    fn lekchnam_layout(room: *mut Told);
}

/// Panics where the archive is not the one that this crate was written for.
pub fn checked() {
    static OTHER: OnceLock<Option<String>> = OnceLock::new();
    let other = OTHER.get_or_init(|| other_version(version()).or_else(|| other_field(&layout().0)));
    if let Some(other) = other {
        panic!("liblekchnam.a is of another version: {other}");
    }
}

fn version() -> u32 {
    // SAFETY: nothing goes in, a number comes out.
    unsafe { lekchnam_version() }
}

fn layout() -> Told {
    let mut told = Told([0; 2 * size_of::<Layout>()]);
    // SAFETY: the function writes a `Layout` into the room, which is as aligned as one and twice as large, and keeps
    // no pointer. Bytes are written over bytes.
    unsafe { lekchnam_layout(&mut told) };
    told
}

/// What is wrong with a version, if something is.
fn other_version(version: u32) -> Option<String> {
    (version != VERSION).then(|| format!("its interface has the number {version}, the one declared here {VERSION}"))
}

/// What is wrong with an archive's sample, if something is: the first field that has other bytes, or bytes behind the
/// last struct.
fn other_field(told: &[u8]) -> Option<String> {
    let start = (&raw const SAMPLE).addr();
    let mut other = None;
    SAMPLE.each("", &mut |name, bytes| {
        let at = bytes.as_ptr().addr() - start;
        if told[at..at + bytes.len()] != *bytes {
            other.get_or_insert(format!("{name} is laid out in another way"));
        }
    });
    let beyond = told[size_of::<Layout>()..].iter().any(|byte| *byte != 0);
    other.or_else(|| beyond.then(|| "its structs are larger".to_owned()))
}

/// What passes, field by field.
trait Fields {
    /// Shows the name and the bytes of each field that is no struct, in its place.
    fn each(&self, name: &'static str, see: &mut dyn FnMut(&'static str, &[u8]));
}

macro_rules! plain {
    ($($name:ty),+) => {
        $(impl Fields for $name {
            fn each(&self, name: &'static str, see: &mut dyn FnMut(&'static str, &[u8])) {
                let first = (&raw const *self).cast();
                // SAFETY: the same memory for as long; numbers and `bool`s have no byte that is not set.
                see(name, unsafe { std::slice::from_raw_parts(first, size_of::<$name>()) });
            }
        })+
    };
}

plain!(bool, u8, u16, u32, u64, usize);

impl<const LENGTH: usize> Fields for [u8; LENGTH] {
    fn each(&self, name: &'static str, see: &mut dyn FnMut(&'static str, &[u8])) {
        see(name, self);
    }
}

/// The fields of structs. One that is not named here does not compile.
macro_rules! fields {
    ($($record:ident: $($field:ident),+;)+) => {
        $(impl Fields for $record {
            fn each(&self, _: &'static str, see: &mut dyn FnMut(&'static str, &[u8])) {
                let Self { $($field),+ } = self;
                $($field.each(concat!(stringify!($record), ".", stringify!($field)), see);)+
            }
        })+
    };
}

fields! {
    Layout: pending, circuit, usage, action, packet, reply, status_reply, due_reply, open_body, incoming_body,
        accept_body, opened_body, window_body, reason_detail;
    RelayPending: used, circuit_id, requester, endpoint, requester_context, ticket, initial_window, deadline;
    RelayCircuit: used, circuit_id, requester, endpoint, reservation_id, expires_at, maximum_bytes,
        maximum_total_bytes, requester_credit, endpoint_credit, forwarded_bytes, queued_to_requester,
        queued_to_endpoint;
    ReservationUsage: used, reservation_id, bytes, expires_at;
    InflightAction: used, generation, sequence, circuit_id, destination, kind, to_endpoint, bytes;
    RelayPacket: opcode, context_id, now, key_valid, admitted, ticket;
    RelayReply: answer, cause, words, runtime, places;
    StatusReply: answer, status, action_capacity;
    DueReply: answer, some, due;
    StoredPeer: len, bytes;
    ReservationId: high, low;
    RelayTicket: reservation_id, expires_at, max_active_circuits, max_bytes_per_circuit, max_total_bytes;
    Cause: kind, first, second;
    Runtime: session, generation, enabled, trusted_time_high_water, config, next_action_sequence, counters;
    OpaqueRelayConfig: maximum_pending, maximum_circuits, maximum_circuits_per_peer, maximum_queue_bytes,
        maximum_inflight_actions, maximum_inflight_actions_per_circuit, maximum_inflight_actions_per_peer,
        maximum_bytes_per_circuit, accept_timeout_seconds;
    RuntimeCounters: admitted_opens, opened_circuits, bytes_sent, bytes_received, revoked_work;
    Places: pending, circuits, ledger, actions;
    HnsrRuntimeStatus: generation, enabled, pending_circuits, active_circuits, queued_bytes, queued_actions,
        trusted_time_high_water, admitted_opens, opened_circuits, bytes_sent, bytes_received, revoked_work;
    OpenBody: ticket_id, reservation_id, endpoint_key, profile, requester_nonce, initial_window;
    IncomingBody: ticket_id, open_request_id, profile, requester_nonce, initial_window;
    AcceptBody: accepted_window, endpoint_nonce;
    OpenedBody: circuit_id, accepted_window, endpoint_nonce;
    WindowBody: credit_delta;
    ReasonDetail: reason, detail_length;
}

#[cfg(test)]
mod tests {
    use super::*;
    use std::collections::BTreeSet;
    use std::mem::offset_of;

    #[test]
    fn the_archive_is_the_one_that_is_declared() {
        assert_eq!(other_version(version()), None);
        assert_eq!(other_field(&layout().0), None);
        checked();
    }

    #[test]
    fn another_version_is_named() {
        let said = other_version(VERSION + 1);
        assert_eq!(said.as_deref(), Some("its interface has the number 4, the one declared here 3"));
    }

    /// Every byte of every field counts, and it is the field that is named.
    #[test]
    fn a_byte_that_differs_is_found() {
        let told = layout().0;
        let start = (&raw const SAMPLE).addr();
        let mut fields = 0;
        SAMPLE.each("", &mut |name, bytes| {
            fields += 1;
            for place in 0..bytes.len() {
                let mut other = told;
                other[bytes.as_ptr().addr() - start + place] ^= 1;
                assert_eq!(other_field(&other), Some(format!("{name} is laid out in another way")));
            }
        });
        assert_eq!(fields, 121);
    }

    /// What a sample has in its first byte, but for the bit that fills a field of one byte, is the field's number.
    #[test]
    fn no_number_stands_twice() {
        let (mut numbers, mut marks) = (BTreeSet::new(), 0);
        SAMPLE.each("", &mut |name, bytes| match bytes {
            [0 | 1] => marks += 1,
            [first, ..] => assert!(numbers.insert(first & 0x7f), "{name}"),
            [] => panic!("{name} has no bytes"),
        });
        assert_eq!((numbers.len(), marks), (111, 10));
    }

    /// A field in its neighbour's place, one that is wider there than here, one that is narrower, and structs that end
    /// later.
    #[test]
    fn another_layout_is_found() {
        let requester_credit = offset_of!(Layout, circuit.requester_credit);
        let endpoint_credit = offset_of!(Layout, circuit.endpoint_credit);
        let count = offset_of!(Layout, packet.ticket.max_active_circuits);
        let window = offset_of!(Layout, pending.initial_window);
        let changes: [(&str, usize, &[u8]); 5] = [
            ("RelayCircuit.requester_credit", requester_credit, &SAMPLE.circuit.endpoint_credit.to_le_bytes()),
            ("RelayCircuit.endpoint_credit", endpoint_credit, &SAMPLE.circuit.requester_credit.to_le_bytes()),
            ("RelayTicket.max_active_circuits", count, &widened(SAMPLE.packet.ticket.max_active_circuits)),
            ("RelayPending.initial_window", window, &narrowed(SAMPLE.pending.initial_window)),
            ("", size_of::<Layout>(), &[0x80]),
        ];
        for (name, at, bytes) in changes {
            let mut told = layout().0;
            told[at..at + bytes.len()].copy_from_slice(bytes);
            let said = if name.is_empty() {
                "its structs are larger".to_owned()
            } else {
                format!("{name} is laid out in another way")
            };
            assert_eq!(other_field(&told), Some(said));
        }
    }

    /// The sample that a field of four bytes would have in place of one of two.
    fn widened(sample: u16) -> [u8; 4] {
        (0x8000_0000 | u32::from(sample & 0x7fff)).to_le_bytes()
    }

    /// The other way round; the two bytes behind it are unused.
    fn narrowed(sample: u32) -> [u8; 4] {
        (0x8000 | sample & 0x7fff).to_le_bytes()
    }
}
