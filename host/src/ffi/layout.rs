//! Every struct that passes the C interface: its size, its alignment and where each field
//! starts, as C has them on x86-64.
use super::body::{
    AcceptBody, Answer, DetailBytes, IncomingBody, OpenBody, OpenedBody, ReasonDetail, WindowBody, Written,
};
use super::interface::Layout;
use super::relay::{DueReply, RelayReply, StatusReply};
use super::Cause;
use crate::lent::{
    InflightAction, Places, RelayCircuit, RelayPacket, RelayPending, RelayTicket, ReservationId, ReservationUsage,
    Runtime, RuntimeCounters, StoredPeer,
};
use crate::{body, HnsrRuntimeStatus, OpaqueRelayConfig};
use std::mem::{align_of, offset_of, size_of};

macro_rules! layout {
    ($name:ty, size $size:literal, align $align:literal, $($field:ident at $offset:literal),+) => {
        assert_eq!(size_of::<$name>(), $size, "size of {}", stringify!($name));
        assert_eq!(align_of::<$name>(), $align, "alignment of {}", stringify!($name));
        $(assert_eq!(offset_of!($name, $field), $offset, "{} of {}", stringify!($field), stringify!($name));)+
    };
}

#[test]
fn bodies_are_laid_out_as_in_c() {
    layout!(Cause, size 24, align 8, kind at 0, first at 8, second at 16);
    layout!(ReservationId, size 16, align 8, high at 0, low at 8);
    layout!(OpenBody, size 104, align 8, ticket_id at 0, reservation_id at 32, endpoint_key at 48,
        profile at 82, requester_nonce at 84, initial_window at 100);
    layout!(IncomingBody, size 64, align 8, ticket_id at 0, open_request_id at 32, profile at 40,
        requester_nonce at 42, initial_window at 60);
    layout!(AcceptBody, size 20, align 4, accepted_window at 0, endpoint_nonce at 4);
    layout!(OpenedBody, size 32, align 8, circuit_id at 0, accepted_window at 8, endpoint_nonce at 12);
    layout!(WindowBody, size 4, align 4, credit_delta at 0);
    layout!(ReasonDetail, size 16, align 8, reason at 0, detail_length at 8);
}

#[test]
fn answers_are_laid_out_as_in_c() {
    layout!(Answer<OpenBody>, size 128, align 8, cause at 0, body at 24);
    layout!(Answer<IncomingBody>, size 88, align 8, cause at 0, body at 24);
    layout!(Answer<AcceptBody>, size 48, align 8, cause at 0, body at 24);
    layout!(Answer<OpenedBody>, size 56, align 8, cause at 0, body at 24);
    layout!(Answer<WindowBody>, size 32, align 8, cause at 0, body at 24);
    layout!(Answer<ReasonDetail>, size 40, align 8, cause at 0, body at 24);
}

#[test]
fn written_bodies_are_laid_out_as_in_c() {
    layout!(Written<{ body::OpenBody::SIZE }>, size 128, align 8, cause at 0, bytes at 24);
    layout!(Written<{ body::IncomingBody::SIZE }>, size 88, align 8, cause at 0, bytes at 24);
    layout!(Written<{ body::AcceptBody::SIZE }>, size 48, align 8, cause at 0, bytes at 24);
    layout!(Written<{ body::OpenedBody::SIZE }>, size 56, align 8, cause at 0, bytes at 24);
    layout!(Written<{ body::WindowBody::SIZE }>, size 32, align 8, cause at 0, bytes at 24);
    layout!(DetailBytes, size 168, align 8, cause at 0, length at 24, bytes at 32);
}

#[test]
fn records_are_laid_out_as_in_c() {
    layout!(StoredPeer, size 136, align 8, len at 0, bytes at 8);
    layout!(RelayTicket, size 48, align 8, reservation_id at 0, expires_at at 16, max_active_circuits at 24,
        max_bytes_per_circuit at 32, max_total_bytes at 40);
    layout!(RelayPending, size 360, align 8, used at 0, circuit_id at 8, requester at 16, endpoint at 152,
        requester_context at 288, ticket at 296, initial_window at 344, deadline at 352);
    layout!(RelayCircuit, size 360, align 8, used at 0, circuit_id at 8, requester at 16, endpoint at 152,
        reservation_id at 288, expires_at at 304, maximum_bytes at 312, maximum_total_bytes at 320,
        requester_credit at 328, endpoint_credit at 332, forwarded_bytes at 336, queued_to_requester at 344,
        queued_to_endpoint at 352);
    layout!(ReservationUsage, size 40, align 8, used at 0, reservation_id at 8, bytes at 24, expires_at at 32);
    layout!(InflightAction, size 184, align 8, used at 0, generation at 8, sequence at 16, circuit_id at 24,
        destination at 32, kind at 168, to_endpoint at 169, bytes at 176);
    layout!(RelayPacket, size 80, align 8, opcode at 0, context_id at 8, now at 16, key_valid at 24, admitted at 25,
        ticket at 32);
}

#[test]
fn a_runtime_is_laid_out_as_in_c() {
    layout!(OpaqueRelayConfig, size 72, align 8, maximum_pending at 0, maximum_circuits at 8,
        maximum_circuits_per_peer at 16, maximum_queue_bytes at 24, maximum_inflight_actions at 32,
        maximum_inflight_actions_per_circuit at 40, maximum_inflight_actions_per_peer at 48,
        maximum_bytes_per_circuit at 56, accept_timeout_seconds at 64);
    layout!(RuntimeCounters, size 40, align 8, admitted_opens at 0, opened_circuits at 8, bytes_sent at 16,
        bytes_received at 24, revoked_work at 32);
    layout!(Runtime, size 160, align 8, session at 0, generation at 16, enabled at 24, trusted_time_high_water at 32,
        config at 40, next_action_sequence at 112, counters at 120);
    layout!(Places, size 32, align 8, pending at 0, circuits at 8, ledger at 16, actions at 24);
    layout!(HnsrRuntimeStatus, size 96, align 8, generation at 0, enabled at 8, pending_circuits at 16,
        active_circuits at 24, queued_bytes at 32, queued_actions at 40, trusted_time_high_water at 48,
        admitted_opens at 56, opened_circuits at 64, bytes_sent at 72, bytes_received at 80, revoked_work at 88);
}

#[test]
fn replies_are_laid_out_as_in_c() {
    layout!(RelayReply, size 232, align 8, answer at 0, cause at 8, words at 32, runtime at 40, places at 200);
    layout!(StatusReply, size 112, align 8, answer at 0, status at 8, action_capacity at 104);
    layout!(DueReply, size 16, align 8, answer at 0, some at 4, due at 8);
}

#[test]
fn what_the_archive_tells_of_itself_is_laid_out_as_in_c() {
    layout!(Layout, size 1632, align 8, pending at 0, circuit at 360, usage at 720, action at 760, packet at 944,
        reply at 1024, status_reply at 1256, due_reply at 1368, open_body at 1384, incoming_body at 1488,
        accept_body at 1552, opened_body at 1576, window_body at 1608, reason_detail at 1616);
}
