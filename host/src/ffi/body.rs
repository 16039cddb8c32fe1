//! The readers and writers of bodies. Each looks first whether the archive is the one that is declared here.
use super::{interface, Cause};
use crate::body;
use crate::lent::ReservationId;

#[repr(C)]
#[derive(Clone, Copy)]
pub struct OpenBody {
    pub ticket_id: [u8; 32],
    pub reservation_id: ReservationId,
    pub endpoint_key: [u8; 33],
    pub profile: u16,
    pub requester_nonce: [u8; 16],
    pub initial_window: u32,
}

#[repr(C)]
#[derive(Clone, Copy)]
pub struct IncomingBody {
    pub ticket_id: [u8; 32],
    pub open_request_id: u64,
    pub profile: u16,
    pub requester_nonce: [u8; 16],
    pub initial_window: u32,
}

#[repr(C)]
#[derive(Clone, Copy)]
pub struct AcceptBody {
    pub accepted_window: u32,
    pub endpoint_nonce: [u8; 16],
}

#[repr(C)]
#[derive(Clone, Copy)]
pub struct OpenedBody {
    pub circuit_id: u64,
    pub accepted_window: u32,
    pub endpoint_nonce: [u8; 16],
}

#[repr(C)]
#[derive(Clone, Copy)]
pub struct WindowBody {
    pub credit_delta: u32,
}

#[repr(C)]
#[derive(Clone, Copy)]
pub struct ReasonDetail {
    pub reason: u16,
    pub detail_length: usize,
}

/// `OpenAnswer`, `IncomingAnswer`, `AcceptAnswer`, `OpenedAnswer`, `WindowAnswer` and `DetailAnswer` of the archive.
#[repr(C)]
#[derive(Clone, Copy)]
pub struct Answer<Body> {
    pub cause: Cause,
    pub body: Body,
}

/// `OpenBytes`, `IncomingBytes`, `AcceptBytes`, `OpenedBytes` and `WindowBytes` of the archive: zeros where the cause
/// is a refusal.
#[repr(C)]
#[derive(Clone, Copy)]
pub struct Written<const SIZE: usize> {
    pub cause: Cause,
    pub bytes: [u8; SIZE],
}

/// The first `length` bytes are the body; none are where the cause is a refusal.
#[repr(C)]
#[derive(Clone, Copy)]
pub struct DetailBytes {
    pub cause: Cause,
    pub length: usize,
    pub bytes: [u8; body::ReasonDetail::MAX_SIZE],
}

/// Declares functions of the archive that take a slice of bytes and nothing else, and gives each a safe name.
macro_rules! readers {
    ($($name:ident by $function:ident -> $out:ty;)+) => {
        extern "C" {
            $(fn $function(input: *const u8, length: usize) -> $out;)+
        }

        $(pub fn $name(input: &[u8]) -> $out {
            interface::checked();
            // SAFETY: pointer and length are of one slice, and the function only reads it, during the call.
            unsafe { $function(input.as_ptr(), input.len()) }
        })+
    };
}

readers! {
    is_utf8 by hnsr_body_is_utf8 -> bool;
    decode_incoming by hnsr_body_decode_incoming -> Answer<IncomingBody>;
    decode_accept by hnsr_body_decode_accept -> Answer<AcceptBody>;
    decode_opened by hnsr_body_decode_opened -> Answer<OpenedBody>;
    decode_data by hnsr_body_decode_data -> Cause;
    decode_window by hnsr_body_decode_window -> Answer<WindowBody>;
    decode_close by hnsr_body_decode_close -> Answer<ReasonDetail>;
    decode_error by hnsr_body_decode_error -> Answer<ReasonDetail>;
}

/// Declares functions of the archive that take a body and nothing else, and gives each a safe name.
macro_rules! writers {
    ($($name:ident by $function:ident($body:ident);)+) => {
        extern "C" {
            $(fn $function(body: $body) -> Written<{ body::$body::SIZE }>;)+
        }

        $(pub fn $name(body: $body) -> Written<{ body::$body::SIZE }> {
            interface::checked();
            // SAFETY: numbers and bytes go in and come out, and every one is allowed.
            unsafe { $function(body) }
        })+
    };
}

writers! {
    encode_incoming by hnsr_body_encode_incoming(IncomingBody);
    encode_accept by hnsr_body_encode_accept(AcceptBody);
    encode_opened by hnsr_body_encode_opened(OpenedBody);
    encode_window by hnsr_body_encode_window(WindowBody);
}

/// The same of functions that take a reason and the bytes of a detail.
macro_rules! detail_writers {
    ($($name:ident by $function:ident;)+) => {
        extern "C" {
            $(fn $function(reason: u16, detail: *const u8, length: usize) -> DetailBytes;)+
        }

        $(pub fn $name(reason: u16, detail: &[u8]) -> DetailBytes {
            interface::checked();
            // SAFETY: pointer and length are of one slice, and the function only reads it, during the call.
            unsafe { $function(reason, detail.as_ptr(), detail.len()) }
        })+
    };
}

detail_writers! {
    encode_close by hnsr_body_encode_close;
    encode_error by hnsr_body_encode_error;
}

extern "C" {
    fn hnsr_body_decode_open(input: *const u8, length: usize, key_valid: bool) -> Answer<OpenBody>;
    fn hnsr_body_encode_open(body: OpenBody, key_valid: bool) -> Written<{ body::OpenBody::SIZE }>;
    fn hnsr_body_validate_packet(opcode: u8, context_id: u64, body_length: usize) -> Cause;
}

pub fn decode_open(input: &[u8], key_valid: bool) -> Answer<OpenBody> {
    interface::checked();
    // SAFETY: pointer and length are of one slice, and the function only reads it, during the call.
    unsafe { hnsr_body_decode_open(input.as_ptr(), input.len(), key_valid) }
}

pub fn encode_open(body: OpenBody, key_valid: bool) -> Written<{ body::OpenBody::SIZE }> {
    interface::checked();
    // SAFETY: numbers and bytes go in and come out, and every one is allowed.
    unsafe { hnsr_body_encode_open(body, key_valid) }
}

pub fn validate_packet(opcode: u8, context_id: u64, body_length: usize) -> Cause {
    interface::checked();
    // SAFETY: three numbers go in, three come out, and every number is allowed.
    unsafe { hnsr_body_validate_packet(opcode, context_id, body_length) }
}

#[cfg(test)]
mod tests {
    use super::*;

    /// A `str` is UTF-8 always, so only here can a writer be handed a detail that is not.
    #[test]
    fn a_detail_that_is_not_utf8_is_refused_as_by_the_reader() {
        let read = decode_close(&[7, 0, 2, 0xc0, 0x80]).cause;
        for written in [encode_close(7, &[0xc0, 0x80]), encode_error(7, &[0xc0, 0x80])] {
            let cause = written.cause;
            assert_eq!((cause.kind, cause.first, cause.second), (read.kind, read.first, read.second));
            assert_eq!((cause.kind, cause.first), (3, 9));
            assert_eq!((written.length, written.bytes), (0, [0; body::ReasonDetail::MAX_SIZE]));
        }
    }

    #[test]
    fn a_refused_body_is_written_as_zeros() {
        let written = encode_window(WindowBody { credit_delta: 0 });
        assert_eq!((written.cause.kind, written.cause.first, written.bytes), (3, 7, [0; 4]));
    }
}
