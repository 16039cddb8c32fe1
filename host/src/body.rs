//! The bodies of the circuit messages: reading, checking and writing them. A writer refuses what its reader would.
//!
//! Names and field types are those of hns-hnsr-protocol. Two things are asked differently. Whether the endpoint's
//! key is a point of the curve is the caller's word, since no curve arithmetic stands behind this. And what has no
//! fixed length is lent, not copied.
//!
//! ```
//! use lekchnam_host::body::{Invalid, ProtocolError, WindowBody};
//!
//! assert_eq!(WindowBody::decode(&[1, 0, 0, 0]), Ok(WindowBody { credit_delta: 1 }));
//! assert_eq!(WindowBody { credit_delta: 1 }.encode(), Ok([1, 0, 0, 0]));
//! assert_eq!(WindowBody::decode(&[0; 4]), Err(ProtocolError::Invalid(Invalid::WindowCredit)));
//! assert_eq!(WindowBody { credit_delta: 0 }.encode(), Err(ProtocolError::Invalid(Invalid::WindowCredit)));
//! assert_eq!(
//!     WindowBody::decode(&[1]).unwrap_err().to_string(),
//!     "unexpected end of input at byte 0; needed 3 more byte(s)"
//! );
//! ```
use crate::error::checked;
use crate::ffi::body as ffi;
use crate::limits::MAX_DETAIL_SIZE;

pub use crate::error::{Invalid, ProtocolError};

/// Where the detail of a CLOSE or an ERROR starts: behind its reason and its length.
const DETAIL: usize = 3;

/// What was read, accepted or not.
#[derive(Clone, Copy, Debug, Eq, PartialEq)]
pub struct Read<Body> {
    /// Whether the body is accepted, or why not.
    pub result: Result<(), ProtocolError>,
    /// The fields as far as the input reaches; one that the input ends before is zero.
    pub body: Body,
}

impl<Body> Read<Body> {
    fn of<Raw>(answer: ffi::Answer<Raw>) -> Self
    where
        Body: From<Raw>,
    {
        Self { result: checked(answer.cause), body: answer.body.into() }
    }

    /// The body if it is accepted.
    pub fn accepted(self) -> Result<Body, ProtocolError> {
        self.result.map(|()| self.body)
    }
}

/// The bytes that a writer hands back, if it does.
fn written<const SIZE: usize>(written: ffi::Written<SIZE>) -> Result<[u8; SIZE], ProtocolError> {
    checked(written.cause).map(|()| written.bytes)
}

/// OPEN: a requester asks for a circuit under a reservation.
#[derive(Clone, Copy, Debug, Eq, PartialEq)]
pub struct OpenBody {
    /// The ticket that it goes by.
    pub ticket_id: [u8; 32],
    /// The reservation that it goes by.
    pub reservation_id: [u8; 16],
    /// The endpoint's key.
    pub endpoint_key: [u8; 33],
    /// The profile that the circuit is for.
    pub profile: u16,
    /// The requester's nonce.
    pub requester_nonce: [u8; 16],
    /// The window that the requester offers.
    pub initial_window: u32,
}

impl OpenBody {
    /// How many bytes it has: ticket, reservation, key, profile, nonce and window.
    pub const SIZE: usize = 32 + 16 + 33 + 2 + 16 + 4;

    /// Reads and checks a body; `key_valid` says whether the bytes at `endpoint_key` are a valid key.
    pub fn decode(input: &[u8], key_valid: bool) -> Result<Self, ProtocolError> {
        Self::read(input, key_valid).accepted()
    }

    /// As [`decode`](Self::decode), with the fields of a refused body too.
    pub fn read(input: &[u8], key_valid: bool) -> Read<Self> {
        Read::of(ffi::decode_open(input, key_valid))
    }

    /// Writes a body; `key_valid` says whether `endpoint_key` is a valid key.
    ///
    /// ```
    /// use lekchnam_host::body::{Invalid, OpenBody, ProtocolError};
    ///
    /// let body = OpenBody {
    ///     ticket_id: [1; 32],
    ///     reservation_id: [2; 16],
    ///     endpoint_key: [3; 33],
    ///     profile: 1,
    ///     requester_nonce: [4; 16],
    ///     initial_window: 65_536,
    /// };
    /// let bytes = body.encode(true)?;
    /// assert_eq!(OpenBody::decode(&bytes, true), Ok(body));
    /// assert_eq!(body.encode(false), Err(ProtocolError::Invalid(Invalid::OpenParameters)));
    /// # Ok::<(), ProtocolError>(())
    /// ```
    pub fn encode(&self, key_valid: bool) -> Result<[u8; Self::SIZE], ProtocolError> {
        written(ffi::encode_open((*self).into(), key_valid))
    }
}

impl From<ffi::OpenBody> for OpenBody {
    fn from(body: ffi::OpenBody) -> Self {
        Self {
            ticket_id: body.ticket_id,
            reservation_id: body.reservation_id.into(),
            endpoint_key: body.endpoint_key,
            profile: body.profile,
            requester_nonce: body.requester_nonce,
            initial_window: body.initial_window,
        }
    }
}

impl From<OpenBody> for ffi::OpenBody {
    fn from(body: OpenBody) -> Self {
        Self {
            ticket_id: body.ticket_id,
            reservation_id: body.reservation_id.into(),
            endpoint_key: body.endpoint_key,
            profile: body.profile,
            requester_nonce: body.requester_nonce,
            initial_window: body.initial_window,
        }
    }
}

/// INCOMING: the relay tells an endpoint of an OPEN.
#[derive(Clone, Copy, Debug, Eq, PartialEq)]
pub struct IncomingBody {
    /// The ticket of the OPEN.
    pub ticket_id: [u8; 32],
    /// The context of the OPEN.
    pub open_request_id: [u8; 8],
    /// The profile that the circuit is for.
    pub profile: u16,
    /// The requester's nonce.
    pub requester_nonce: [u8; 16],
    /// The window that the requester offers.
    pub initial_window: u32,
}

impl IncomingBody {
    /// How many bytes it has: ticket, request, profile, nonce and window.
    pub const SIZE: usize = 32 + 8 + 2 + 16 + 4;

    /// Reads and checks a body.
    pub fn decode(input: &[u8]) -> Result<Self, ProtocolError> {
        Self::read(input).accepted()
    }

    /// As [`decode`](Self::decode), with the fields of a refused body too.
    pub fn read(input: &[u8]) -> Read<Self> {
        Read::of(ffi::decode_incoming(input))
    }

    /// Writes a body.
    pub fn encode(&self) -> Result<[u8; Self::SIZE], ProtocolError> {
        written(ffi::encode_incoming((*self).into()))
    }
}

impl From<ffi::IncomingBody> for IncomingBody {
    fn from(body: ffi::IncomingBody) -> Self {
        Self {
            ticket_id: body.ticket_id,
            open_request_id: body.open_request_id.to_be_bytes(),
            profile: body.profile,
            requester_nonce: body.requester_nonce,
            initial_window: body.initial_window,
        }
    }
}

impl From<IncomingBody> for ffi::IncomingBody {
    fn from(body: IncomingBody) -> Self {
        Self {
            ticket_id: body.ticket_id,
            open_request_id: u64::from_be_bytes(body.open_request_id),
            profile: body.profile,
            requester_nonce: body.requester_nonce,
            initial_window: body.initial_window,
        }
    }
}

/// ACCEPT: an endpoint takes a circuit.
#[derive(Clone, Copy, Debug, Eq, PartialEq)]
pub struct AcceptBody {
    /// The window that both sides start with.
    pub accepted_window: u32,
    /// The endpoint's nonce.
    pub endpoint_nonce: [u8; 16],
}

impl AcceptBody {
    /// How many bytes it has: window and nonce.
    pub const SIZE: usize = 4 + 16;

    /// Reads and checks a body.
    pub fn decode(input: &[u8]) -> Result<Self, ProtocolError> {
        Self::read(input).accepted()
    }

    /// As [`decode`](Self::decode), with the fields of a refused body too.
    pub fn read(input: &[u8]) -> Read<Self> {
        Read::of(ffi::decode_accept(input))
    }

    /// Writes a body.
    pub fn encode(&self) -> Result<[u8; Self::SIZE], ProtocolError> {
        written(ffi::encode_accept((*self).into()))
    }
}

impl From<ffi::AcceptBody> for AcceptBody {
    fn from(body: ffi::AcceptBody) -> Self {
        Self { accepted_window: body.accepted_window, endpoint_nonce: body.endpoint_nonce }
    }
}

impl From<AcceptBody> for ffi::AcceptBody {
    fn from(body: AcceptBody) -> Self {
        Self { accepted_window: body.accepted_window, endpoint_nonce: body.endpoint_nonce }
    }
}

/// OPENED: the relay tells the requester that its circuit is taken.
#[derive(Clone, Copy, Debug, Eq, PartialEq)]
pub struct OpenedBody {
    /// The circuit.
    pub circuit_id: [u8; 8],
    /// The window that both sides start with.
    pub accepted_window: u32,
    /// The endpoint's nonce.
    pub endpoint_nonce: [u8; 16],
}

impl OpenedBody {
    /// How many bytes it has: the circuit's, and those of an ACCEPT.
    pub const SIZE: usize = 8 + AcceptBody::SIZE;

    /// Reads and checks a body.
    pub fn decode(input: &[u8]) -> Result<Self, ProtocolError> {
        Self::read(input).accepted()
    }

    /// As [`decode`](Self::decode), with the fields of a refused body too.
    pub fn read(input: &[u8]) -> Read<Self> {
        Read::of(ffi::decode_opened(input))
    }

    /// Writes a body.
    pub fn encode(&self) -> Result<[u8; Self::SIZE], ProtocolError> {
        written(ffi::encode_opened((*self).into()))
    }
}

impl From<ffi::OpenedBody> for OpenedBody {
    fn from(body: ffi::OpenedBody) -> Self {
        Self {
            circuit_id: body.circuit_id.to_be_bytes(),
            accepted_window: body.accepted_window,
            endpoint_nonce: body.endpoint_nonce,
        }
    }
}

impl From<OpenedBody> for ffi::OpenedBody {
    fn from(body: OpenedBody) -> Self {
        Self {
            circuit_id: u64::from_be_bytes(body.circuit_id),
            accepted_window: body.accepted_window,
            endpoint_nonce: body.endpoint_nonce,
        }
    }
}

/// DATA: bytes that are passed on as they are.
#[derive(Clone, Copy, Debug, Eq, PartialEq)]
pub struct DataBody<'input> {
    /// The bytes.
    pub bytes: &'input [u8],
}

impl<'input> DataBody<'input> {
    /// Checks the size.
    pub fn decode(input: &'input [u8]) -> Result<Self, ProtocolError> {
        checked(ffi::decode_data(input)).map(|()| Self { bytes: input })
    }

    /// The bytes, if they are a DATA: they are the body as they are, and reading and writing are one check.
    pub fn encode(&self) -> Result<&'input [u8], ProtocolError> {
        Self::decode(self.bytes).map(|data| data.bytes)
    }
}

/// WINDOW: credit for the other side.
#[derive(Clone, Copy, Debug, Eq, PartialEq)]
pub struct WindowBody {
    /// How much more the other side may send.
    pub credit_delta: u32,
}

impl WindowBody {
    /// How many bytes it has: one number's.
    pub const SIZE: usize = 4;

    /// Reads and checks a body.
    pub fn decode(input: &[u8]) -> Result<Self, ProtocolError> {
        Self::read(input).accepted()
    }

    /// As [`decode`](Self::decode), with the field of a refused body too.
    pub fn read(input: &[u8]) -> Read<Self> {
        Read::of(ffi::decode_window(input))
    }

    /// Writes a body.
    pub fn encode(&self) -> Result<[u8; Self::SIZE], ProtocolError> {
        written(ffi::encode_window((*self).into()))
    }
}

impl From<ffi::WindowBody> for WindowBody {
    fn from(body: ffi::WindowBody) -> Self {
        Self { credit_delta: body.credit_delta }
    }
}

impl From<WindowBody> for ffi::WindowBody {
    fn from(body: WindowBody) -> Self {
        Self { credit_delta: body.credit_delta }
    }
}

/// The two fields in front of a CLOSE's or an ERROR's detail.
#[derive(Clone, Copy, Debug, Eq, PartialEq)]
pub struct ReasonDetail {
    /// Why the circuit ends. Every number is allowed.
    pub reason: u16,
    /// How long the detail says it is.
    pub detail_length: usize,
}

impl ReasonDetail {
    /// The most bytes of a CLOSE or an ERROR: reason, length, and the longest detail.
    pub const MAX_SIZE: usize = DETAIL + MAX_DETAIL_SIZE;

    /// The bytes that a writer hands back, if it does.
    fn written(written: &ffi::DetailBytes) -> Result<Vec<u8>, ProtocolError> {
        checked(written.cause).map(|()| written.bytes[..written.length].to_vec())
    }

    /// The detail of an accepted body.
    fn detail(input: &[u8]) -> &str {
        std::str::from_utf8(&input[DETAIL..]).expect("an accepted detail is UTF-8")
    }
}

impl From<ffi::ReasonDetail> for ReasonDetail {
    fn from(body: ffi::ReasonDetail) -> Self {
        Self { reason: body.reason, detail_length: body.detail_length }
    }
}

/// CLOSE: one side ends a circuit.
#[derive(Clone, Copy, Debug, Eq, PartialEq)]
pub struct CloseBody<'input> {
    /// Why. Every number is allowed.
    pub reason: u16,
    /// Why, in words.
    pub detail: &'input str,
}

impl<'input> CloseBody<'input> {
    /// Reads and checks a body.
    pub fn decode(input: &'input [u8]) -> Result<Self, ProtocolError> {
        let ReasonDetail { reason, .. } = Self::read(input).accepted()?;
        Ok(Self { reason, detail: ReasonDetail::detail(input) })
    }

    /// The fields in front of the detail, of a refused body too.
    pub fn read(input: &[u8]) -> Read<ReasonDetail> {
        Read::of(ffi::decode_close(input))
    }

    /// Writes a body. A detail over [`MAX_DETAIL_SIZE`] is too large.
    ///
    /// ```
    /// use lekchnam_host::body::{CloseBody, ProtocolError};
    ///
    /// assert_eq!(CloseBody { reason: 7, detail: "paid" }.encode(), Ok(b"\x07\x00\x04paid".to_vec()));
    /// let long = "a".repeat(129);
    /// let refused = ProtocolError::TooLarge { actual: 129, maximum: 128 };
    /// assert_eq!(CloseBody { reason: 7, detail: &long }.encode(), Err(refused));
    /// ```
    pub fn encode(&self) -> Result<Vec<u8>, ProtocolError> {
        ReasonDetail::written(&ffi::encode_close(self.reason, self.detail.as_bytes()))
    }
}

/// ERROR: one side, or the relay, ends a circuit that went wrong.
#[derive(Clone, Copy, Debug, Eq, PartialEq)]
pub struct ErrorBody<'input> {
    /// What went wrong. Every number is allowed.
    pub reason: u16,
    /// What went wrong, in words.
    pub detail: &'input str,
}

impl<'input> ErrorBody<'input> {
    /// Reads and checks a body.
    pub fn decode(input: &'input [u8]) -> Result<Self, ProtocolError> {
        let ReasonDetail { reason, .. } = Self::read(input).accepted()?;
        Ok(Self { reason, detail: ReasonDetail::detail(input) })
    }

    /// The fields in front of the detail, of a refused body too.
    pub fn read(input: &[u8]) -> Read<ReasonDetail> {
        Read::of(ffi::decode_error(input))
    }

    /// Writes a body. A detail over [`MAX_DETAIL_SIZE`] is too large.
    pub fn encode(&self) -> Result<Vec<u8>, ProtocolError> {
        ReasonDetail::written(&ffi::encode_error(self.reason, self.detail.as_bytes()))
    }
}

/// Whether a text is UTF-8 by RFC 3629.
pub fn is_utf8(text: &[u8]) -> bool {
    ffi::is_utf8(text)
}

/// What hns-hnsr-protocol's `HnsrPacket::new` checks: the size first, then that the context is not
/// zero, which opcode 6 may have.
pub fn validate_packet(opcode: u8, context_id: [u8; 8], body_length: usize) -> Result<(), ProtocolError> {
    checked(ffi::validate_packet(opcode, u64::from_be_bytes(context_id), body_length))
}
