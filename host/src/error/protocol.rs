//! Why a body or a packet is refused, by the archive's numbers and the words of hns-hnsr-protocol.
use crate::ffi::Cause;
use std::error::Error;
use std::fmt::{self, Display, Formatter};

/// Which value is wrong. The number is the archive's.
#[derive(Clone, Copy, Debug, Eq, Hash, PartialEq)]
#[repr(u64)]
pub enum Invalid {
    /// A packet's context is zero, and its opcode is not 6.
    ContextZero = 1,
    /// OPEN: an id, the nonce or the profile is zero, the key is not valid, or the window is out of bounds.
    OpenParameters = 2,
    /// INCOMING: an id, the nonce or the profile is zero, or the window is out of bounds.
    IncomingParameters = 3,
    /// ACCEPT, and OPENED behind its circuit: the nonce is zero or the window is out of bounds.
    AcceptResponse = 4,
    /// OPENED: the circuit is zero.
    CircuitZero = 5,
    /// DATA: no bytes, or more than [`MAX_DATA_SIZE`](crate::limits::MAX_DATA_SIZE).
    DataSize = 6,
    /// WINDOW: a delta of 0, or over [`MAX_WINDOW`](crate::limits::MAX_WINDOW).
    WindowCredit = 7,
    /// CLOSE, ERROR: the length is over [`MAX_DETAIL_SIZE`](crate::limits::MAX_DETAIL_SIZE), or is not that of what
    /// follows.
    DiagnosticDetail = 8,
    /// CLOSE, ERROR: the detail is not UTF-8.
    NotUtf8 = 9,
}

impl Invalid {
    /// All, by number.
    pub const ALL: [Self; 9] = [
        Self::ContextZero,
        Self::OpenParameters,
        Self::IncomingParameters,
        Self::AcceptResponse,
        Self::CircuitZero,
        Self::DataSize,
        Self::WindowCredit,
        Self::DiagnosticDetail,
        Self::NotUtf8,
    ];

    /// The text that hns-hnsr-protocol has for it.
    pub const fn text(self) -> &'static str {
        match self {
            Self::ContextZero => "HNSR context ID is zero",
            Self::OpenParameters => "invalid HNSR open parameters",
            Self::IncomingParameters => "invalid HNSR incoming parameters",
            Self::AcceptResponse => "invalid HNSR accept response",
            Self::CircuitZero => "HNSR circuit ID is zero",
            Self::DataSize => "invalid HNSR DATA size",
            Self::WindowCredit => "invalid HNSR window credit",
            Self::DiagnosticDetail => "invalid HNSR diagnostic detail",
            Self::NotUtf8 => "HNSR detail is not UTF-8",
        }
    }

    fn numbered(number: u64) -> Self {
        Self::ALL
            .into_iter()
            .find(|invalid| *invalid as u64 == number)
            .unwrap_or_else(|| panic!("liblekchnam.a is of another version: text number {number}"))
    }
}

/// Why a body or a packet is refused.
#[derive(Clone, Copy, Debug, Eq, Hash, PartialEq)]
pub enum ProtocolError {
    /// The input ends before the field that starts at `offset` does.
    UnexpectedEnd {
        /// Where the field starts.
        offset: usize,
        /// How many bytes the field lacks.
        needed: usize,
    },
    /// Bytes are left behind the last field.
    TrailingBytes {
        /// How many.
        remaining: usize,
    },
    /// A value that is not allowed.
    Invalid(Invalid),
    /// A packet over its size, or a detail that was to be written.
    TooLarge {
        /// The size, a packet's with its header.
        actual: usize,
        /// The most it may be.
        maximum: usize,
    },
    /// The OPEN was not admitted. No reader answers this: it is the relay's, and in hns-hnsr-protocol has the
    /// words of the service that admits.
    Admission,
}

impl Display for ProtocolError {
    fn fmt(&self, f: &mut Formatter<'_>) -> fmt::Result {
        match self {
            Self::UnexpectedEnd { offset, needed } => {
                write!(f, "unexpected end of input at byte {offset}; needed {needed} more byte(s)")
            }
            Self::TrailingBytes { remaining } => write!(f, "{remaining} trailing byte(s) remain"),
            Self::Invalid(invalid) => write!(f, "invalid HNSR value: {}", invalid.text()),
            Self::TooLarge { actual, maximum } => {
                write!(f, "HNSR field length {actual} exceeds maximum {maximum}")
            }
            Self::Admission => write!(f, "HNSR circuit is not admitted"),
        }
    }
}

impl Error for ProtocolError {}

/// The archive's cause by its name. A value that a kind does not use is 0.
pub(crate) fn checked(cause: Cause) -> Result<(), ProtocolError> {
    let size = |value: u64| value as usize;
    Err(match (cause.kind, cause.first, cause.second) {
        (0, 0, 0) => return Ok(()),
        (1, offset, needed) => ProtocolError::UnexpectedEnd { offset: size(offset), needed: size(needed) },
        (2, remaining, 0) => ProtocolError::TrailingBytes { remaining: size(remaining) },
        (3, number, 0) => ProtocolError::Invalid(Invalid::numbered(number)),
        (4, actual, maximum) => ProtocolError::TooLarge { actual: size(actual), maximum: size(maximum) },
        (5, 0, 0) => ProtocolError::Admission,
        unknown => panic!("liblekchnam.a is of another version: cause {unknown:?}"),
    })
}
