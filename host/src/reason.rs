//! Why circuits end: the numbers of a CLOSE's and an ERROR's reason, and the relay's own words.
use std::error::Error;
use std::fmt::{self, Display, Formatter};

/// The reasons that have a name, by those of hns-hnsr-protocol. A CLOSE or an ERROR may have any other number too.
///
/// ```
/// use lekchnam_host::HnsrErrorCode;
///
/// assert_eq!(u16::from(HnsrErrorCode::EndpointGone), 11);
/// assert_eq!(HnsrErrorCode::try_from(11), Ok(HnsrErrorCode::EndpointGone));
/// assert!(matches!(HnsrErrorCode::try_from(18), Err(unknown) if unknown.number() == 18));
/// ```
#[derive(Clone, Copy, Debug, Eq, Hash, Ord, PartialEq, PartialOrd)]
#[repr(u16)]
pub enum HnsrErrorCode {
    /// 0: nothing went wrong.
    Normal = 0,
    /// 1: the other side does not want it.
    Refused = 1,
    /// 2: what was asked for is not supported.
    Unsupported = 2,
    /// 3: not now.
    Busy = 3,
    /// 4: what was sent is wrong.
    Invalid = 4,
    /// 5: there is no such thing.
    NotFound = 5,
    /// 6: a reservation has ended. The relay's own: [`Notice::ReservationRevoked`], [`Notice::TicketExpired`].
    Expired = 6,
    /// 7: there is no room.
    Capacity = 7,
    /// 8: it took too long. The relay's own: [`Notice::AcceptanceExpired`].
    Timeout = 8,
    /// 9: the protocol was not kept.
    Protocol = 9,
    /// 10: something broke inside.
    Internal = 10,
    /// 11: a side is gone. The relay's own: [`Notice::PeerDisconnected`], [`Notice::EndpointWriteFailed`],
    /// [`Notice::OuterWriteFailed`].
    EndpointGone = 11,
    /// 12: a side is not who it must be.
    AuthenticationFailed = 12,
    /// 13: more was sent than the window allows.
    FlowControl = 13,
    /// 14: too much was asked for in too short a time.
    RateLimited = 14,
    /// 15: whoever says so is shutting down. The relay's own: [`Notice::RelayDisabled`].
    Shutdown = 15,
    /// 16: the profile is switched off.
    ProfileDisabled = 16,
    /// 17: the bytes are used up.
    ByteLimit = 17,
}

impl HnsrErrorCode {
    /// All, each at the place that its number is.
    pub const ALL: [Self; 18] = [
        Self::Normal,
        Self::Refused,
        Self::Unsupported,
        Self::Busy,
        Self::Invalid,
        Self::NotFound,
        Self::Expired,
        Self::Capacity,
        Self::Timeout,
        Self::Protocol,
        Self::Internal,
        Self::EndpointGone,
        Self::AuthenticationFailed,
        Self::FlowControl,
        Self::RateLimited,
        Self::Shutdown,
        Self::ProfileDisabled,
        Self::ByteLimit,
    ];
}

impl From<HnsrErrorCode> for u16 {
    fn from(code: HnsrErrorCode) -> Self {
        code as u16
    }
}

impl TryFrom<u16> for HnsrErrorCode {
    type Error = UnknownErrorCode;

    fn try_from(number: u16) -> Result<Self, UnknownErrorCode> {
        Self::ALL.get(usize::from(number)).copied().ok_or(UnknownErrorCode(number))
    }
}

/// A reason without a name: 18 and above. Only [`HnsrErrorCode::try_from`] makes one, so that none has a number that is
/// named.
///
/// ```compile_fail
/// lekchnam_host::UnknownErrorCode(11);
/// ```
#[derive(Clone, Copy, Debug, Eq, Hash, Ord, PartialEq, PartialOrd)]
pub struct UnknownErrorCode(u16);

impl UnknownErrorCode {
    /// The number.
    pub const fn number(self) -> u16 {
        self.0
    }
}

impl Display for UnknownErrorCode {
    fn fmt(&self, f: &mut Formatter<'_>) -> fmt::Result {
        f.write_str("invalid HNSR value: unknown HNSR error code")
    }
}

impl Error for UnknownErrorCode {}

/// Why the relay itself ends a circuit or an OPEN: the reason and the detail of the CLOSE or the ERROR that it sends.
///
/// A CLOSE or an ERROR of the other side is passed on with that side's own reason and detail. These may be the same, so
/// a notice tells a person what happened, and proves nothing.
///
/// ```
/// use lekchnam_host::body::CloseBody;
/// use lekchnam_host::{HnsrErrorCode, Notice};
///
/// let close = CloseBody::decode(b"\x06\x00\x14relay ticket expired").expect("a good body");
/// let notice = Notice::of(close.reason, close.detail);
/// assert_eq!(notice, Some(Notice::TicketExpired));
/// assert_eq!(notice.map(Notice::reason), Some(HnsrErrorCode::Expired));
/// ```
#[derive(Clone, Copy, Debug, Eq, Hash, PartialEq)]
pub enum Notice {
    /// The other side's connection ended: [`disconnect`](crate::OpaqueRelayRuntime::disconnect).
    PeerDisconnected,
    /// [`revoke_reservation`](crate::OpaqueRelayRuntime::revoke_reservation).
    ReservationRevoked,
    /// No ACCEPT came in time: [`expire`](crate::OpaqueRelayRuntime::expire).
    AcceptanceExpired,
    /// The reservation has ended: [`expire`](crate::OpaqueRelayRuntime::expire).
    TicketExpired,
    /// The relay was switched off: [`replace_enabled`](crate::OpaqueRelayRuntime::replace_enabled).
    RelayDisabled,
    /// An INCOMING was not delivered: [`acknowledge`](crate::OpaqueRelayRuntime::acknowledge).
    EndpointWriteFailed,
    /// Another route of the circuit was not delivered: [`acknowledge`](crate::OpaqueRelayRuntime::acknowledge).
    OuterWriteFailed,
}

impl Notice {
    /// All.
    pub const ALL: [Self; 7] = [
        Self::PeerDisconnected,
        Self::ReservationRevoked,
        Self::AcceptanceExpired,
        Self::TicketExpired,
        Self::RelayDisabled,
        Self::EndpointWriteFailed,
        Self::OuterWriteFailed,
    ];

    /// The reason.
    pub const fn reason(self) -> HnsrErrorCode {
        match self {
            Self::PeerDisconnected | Self::EndpointWriteFailed | Self::OuterWriteFailed => HnsrErrorCode::EndpointGone,
            Self::ReservationRevoked | Self::TicketExpired => HnsrErrorCode::Expired,
            Self::AcceptanceExpired => HnsrErrorCode::Timeout,
            Self::RelayDisabled => HnsrErrorCode::Shutdown,
        }
    }

    /// The detail.
    pub const fn detail(self) -> &'static str {
        match self {
            Self::PeerDisconnected => "outer peer disconnected",
            Self::ReservationRevoked => "reservation revoked",
            Self::AcceptanceExpired => "endpoint acceptance expired",
            Self::TicketExpired => "relay ticket expired",
            Self::RelayDisabled => "opaque relay disabled",
            Self::EndpointWriteFailed => "endpoint write failed",
            Self::OuterWriteFailed => "outer write failed",
        }
    }

    /// The one with this reason and this detail, as a CLOSE or an ERROR has them.
    pub fn of(reason: u16, detail: &str) -> Option<Self> {
        Self::ALL.into_iter().find(|notice| u16::from(notice.reason()) == reason && notice.detail() == detail)
    }
}
