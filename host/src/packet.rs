//! A packet: opcode, context and body.
use crate::body::{validate_packet, ProtocolError};
use std::fmt::{self, Display, Formatter};

/// The messages with their names, each at the place that its number is.
const NAMED: [(HnsrOpcode, &str); 21] = {
    use HnsrOpcode::*;
    [
        (FindNode, "FIND_NODE"),
        (Nodes, "NODES"),
        (PutRoute, "PUT_ROUTE"),
        (PutResult, "PUT_RESULT"),
        (GetRoute, "GET_ROUTE"),
        (Routes, "ROUTES"),
        (SampleRoutes, "SAMPLE_ROUTES"),
        (Reserve, "RESERVE"),
        (Offer, "OFFER"),
        (Confirm, "CONFIRM"),
        (Confirmed, "CONFIRMED"),
        (Renew, "RENEW"),
        (Withdraw, "WITHDRAW"),
        (Open, "OPEN"),
        (Incoming, "INCOMING"),
        (Accept, "ACCEPT"),
        (Opened, "OPENED"),
        (Data, "DATA"),
        (Window, "WINDOW"),
        (Close, "CLOSE"),
        (Error, "ERROR"),
    ]
};

/// What a packet is.
///
/// The relay takes OPEN, ACCEPT, DATA, WINDOW, CLOSE and ERROR. It sends INCOMING, OPENED,
/// DATA, WINDOW, CLOSE and ERROR. Opcodes are ordered by number, and shown by name.
///
/// ```
/// use lekchnam_host::HnsrOpcode;
///
/// assert_eq!(HnsrOpcode::Open.to_string(), "OPEN");
/// assert_eq!(HnsrOpcode::from(21).to_string(), "UNKNOWN(21)");
/// assert!(HnsrOpcode::Open < HnsrOpcode::Incoming && HnsrOpcode::Error < HnsrOpcode::from(21));
/// ```
#[derive(Clone, Copy, Debug, Eq, Hash, Ord, PartialEq, PartialOrd)]
pub enum HnsrOpcode {
    /// 0, of the search for routes.
    FindNode,
    /// 1, of the search for routes.
    Nodes,
    /// 2, of the search for routes.
    PutRoute,
    /// 3, of the search for routes.
    PutResult,
    /// 4, of the search for routes.
    GetRoute,
    /// 5, of the search for routes.
    Routes,
    /// 6, of the search for routes.
    SampleRoutes,
    /// 7, of reservations.
    Reserve,
    /// 8, of reservations.
    Offer,
    /// 9, of reservations.
    Confirm,
    /// 10, of reservations.
    Confirmed,
    /// 11, of reservations.
    Renew,
    /// 12, of reservations.
    Withdraw,
    /// 13: a requester asks for a circuit.
    Open,
    /// 14: the relay tells an endpoint of an OPEN.
    Incoming,
    /// 15: an endpoint takes a circuit.
    Accept,
    /// 16: the relay tells the requester of an ACCEPT.
    Opened,
    /// 17: bytes for the other side.
    Data,
    /// 18: credit for the other side.
    Window,
    /// 19: one side, or the relay, ends a circuit or an OPEN.
    Close,
    /// 20: the same, as something went wrong.
    Error,
    /// A number from 21 on. Such a packet is refused with 16.
    Unknown(UnknownOpcode),
}

/// An opcode that is no message's: 21 to 255. Only [`HnsrOpcode::from`] makes one, so that no message has two forms.
///
/// ```
/// use lekchnam_host::HnsrOpcode;
///
/// assert_eq!(HnsrOpcode::from(13), HnsrOpcode::Open);
/// assert!(matches!(HnsrOpcode::from(21), HnsrOpcode::Unknown(unknown) if unknown.number() == 21));
/// ```
///
/// ```compile_fail
/// lekchnam_host::HnsrOpcode::Unknown(13);
/// ```
///
/// ```compile_fail
/// lekchnam_host::UnknownOpcode(13);
/// ```
#[derive(Clone, Copy, Debug, Eq, Hash, Ord, PartialEq, PartialOrd)]
pub struct UnknownOpcode(u8);

impl UnknownOpcode {
    /// The number.
    pub const fn number(self) -> u8 {
        self.0
    }
}

impl HnsrOpcode {
    /// How many messages there are. Their numbers lie below this.
    pub const COUNT: u8 = NAMED.len() as u8;
}

impl From<u8> for HnsrOpcode {
    fn from(number: u8) -> Self {
        NAMED.get(usize::from(number)).map_or(Self::Unknown(UnknownOpcode(number)), |(opcode, _)| *opcode)
    }
}

impl From<HnsrOpcode> for u8 {
    fn from(opcode: HnsrOpcode) -> Self {
        match opcode {
            HnsrOpcode::Unknown(unknown) => unknown.number(),
            named => NAMED.iter().take_while(|(other, _)| *other != named).count() as u8,
        }
    }
}

impl Display for HnsrOpcode {
    fn fmt(&self, f: &mut Formatter<'_>) -> fmt::Result {
        match self {
            Self::Unknown(unknown) => f.pad(&format!("UNKNOWN({})", unknown.number())),
            named => f.pad(NAMED[usize::from(u8::from(*named))].1),
        }
    }
}

/// One packet. Its body is lent; [`HnsrPacketBuf`](crate::HnsrPacketBuf) owns it.
#[derive(Clone, Copy, Debug, Eq, PartialEq)]
pub struct HnsrPacket<'a> {
    /// What it is.
    pub opcode: HnsrOpcode,
    /// The circuit that it is about, or the request.
    pub context_id: [u8; 8],
    /// The rest.
    pub body: &'a [u8],
}

impl<'a> HnsrPacket<'a> {
    /// A packet that is not too large and has a context where it must.
    pub fn new(opcode: HnsrOpcode, context_id: [u8; 8], body: &'a [u8]) -> Result<Self, ProtocolError> {
        validate_packet(opcode.into(), context_id, body.len())?;
        Ok(Self { opcode, context_id, body })
    }
}
