//! Why a call is refused, by the numbers of the rules and the words of hns-hnsr-protocol.
use super::{checked, ProtocolError};
use crate::ffi::Cause;
use std::error::Error;
use std::fmt::{self, Display, Formatter};

/// Why a call is refused. [`advice`](Self::advice) says what to do then, by a table, and
/// [`why`](crate::OpaqueRelayRuntime::why) which of the rows with this number it was.
///
/// The relay is unchanged by a refusal but where the rules say otherwise: the clock may have moved, for one.
#[derive(Clone, Copy, Debug, Eq, Hash, PartialEq)]
pub enum HnsrRuntimeError {
    /// 1: a packet or its body is wrong, which is its sender's fault: end the sender's connection. Or the OPEN is not
    /// admitted, or by a grant that is over: turn it down.
    Protocol(ProtocolError),
    /// 2: a limit of the configuration is out of its bounds. Only `new` answers it, and the host mends the limit.
    InvalidConfig,
    /// 3: the session or the generation is zero. Only `new` answers it.
    InvalidSession,
    /// 4: a name does not have 1 to [`MAXIMUM_PEER`](crate::MAXIMUM_PEER) bytes: of an OPEN the name of the endpoint in
    /// the host's grant, of `disconnect` and `action_capacity` the peer's.
    InvalidPeer,
    /// 5: the relay has another generation. At `acknowledge` a normal race: the relay was switched, and the route's
    /// place has been given back. Nothing is to be done.
    StaleGeneration,
    /// 6: a generation or a route's number cannot grow. Switching the relay off and on gives routes new numbers, and
    /// ends all.
    GenerationExhausted,
    /// 7: the time is behind the latest one that was seen. The host needs a clock that does not go back; the packet is
    /// offered again with a time that is not behind.
    ClockRollback,
    /// 8: no id could be drawn, or the random source had no bytes
    /// ([`OsRandom::failure`](crate::OsRandom::failure) tells which). The OPEN may be offered again once there are
    /// bytes.
    Randomness,
    /// 9: the relay is switched off, by the host. All circuits ended then, so an OPEN is turned down and every other
    /// packet is late.
    Disabled,
    /// 10: a limit is reached. Of DATA and WINDOW it is always the unacknowledged routes: hold the packet, and offer it
    /// again after each acknowledge. Of OPEN and ACCEPT it is one of several: by the routes the same, else turn it
    /// down; [`why`](crate::OpaqueRelayRuntime::why) tells them apart. A CLOSE or an ERROR, and an INCOMING that is not
    /// delivered, have ended what they were about all the same, and no route tells the other side
    /// ([`untold`](crate::OpaqueRelayRuntime::untold)).
    Capacity,
    /// 11: an ACCEPT comes after its deadline: drop it. Of DATA, the reservation of its circuit has ended, and the
    /// ledger has no record of it: end the circuit. Two OPENs that wait fit a CLOSE or an ERROR: its sender chose a
    /// context that is also an id that it was told.
    InvalidAdmission,
    /// 12: a deadline would pass 2^64 - 1. The host's clock is not one of seconds.
    Deadline,
    /// 13: no OPEN waits under the id that an ACCEPT names: it was ended, or its time was over. A normal race: drop it.
    UnknownRequest,
    /// 14: no circuit has this id. It has ended: a normal race, drop the packet, a DATA too. Or its OPEN is not
    /// accepted yet, which [`why`](crate::OpaqueRelayRuntime::why) tells: end it.
    UnknownCircuit,
    /// 15: the sender is not a side of it. End the sender's connection, and leave alone what the packet names.
    WrongPeer,
    /// 16: the relay does not take such packets.
    UnexpectedOpcode,
    /// 17: of DATA, the sender's credit or the queue for the other side does not reach. By the queue: hold the
    /// packet, and offer it again after each acknowledge, unless it is longer than the whole queue. By credit: the
    /// sender broke a rule, end the circuit. [`why`](crate::OpaqueRelayRuntime::why) tells them apart. Of WINDOW, the
    /// other side's credit would pass [`MAX_WINDOW`](crate::limits::MAX_WINDOW): end the circuit.
    FlowControl,
    /// 18: of OPEN, one of two. Under the grant's reservation id lives a ledger record with another expiry: while it
    /// lives, the host grants with the expiry that it has, or revokes the reservation first. Or the bytes of the
    /// reservation are used up. Of DATA, the circuit's bytes or the reservation's do not reach: end the circuit.
    ByteLimit,
    /// 19: the requester's end in hns-hnsr-protocol has it; no call here answers it.
    NoQueuedData,
    /// 20: no such route is unacknowledged. A normal race: what the route was about ended, and its place has been given
    /// back. Nothing is to be done.
    UnknownAction,
    /// 21: the snapshots of hns-hnsr-protocol have it; no call here answers it.
    CorruptSnapshot,
    /// 22, added: the tables or the output words are too few, or the memory for them cannot be had. A relay that owns
    /// its tables answers it only when it is made.
    Short,
    /// 23, added: the ledger is full, and the OPEN's reservation has no record there yet. The host gives the ledger
    /// more places ([`new_with`](crate::OpaqueRelayRuntime::new_with)), or revokes reservations that nobody needs.
    LedgerFull,
}

/// The number of a refusal that has a cause.
const PROTOCOL: u32 = 1;

/// Those without a cause, by number from the one behind `PROTOCOL` on, with their words.
const PLAIN: [(HnsrRuntimeError, &str); 22] = {
    use HnsrRuntimeError::*;
    [
        (InvalidConfig, "invalid HNSR runtime configuration"),
        (InvalidSession, "invalid or reused HNSR runtime session"),
        (InvalidPeer, "invalid HNSR outer peer identity"),
        (StaleGeneration, "stale HNSR runtime generation"),
        (GenerationExhausted, "HNSR runtime generation exhausted"),
        (ClockRollback, "HNSR trusted clock rollback detected"),
        (Randomness, "HNSR runtime randomness unavailable"),
        (Disabled, "HNSR runtime role is disabled"),
        (Capacity, "HNSR runtime capacity reached"),
        (InvalidAdmission, "invalid HNSR circuit admission"),
        (Deadline, "invalid or expired HNSR circuit deadline"),
        (UnknownRequest, "unknown HNSR circuit request"),
        (UnknownCircuit, "unknown HNSR circuit"),
        (WrongPeer, "HNSR packet arrived from the wrong outer peer"),
        (UnexpectedOpcode, "unexpected HNSR runtime opcode"),
        (FlowControl, "HNSR circuit flow-control bound exceeded"),
        (ByteLimit, "HNSR circuit byte bound exceeded"),
        (NoQueuedData, "no queued HNSR requester data"),
        (UnknownAction, "unknown HNSR queued action"),
        (CorruptSnapshot, "corrupt HNSR runtime snapshot"),
        (Short, "HNSR relay tables or output words too few"),
        (LedgerFull, "HNSR reservation ledger is full"),
    ]
};

impl HnsrRuntimeError {
    /// The number that the rules have for it: 1 to 23.
    pub fn number(self) -> u32 {
        let place = PLAIN.iter().position(|(plain, _)| *plain == self);
        place.map_or(PROTOCOL, |place| PROTOCOL + 1 + place as u32)
    }

    /// The refusal that has this number, such as a log keeps; none for 1, which has a cause, and where none has it.
    ///
    /// ```
    /// use lekchnam_host::HnsrRuntimeError;
    ///
    /// assert_eq!(HnsrRuntimeError::from_number(17), Some(HnsrRuntimeError::FlowControl));
    /// assert_eq!([0, 1, 24].map(HnsrRuntimeError::from_number), [None; 3]);
    /// ```
    pub fn from_number(number: u32) -> Option<Self> {
        by_number(number).map(|(plain, _)| *plain)
    }
}

impl Display for HnsrRuntimeError {
    fn fmt(&self, f: &mut Formatter<'_>) -> fmt::Result {
        match self {
            Self::Protocol(cause) => cause.fmt(f),
            plain => f.write_str(by_number(plain.number()).expect("it has no cause").1),
        }
    }
}

impl Error for HnsrRuntimeError {}

impl From<ProtocolError> for HnsrRuntimeError {
    fn from(cause: ProtocolError) -> Self {
        Self::Protocol(cause)
    }
}

/// The refusal without a cause that has a number.
fn by_number(number: u32) -> Option<&'static (HnsrRuntimeError, &'static str)> {
    PLAIN.get(number.checked_sub(PROTOCOL + 1)? as usize)
}

/// The archive's answer by its name: 0 is taken.
pub(crate) fn answered(answer: u32, cause: Cause) -> Result<(), HnsrRuntimeError> {
    match (answer, checked(cause), by_number(answer)) {
        (0, Ok(()), _) => Ok(()),
        (PROTOCOL, Err(cause), _) => Err(cause.into()),
        (_, Ok(()), Some((refused, _))) => Err(*refused),
        (answer, cause, _) => panic!("liblekchnam.a is of another version: answer {:?}", (answer, cause)),
    }
}
