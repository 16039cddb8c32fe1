//! The rows by which `handle` refuses.
use crate::body::ProtocolError;
use crate::error::{Advice, HnsrRuntimeError};
use std::fmt::{self, Display, Formatter};

/// The row by which [`handle`](crate::OpaqueRelayRuntime::handle) refused a packet:
/// [`why`](crate::OpaqueRelayRuntime::why) says which. Several rows have one number; where several hold, the first is
/// named, in the order in which they are asked.
#[derive(Clone, Copy, Debug, Eq, Hash, PartialEq)]
pub enum Row {
    /// 22: a table is shorter than its limit.
    TablesShort,
    /// 22: the output words are fewer than [`HANDLE_WORDS`](crate::lent::HANDLE_WORDS).
    WordsShort,
    /// 4: the sender's name is too long or has no bytes.
    SourceName {
        /// Its bytes.
        length: usize,
    },
    /// 1: the packet is too large, or its context is zero.
    Packet(ProtocolError),
    /// 7: the time is behind the latest one that was seen.
    Clock {
        /// The latest one.
        high_water: u64,
        /// The one that was given.
        now: u64,
    },
    /// 9: the relay is switched off.
    Disabled {
        /// Whether the packet is an OPEN, which is turned down. Any other is late, since all ended.
        opening: bool,
    },
    /// 16: the relay does not take such packets.
    Opcode,
    /// 10, OPEN: as many OPENs wait as may.
    PendingFull {
        /// How many.
        most: usize,
    },
    /// 10, OPEN and ACCEPT: there are as many circuits as there may be.
    CircuitsFull {
        /// How many.
        most: usize,
    },
    /// 10, OPEN: the requester is a side of as much as it may be.
    RequesterWork {
        /// How much.
        most: usize,
    },
    /// 10, OPEN: the requester has an OPEN under this context that waits.
    ContextPending,
    /// 1: the body is wrong.
    Body(ProtocolError),
    /// 1, OPEN: the host did not admit it.
    NotAdmitted,
    /// 1, OPEN: the grant's time is over.
    GrantOver {
        /// When it ended.
        expires_at: u64,
        /// The time.
        now: u64,
    },
    /// 4, OPEN: the endpoint's name in the grant is too long or has no bytes.
    EndpointName {
        /// Its bytes.
        length: usize,
    },
    /// 10, OPEN: the grant's endpoint is the requester.
    EndpointIsRequester,
    /// 10, OPEN: the endpoint is a side of as much as it may be.
    EndpointWork {
        /// How much.
        most: usize,
    },
    /// 10, OPEN and ACCEPT: the reservation has as many circuits and OPENs that wait as it may have.
    ReservationWork {
        /// How many.
        most: usize,
    },
    /// 8, OPEN: no id could be drawn.
    Draws,
    /// 10, but of CLOSE and ERROR: as many routes are unacknowledged as may be.
    Actions {
        /// Of whom.
        of: ActionLimit,
        /// How many.
        most: usize,
    },
    /// 12, OPEN: the deadline would pass 2^64 - 1.
    Deadline,
    /// 23, OPEN: every place of the ledger is in use, and none by this reservation.
    LedgerFull {
        /// The places.
        places: usize,
    },
    /// 18, OPEN: under the grant's reservation id lives a ledger record with another expiry.
    ExpiryDiffers {
        /// The record's.
        recorded: u64,
        /// The grant's.
        granted: u64,
    },
    /// 18, OPEN: the bytes that the grant has for its reservation are used up.
    ReservationSpent {
        /// The bytes that its circuits have passed.
        used: u64,
        /// The bytes that the grant has.
        most: u64,
    },
    /// 13, ACCEPT: no OPEN waits under this id.
    NotPending,
    /// 15: the sender is not the endpoint of the OPEN that an ACCEPT names, or not a side of the circuit.
    OtherPeer,
    /// 11, ACCEPT: its time is over.
    AcceptLate {
        /// Since when.
        due: u64,
        /// The time.
        now: u64,
    },
    /// 10, ACCEPT: the window is larger than the one that was offered.
    WindowOverOffered {
        /// The OPEN's.
        offered: u32,
        /// The ACCEPT's.
        accepted: u32,
    },
    /// 14, DATA and WINDOW: the OPEN under this id is not accepted yet, and the sender is a side of it.
    Unaccepted,
    /// 14: no circuit has this id.
    NoCircuit,
    /// 11, DATA: the ledger has no record of the circuit's reservation.
    NoLedgerRecord,
    /// 18, DATA: the circuit's bytes do not reach.
    CircuitBytes {
        /// How many are left.
        left: u64,
        /// How many there are in the packet.
        asked: u64,
    },
    /// 18, DATA: the reservation's bytes do not reach.
    TotalBytes {
        /// How many are left.
        left: u64,
        /// How many there are in the packet.
        asked: u64,
    },
    /// 17, DATA: the sender's credit does not reach.
    Credit {
        /// How much is left.
        left: u64,
        /// How many bytes there are in the packet.
        asked: u64,
    },
    /// 17, DATA: it is longer than the whole queue, which is less than the longest DATA then. It never passes.
    DataOverQueue {
        /// The queue.
        most: u64,
        /// How many bytes there are in the packet.
        asked: u64,
    },
    /// 17, DATA: the queue for the other side does not reach.
    Queue {
        /// How much of it is left.
        left: u64,
        /// How many bytes there are in the packet.
        asked: u64,
    },
    /// 17, WINDOW: the other side's credit would pass [`MAX_WINDOW`](crate::limits::MAX_WINDOW).
    CreditOverMost {
        /// How much may be added.
        left: u64,
        /// How much the packet adds.
        asked: u64,
    },
    /// 11, CLOSE and ERROR: two OPENs that wait fit. One the sender asked for under this context, the other has this
    /// id and the sender as its endpoint.
    NamesTwo,
    /// 10, CLOSE and ERROR: what they name has ended, and the route to the other side found as many unacknowledged as
    /// there may be.
    EndedActions {
        /// Of whom.
        of: ActionLimit,
        /// How many.
        most: usize,
    },
    /// 6, CLOSE and ERROR: what they name has ended, and the route to the other side found no number.
    EndedSequence,
    /// 6, but of CLOSE and ERROR: all is written, and the route found no number.
    Sequence,
    /// 1: all is written, and the requester's context is zero, so that it cannot be told. Only tables that a host put
    /// together have such an OPEN.
    RequesterContextZero,
}

/// Whose unacknowledged routes are as many as may be.
#[derive(Clone, Copy, Debug, Eq, Hash, PartialEq)]
pub enum ActionLimit {
    /// The relay's: [`maximum_inflight_actions`](crate::OpaqueRelayConfig::maximum_inflight_actions).
    Relay,
    /// Those about the circuit:
    /// [`maximum_inflight_actions_per_circuit`](crate::OpaqueRelayConfig::maximum_inflight_actions_per_circuit).
    Circuit,
    /// Those toward the peer that the route would go to:
    /// [`maximum_inflight_actions_per_peer`](crate::OpaqueRelayConfig::maximum_inflight_actions_per_peer).
    Peer,
}

impl Row {
    /// The refusal that the row gives.
    pub fn refusal(self) -> HnsrRuntimeError {
        use crate::body::Invalid::ContextZero;
        use HnsrRuntimeError as Refusal;
        match self {
            Self::TablesShort | Self::WordsShort => Refusal::Short,
            Self::SourceName { .. } | Self::EndpointName { .. } => Refusal::InvalidPeer,
            Self::Packet(cause) | Self::Body(cause) => cause.into(),
            Self::NotAdmitted | Self::GrantOver { .. } => ProtocolError::Admission.into(),
            Self::RequesterContextZero => ProtocolError::Invalid(ContextZero).into(),
            Self::Clock { .. } => Refusal::ClockRollback,
            Self::Disabled { .. } => Refusal::Disabled,
            Self::Opcode => Refusal::UnexpectedOpcode,
            Self::PendingFull { .. }
            | Self::CircuitsFull { .. }
            | Self::RequesterWork { .. }
            | Self::ContextPending
            | Self::EndpointIsRequester
            | Self::EndpointWork { .. }
            | Self::ReservationWork { .. }
            | Self::Actions { .. }
            | Self::WindowOverOffered { .. }
            | Self::EndedActions { .. } => Refusal::Capacity,
            Self::Draws => Refusal::Randomness,
            Self::Deadline => Refusal::Deadline,
            Self::LedgerFull { .. } => Refusal::LedgerFull,
            Self::ExpiryDiffers { .. }
            | Self::ReservationSpent { .. }
            | Self::CircuitBytes { .. }
            | Self::TotalBytes { .. } => Refusal::ByteLimit,
            Self::NotPending => Refusal::UnknownRequest,
            Self::OtherPeer => Refusal::WrongPeer,
            Self::AcceptLate { .. } | Self::NoLedgerRecord | Self::NamesTwo => Refusal::InvalidAdmission,
            Self::Unaccepted | Self::NoCircuit => Refusal::UnknownCircuit,
            Self::Credit { .. } | Self::DataOverQueue { .. } | Self::Queue { .. } | Self::CreditOverMost { .. } => {
                Refusal::FlowControl
            }
            Self::EndedSequence | Self::Sequence => Refusal::GenerationExhausted,
        }
    }

    /// The refusal's number.
    pub fn number(self) -> u32 {
        self.refusal().number()
    }

    /// What a host does.
    ///
    /// It is what the number and the packet tell ([`HnsrRuntimeError::advice`]), but for these rows, which know more:
    ///
    /// - [`Actions`](Self::Actions) of an OPEN or an ACCEPT: [`OfferAgain`](Advice::OfferAgain).
    /// - [`Credit`](Self::Credit): [`EndCircuit`](Advice::EndCircuit). The sender sent what it had no credit for.
    /// - [`DataOverQueue`](Self::DataOverQueue): [`EndCircuit`](Advice::EndCircuit). No acknowledge makes room for it.
    /// - [`Unaccepted`](Self::Unaccepted): [`EndCircuit`](Advice::EndCircuit). Dropped, it would leave a hole once the
    ///   OPEN is accepted.
    /// - [`WindowOverOffered`](Self::WindowOverOffered): [`EndCircuit`](Advice::EndCircuit). The endpoint was told the
    ///   window that is offered.
    /// - [`ContextPending`](Self::ContextPending): [`EndConnection`](Advice::EndConnection). An answer under the
    ///   context would be taken for the other OPEN's.
    /// - [`ExpiryDiffers`](Self::ExpiryDiffers): [`MendHost`](Advice::MendHost). With the expiry that is recorded the
    ///   same OPEN passes.
    /// - [`RequesterContextZero`](Self::RequesterContextZero): [`MendHost`](Advice::MendHost). The tables are wrong,
    ///   not the sender.
    pub fn advice(self) -> Advice {
        match self {
            Self::Actions { .. } | Self::Queue { .. } => Advice::OfferAgain,
            Self::PendingFull { .. }
            | Self::CircuitsFull { .. }
            | Self::RequesterWork { .. }
            | Self::NotAdmitted
            | Self::GrantOver { .. }
            | Self::EndpointIsRequester
            | Self::EndpointWork { .. }
            | Self::ReservationWork { .. }
            | Self::ReservationSpent { .. }
            | Self::Disabled { opening: true } => Advice::TurnDown,
            Self::NotPending | Self::AcceptLate { .. } | Self::NoCircuit | Self::Disabled { opening: false } => {
                Advice::Late
            }
            Self::NoLedgerRecord
            | Self::CircuitBytes { .. }
            | Self::TotalBytes { .. }
            | Self::Credit { .. }
            | Self::DataOverQueue { .. }
            | Self::CreditOverMost { .. }
            | Self::Unaccepted
            | Self::WindowOverOffered { .. } => Advice::EndCircuit,
            Self::Packet(_)
            | Self::Body(_)
            | Self::Opcode
            | Self::OtherPeer
            | Self::ContextPending
            | Self::NamesTwo => Advice::EndConnection,
            Self::EndedActions { .. } | Self::EndedSequence => Advice::TellOtherSide,
            Self::TablesShort
            | Self::WordsShort
            | Self::SourceName { .. }
            | Self::Clock { .. }
            | Self::EndpointName { .. }
            | Self::Draws
            | Self::Deadline
            | Self::LedgerFull { .. }
            | Self::ExpiryDiffers { .. }
            | Self::Sequence
            | Self::RequesterContextZero => Advice::MendHost,
        }
    }
}

impl Display for ActionLimit {
    fn fmt(&self, f: &mut Formatter<'_>) -> fmt::Result {
        f.write_str(match self {
            Self::Relay => "in the relay",
            Self::Circuit => "about the circuit",
            Self::Peer => "toward the peer",
        })
    }
}

impl Display for Row {
    fn fmt(&self, f: &mut Formatter<'_>) -> fmt::Result {
        match self {
            Self::TablesShort => write!(f, "a table is shorter than its limit"),
            Self::WordsShort => write!(f, "the output words are too few"),
            Self::SourceName { length } => write!(f, "the sender's name has {length} bytes"),
            Self::Packet(cause) => write!(f, "the packet: {cause}"),
            Self::Clock { high_water, now } => write!(f, "the time {now} is behind {high_water}"),
            Self::Disabled { .. } => write!(f, "the relay is switched off"),
            Self::Opcode => write!(f, "the relay takes no such packets"),
            Self::PendingFull { most } => write!(f, "{most} OPENs wait, and no more may"),
            Self::CircuitsFull { most } => write!(f, "there are {most} circuits, and no more may be"),
            Self::RequesterWork { most } => write!(f, "the requester is a side of {most}, and of no more may be"),
            Self::ContextPending => write!(f, "an OPEN of the requester waits under this context"),
            Self::Body(cause) => write!(f, "the body: {cause}"),
            Self::NotAdmitted => write!(f, "the OPEN is not admitted"),
            Self::GrantOver { expires_at, now } => write!(f, "the grant ended at {expires_at}, and it is {now}"),
            Self::EndpointName { length } => write!(f, "the endpoint's name has {length} bytes"),
            Self::EndpointIsRequester => write!(f, "the endpoint is the requester"),
            Self::EndpointWork { most } => write!(f, "the endpoint is a side of {most}, and of no more may be"),
            Self::ReservationWork { most } => write!(f, "the reservation may have {most} circuits, and has them"),
            Self::Draws => write!(f, "no id could be drawn"),
            Self::Actions { of, most } => write!(f, "{most} routes {of} are unacknowledged, and no more may be"),
            Self::Deadline => write!(f, "the deadline would pass 2^64 - 1"),
            Self::LedgerFull { places } => write!(f, "all {places} places of the ledger are in use"),
            Self::ExpiryDiffers { recorded, granted } => {
                write!(f, "the reservation ends at {recorded} in the ledger, and at {granted} in the grant")
            }
            Self::ReservationSpent { used, most } => {
                write!(f, "the reservation has passed {used} bytes, of {most} in the grant")
            }
            Self::NotPending => write!(f, "no OPEN waits under this id"),
            Self::OtherPeer => write!(f, "the sender is not a side of it"),
            Self::AcceptLate { due, now } => write!(f, "the ACCEPT was due before {due}, and it is {now}"),
            Self::WindowOverOffered { offered, accepted } => {
                write!(f, "a window of {offered} was offered, and {accepted} is accepted")
            }
            Self::Unaccepted => write!(f, "the OPEN under this id is not accepted yet"),
            Self::NoCircuit => write!(f, "no circuit has this id"),
            Self::NoLedgerRecord => write!(f, "the ledger has no record of the circuit's reservation"),
            Self::CircuitBytes { left, asked } => write!(f, "{asked} bytes, and the circuit has {left} left"),
            Self::TotalBytes { left, asked } => write!(f, "{asked} bytes, and the reservation has {left} left"),
            Self::Credit { left, asked } => write!(f, "{asked} bytes, and the sender's credit is {left}"),
            Self::DataOverQueue { most, asked } => write!(f, "{asked} bytes, and the whole queue has {most}"),
            Self::Queue { left, asked } => write!(f, "{asked} bytes, and the queue has room for {left}"),
            Self::CreditOverMost { left, asked } => {
                write!(f, "a credit of {asked} is added, and the other side may have {left} more")
            }
            Self::NamesTwo => write!(f, "two OPENs that wait fit"),
            Self::EndedActions { of, most } => {
                write!(f, "it has ended, untold: {most} routes {of} are unacknowledged, and no more may be")
            }
            Self::EndedSequence => write!(f, "it has ended, untold: there is no number for a route"),
            Self::Sequence => write!(f, "all is written, but there is no number for the route"),
            Self::RequesterContextZero => write!(f, "all is written, but the requester's context is zero"),
        }
    }
}
