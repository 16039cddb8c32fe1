//! What a host does with a refusal.
use super::{HnsrRuntimeError, ProtocolError};
use crate::packet::HnsrOpcode;
use std::fmt::{self, Display, Formatter};

/// What a host does with a refusal: [`HnsrRuntimeError::advice`] has the table, [`Row::advice`](crate::Row::advice) is
/// exact where the number is not.
///
/// Of a circuit's DATA none may be skipped: a DATA that is refused is offered again, or its circuit ends. Else there is
/// a hole in the stream, and nobody sees it. A WINDOW that is skipped is credit that the other side never has.
#[derive(Clone, Copy, Debug, Eq, Hash, PartialEq)]
pub enum Advice {
    /// Nothing: what the call was about ended before its word came. A normal race.
    Forget,
    /// Hold the packet and offer it again after each [`acknowledge`](crate::OpaqueRelayRuntime::acknowledge), and after
    /// every other call that ends something. Until it is taken, take nothing later of its connection.
    OfferAgain,
    /// What an OPEN or an ACCEPT asks for cannot be had now, and the relay tells nobody. An OPEN's sender is answered
    /// by an ERROR of the host's own, under the packet's context. After an ACCEPT the OPEN goes on waiting:
    /// [`end_circuit`](crate::OpaqueRelayRuntime::end_circuit) ends it and has a CLOSE for both sides.
    TurnDown,
    /// Drop the packet: what it names has ended, or is about to, and its sides hear of that
    /// ([`outgoing`](crate::OpaqueRelayRuntime::outgoing)); or, of a CLOSE under an OPEN's context, has been accepted
    /// before. A normal race.
    Late,
    /// End the circuit, or the OPEN that waits, that the packet names, by
    /// [`end_circuit`](crate::OpaqueRelayRuntime::end_circuit). The sender is a side of it.
    EndCircuit,
    /// Drop the packet and end the sender's connection, then
    /// [`disconnect`](crate::OpaqueRelayRuntime::disconnect) it: it does not keep to the protocol. The packet may name
    /// a circuit of others, so what is ended is the sender's, never what the packet names.
    EndConnection,
    /// The call was refused, and what it was about has ended all the same, but no route tells the other side: the host
    /// does, by what [`outgoing`](crate::OpaqueRelayRuntime::outgoing) has. The packet must not be offered again.
    TellOtherSide,
    /// Nothing is wrong with the packet: what the host gave beside it is, or how it made the relay. Mend that, then
    /// offer the packet again; or turn it down and end its circuit. But where all is written (6, and
    /// [`RequesterContextZero`](crate::Row::RequesterContextZero)) never offer it again: what it did stays.
    MendHost,
}

impl Advice {
    /// All.
    pub const ALL: [Self; 8] = [
        Self::Forget,
        Self::OfferAgain,
        Self::TurnDown,
        Self::Late,
        Self::EndCircuit,
        Self::EndConnection,
        Self::TellOtherSide,
        Self::MendHost,
    ];
}

impl Display for Advice {
    fn fmt(&self, f: &mut Formatter<'_>) -> fmt::Result {
        f.write_str(match self {
            Self::Forget => "nothing to do: it had ended before",
            Self::OfferAgain => "hold the packet and offer it again after each acknowledge",
            Self::TurnDown => "it cannot be had now: tell the sender of an OPEN so, end what an ACCEPT names",
            Self::Late => "drop the packet: what it names has ended",
            Self::EndCircuit => "end the circuit",
            Self::EndConnection => "drop the packet and end the sender's connection",
            Self::TellOtherSide => "it has ended: tell the other side, and do not offer the packet again",
            Self::MendHost => "mend what the host gave; unless all is written, offer the packet again",
        })
    }
}

impl HnsrRuntimeError {
    /// What a host does with this refusal of `handle`, by the packet's opcode, or of another call, by none.
    ///
    /// | refused | call or packet | advice |
    /// |---|---|---|
    /// | 1 | OPEN that is not admitted | [`TurnDown`](Advice::TurnDown) |
    /// | 1 | any other packet | [`EndConnection`](Advice::EndConnection) |
    /// | 1 | `acknowledge` | [`TellOtherSide`](Advice::TellOtherSide) |
    /// | 2, 3, 4, 7, 8, 12, 22, 23 | every | [`MendHost`](Advice::MendHost) |
    /// | 5, 20 | `acknowledge`, `replace_enabled` | [`Forget`](Advice::Forget) |
    /// | 6 | CLOSE, ERROR | [`TellOtherSide`](Advice::TellOtherSide) |
    /// | 6 | every other | [`MendHost`](Advice::MendHost) |
    /// | 9 | OPEN | [`TurnDown`](Advice::TurnDown) |
    /// | 9 | any other packet | [`Late`](Advice::Late) |
    /// | 10 | OPEN, ACCEPT | [`TurnDown`](Advice::TurnDown) |
    /// | 10 | DATA, WINDOW | [`OfferAgain`](Advice::OfferAgain) |
    /// | 10 | CLOSE, ERROR, `acknowledge` | [`TellOtherSide`](Advice::TellOtherSide) |
    /// | 11 | ACCEPT | [`Late`](Advice::Late) |
    /// | 11 | DATA | [`EndCircuit`](Advice::EndCircuit) |
    /// | 11 | CLOSE, ERROR | [`EndConnection`](Advice::EndConnection) |
    /// | 13, 14 | every packet | [`Late`](Advice::Late) |
    /// | 15, 16 | every packet | [`EndConnection`](Advice::EndConnection) |
    /// | 17 | DATA | [`OfferAgain`](Advice::OfferAgain) |
    /// | 17 | WINDOW | [`EndCircuit`](Advice::EndCircuit) |
    /// | 18 | OPEN | [`TurnDown`](Advice::TurnDown) |
    /// | 18 | DATA | [`EndCircuit`](Advice::EndCircuit) |
    ///
    /// This is what to do without the row. Where rows of one number differ,
    /// [`why`](crate::OpaqueRelayRuntime::why) says which it was and [`Row::advice`](crate::Row::advice) is exact: a
    /// DATA that its sender had no credit for (17), or that is longer than the whole queue, would be held for nothing,
    /// and the row says to end the circuit.
    ///
    /// A 5 of `replace_enabled` says that somebody was faster: look at the status and decide again.
    ///
    /// 16 is also what a packet of another part of the protocol gets: a host that serves reservations hands it on there
    /// before it asks the relay.
    ///
    /// ```
    /// use lekchnam_host::{Advice, HnsrOpcode, HnsrRuntimeError};
    ///
    /// assert_eq!(HnsrRuntimeError::UnknownAction.advice(None), Advice::Forget);
    /// assert_eq!(HnsrRuntimeError::Capacity.advice(Some(HnsrOpcode::Data)), Advice::OfferAgain);
    /// assert_eq!(HnsrRuntimeError::Capacity.advice(Some(HnsrOpcode::Open)), Advice::TurnDown);
    /// assert_eq!(HnsrRuntimeError::ByteLimit.advice(Some(HnsrOpcode::Data)).to_string(), "end the circuit");
    /// ```
    pub fn advice(self, opcode: Option<HnsrOpcode>) -> Advice {
        use HnsrOpcode::{Accept, Close, Data, Error, Open, Window};
        match (self, opcode) {
            (Self::StaleGeneration | Self::UnknownAction, _) => Advice::Forget,
            (Self::Capacity, Some(Data | Window)) | (Self::FlowControl, Some(Data)) => Advice::OfferAgain,
            (Self::Protocol(ProtocolError::Admission), Some(Open))
            | (Self::Capacity, Some(Open | Accept))
            | (Self::Disabled | Self::ByteLimit, Some(Open)) => Advice::TurnDown,
            (Self::UnknownRequest | Self::UnknownCircuit | Self::Disabled, Some(_))
            | (Self::InvalidAdmission, Some(Accept)) => Advice::Late,
            (Self::InvalidAdmission | Self::ByteLimit, Some(Data)) | (Self::FlowControl, Some(Window)) => {
                Advice::EndCircuit
            }
            (Self::Capacity | Self::GenerationExhausted, Some(Close | Error))
            | (Self::Capacity | Self::Protocol(_), None) => Advice::TellOtherSide,
            (Self::Protocol(_) | Self::WrongPeer | Self::UnexpectedOpcode, Some(_))
            | (Self::InvalidAdmission, Some(Close | Error)) => Advice::EndConnection,
            _ => Advice::MendHost,
        }
    }
}
