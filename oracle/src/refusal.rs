//! Refusals by their numbers (ANS.5), with the cause of a 1 and the Rust's words.
use hns_encoding::DecodeError;
use hns_hnsr_protocol::runtime::{NOT_ACTIVE, REFUSED};
use hns_hnsr_protocol::{HnsrProtocolError, HnsrRuntimeError};
use lekchnam_traces::Cause;

/// Numbers 1 to 21 in the order of `HnsrRuntimeError`; the text is the Rust's own.
#[derive(Clone, Debug, Eq, PartialEq)]
pub struct Refusal {
    pub number: u8,
    pub cause: Cause,
    pub text: String,
}

fn cause(error: HnsrProtocolError) -> Cause {
    match error {
        HnsrProtocolError::Decode(DecodeError::UnexpectedEnd { offset, needed }) => {
            Cause::End { offset, missing: needed }
        }
        HnsrProtocolError::Decode(DecodeError::TrailingBytes { remaining }) => Cause::Trailing { count: remaining },
        HnsrProtocolError::Invalid(REFUSED | NOT_ACTIVE) => Cause::Admission,
        HnsrProtocolError::Invalid(text) => Cause::Invalid(text.to_owned()),
        HnsrProtocolError::TooLarge { actual, maximum } => Cause::TooLarge { actual, maximum },
        other => Cause::Other(other.to_string()),
    }
}

fn number(error: &HnsrRuntimeError) -> u8 {
    use HnsrRuntimeError::*;
    match error {
        Protocol(_) => 1,
        InvalidConfig => 2,
        InvalidSession => 3,
        InvalidPeer => 4,
        StaleGeneration => 5,
        GenerationExhausted => 6,
        ClockRollback => 7,
        Randomness => 8,
        Disabled => 9,
        Capacity => 10,
        InvalidAdmission => 11,
        Deadline => 12,
        UnknownRequest => 13,
        UnknownCircuit => 14,
        WrongPeer => 15,
        UnexpectedOpcode => 16,
        FlowControl => 17,
        ByteLimit => 18,
        NoQueuedData => 19,
        UnknownAction => 20,
        CorruptSnapshot => 21,
    }
}

impl From<HnsrRuntimeError> for Refusal {
    fn from(error: HnsrRuntimeError) -> Self {
        let (number, text) = (number(&error), error.to_string());
        let cause = match error {
            HnsrRuntimeError::Protocol(inner) => cause(inner),
            _ => Cause::None,
        };
        Self { number, cause, text }
    }
}

impl From<HnsrProtocolError> for Refusal {
    fn from(error: HnsrProtocolError) -> Self {
        HnsrRuntimeError::Protocol(error).into()
    }
}
