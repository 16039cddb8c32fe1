//! A call with all its inputs.
use crate::Config;
use lekchnam_host::HnsrOpcode;
use lekchnam_host::lent::RelayTicket;
use lekchnam_host::limits::{CLOSING_WORDS, HANDLE_WORDS};

/// What a host grants with an OPEN that it admits (HOST.5).
#[derive(Clone, Debug, Eq, PartialEq)]
pub struct Grant {
    pub endpoint: Vec<u8>,
    pub reservation_id: [u8; 16],
    pub expires_at: u64,
    pub max_active_circuits: u16,
    pub max_bytes_per_circuit: u64,
    pub max_total_bytes: u64,
}

impl Grant {
    /// All but the name, as the library takes it.
    pub fn ticket(&self) -> RelayTicket {
        RelayTicket {
            reservation_id: self.reservation_id.into(),
            expires_at: self.expires_at,
            max_active_circuits: self.max_active_circuits,
            max_bytes_per_circuit: self.max_bytes_per_circuit,
            max_total_bytes: self.max_total_bytes,
        }
    }
}

#[derive(Clone, Debug, Eq, PartialEq)]
#[rustfmt::skip]
pub enum Call {
    New { session: [u8; 16], generation: u64, config: Config, now: u64 },
    Handle {
        source: Vec<u8>,
        opcode: u8,
        context: [u8; 8],
        body: Vec<u8>,
        now: u64,
        key_valid: bool,
        admission: Option<Grant>,
        random: Vec<u8>,
    },
    Acknowledge { generation: u64, sequence: u64, delivered: bool },
    Disconnect { peer: Vec<u8> },
    Revoke { reservation: [u8; 16] },
    Expire { now: u64 },
    Observe { now: u64 },
    Replace { expected: u64, enabled: bool },
    /// Not a call of a relay.
    Poke { sequence: u64 },
}

/// `d` in the domain (DOMAIN.2); `e` refused at entry by `HnsrPeerId::new` or `HnsrPacket::new`; `g` grant not after
/// now; `o` opcode 21 up, answered as opcode 0 (HANDLE.3, not the Rust); `p` poke.
pub type Class = char;

pub const CLASSES: [Class; 5] = ['d', 'e', 'g', 'o', 'p'];

impl Call {
    pub fn name(&self) -> &'static str {
        match self {
            Self::New { .. } => "new",
            Self::Handle { .. } => "handle",
            Self::Acknowledge { .. } => "acknowledge",
            Self::Disconnect { .. } => "disconnect",
            Self::Revoke { .. } => "revoke_reservation",
            Self::Expire { .. } => "expire",
            Self::Observe { .. } => "observe_time",
            Self::Replace { .. } => "replace_enabled",
            Self::Poke { .. } => "poke_sequence",
        }
    }

    /// The message of a packet.
    pub fn message(&self) -> Option<HnsrOpcode> {
        match self {
            Self::Handle { opcode, .. } => Some((*opcode).into()),
            _ => None,
        }
    }

    /// The message of a packet by its name, else the call's name.
    pub fn label(&self) -> &'static str {
        use HnsrOpcode::*;
        match self.message() {
            Some(Open) => "OPEN",
            Some(Accept) => "ACCEPT",
            Some(Data) => "DATA",
            Some(Window) => "WINDOW",
            Some(Close) => "CLOSE",
            Some(Error) => "ERROR",
            Some(Unknown(_)) => "opcode 21+",
            Some(_) => "opcode other",
            None => self.name(),
        }
    }

    /// The output words that it needs where there are so many pending records and circuits (OUT.8).
    pub fn words_needed(&self, records: usize) -> usize {
        match self {
            Self::Handle { .. } => HANDLE_WORDS,
            Self::Acknowledge { .. } => CLOSING_WORDS,
            Self::Disconnect { .. } | Self::Revoke { .. } | Self::Expire { .. } | Self::Replace { .. } => {
                CLOSING_WORDS * records
            }
            Self::New { .. } | Self::Observe { .. } | Self::Poke { .. } => 0,
        }
    }
}
