//! What is measured, and in which turns.
use lekchnam_host::limits::MAX_DATA_SIZE;

/// The bytes of the DATA that is measured.
pub const SIZES: [usize; 3] = [1, 1_024, MAX_DATA_SIZE];

#[derive(Clone, Copy, Debug, Eq, PartialEq)]
pub enum Call {
    Open,
    Accept,
    /// By its place in `SIZES`.
    Data(usize),
    Window,
    Acknowledge,
    /// DATA of the middle size and its acknowledge together: what a delivered packet costs.
    Delivered,
    Close,
    Disconnect,
    Expire,
    Status,
    Refused(Refusal),
}

/// Packets that are refused, each for another reason.
#[derive(Clone, Copy, Debug, Eq, PartialEq)]
pub enum Refusal {
    /// DATA of the middle size for a circuit that there is not.
    Circuit,
    /// A WINDOW that is a byte too short.
    Body,
    /// ACCEPT of an OPEN that nobody made.
    Request,
    /// OPENED, which only the relay sends.
    Opcode,
}

impl Refusal {
    pub const ALL: [Self; 4] = [Self::Circuit, Self::Body, Self::Request, Self::Opcode];

    fn label(self) -> &'static str {
        match self {
            Self::Circuit => "refused with 14: DATA of an unknown circuit",
            Self::Body => "refused with 1: WINDOW of three bytes",
            Self::Request => "refused with 13: ACCEPT of an unknown request",
            Self::Opcode => "refused with 16: OPENED",
        }
    }
}

impl Call {
    pub const ALL: [Self; 16] = [
        Self::Open,
        Self::Accept,
        Self::Data(0),
        Self::Data(1),
        Self::Data(2),
        Self::Window,
        Self::Acknowledge,
        Self::Delivered,
        Self::Close,
        Self::Disconnect,
        Self::Expire,
        Self::Status,
        Self::Refused(Refusal::Circuit),
        Self::Refused(Refusal::Body),
        Self::Refused(Refusal::Request),
        Self::Refused(Refusal::Opcode),
    ];

    pub fn label(self) -> &'static str {
        match self {
            Self::Open => "OPEN",
            Self::Accept => "ACCEPT",
            Self::Data(0) => "DATA, 1 byte",
            Self::Data(1) => "DATA, 1,024 bytes",
            Self::Data(_) => "DATA, 16,384 bytes",
            Self::Window => "WINDOW",
            Self::Acknowledge => "acknowledge",
            Self::Delivered => "DATA, 1,024 bytes, and its acknowledge",
            Self::Close => "CLOSE",
            Self::Disconnect => "disconnect",
            Self::Expire => "expire",
            Self::Status => "status",
            Self::Refused(refusal) => refusal.label(),
        }
    }

    pub fn place(self) -> usize {
        Self::ALL.iter().position(|call| *call == self).expect("all are there")
    }
}

/// Calls after which a relay stands as before them.
#[derive(Clone, Copy, Debug)]
pub enum Turn {
    /// DATA of a size, acknowledged; WINDOW of as much, acknowledged.
    Traffic(usize),
    /// CLOSE, OPEN, ACCEPT, each acknowledged.
    Life,
    /// disconnect, acknowledged; OPEN and ACCEPT, acknowledged.
    Leave,
    /// expire with nothing due; status.
    Idle,
    /// One packet of each refusal.
    Refused,
}

impl Turn {
    pub const ALL: [Self; 7] =
        [Self::Traffic(0), Self::Traffic(1), Self::Traffic(2), Self::Life, Self::Leave, Self::Idle, Self::Refused];
}
