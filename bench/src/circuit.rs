//! The circuits of a run, and the messages about them.
use crate::call::{Refusal, SIZES};
use crate::side::{Message, Name};
use lekchnam_host::HnsrOpcode;
use lekchnam_traces::Grant;

/// The window that each OPEN offers and each ACCEPT takes.
const WINDOW: u32 = 65_536;

/// One circuit: everything about it follows from its number, so both sides are given the same.
#[derive(Clone, Copy)]
pub struct Circuit {
    pub requester: Name,
    pub endpoint: Name,
    pub id: [u8; 8],
    context: [u8; 8],
}

/// A name as the Rust advises: the connection's number behind the generation that it is bound to.
fn name(number: u64) -> Name {
    let mut name = [7; 16];
    name[8..].copy_from_slice(&number.to_be_bytes());
    name
}

impl Circuit {
    /// A circuit between two peers. The multiplier spreads ids as a random source would.
    pub fn new(number: u64, requester: u64, endpoint: u64) -> Self {
        let id = (number + 1).wrapping_mul(0x9e37_79b9_7f4a_7c15);
        Self {
            requester: name(requester),
            endpoint: name(endpoint),
            id: id.to_be_bytes(),
            context: (number + 1).to_be_bytes(),
        }
    }

    /// An endpoint has one reservation, named like itself.
    fn grant(&self) -> Grant {
        Grant {
            endpoint: self.endpoint.to_vec(),
            reservation_id: self.endpoint,
            expires_at: u64::MAX,
            max_active_circuits: u16::MAX,
            max_bytes_per_circuit: u64::MAX,
            max_total_bytes: u64::MAX,
        }
    }

    /// Ticket, reservation, key, profile, nonce, window.
    pub fn open(&self) -> Message {
        let window = WINDOW.to_le_bytes();
        let body = [&[1; 32][..], &self.endpoint, &[2; 33], &[1, 0], &[3; 16], &window].concat();
        Message {
            source: self.requester,
            opcode: HnsrOpcode::Open,
            context: self.context,
            body,
            grant: Some(self.grant()),
        }
    }

    pub fn accept(&self) -> Message {
        self.message(self.endpoint, HnsrOpcode::Accept, [&WINDOW.to_le_bytes()[..], &[4; 16]].concat())
    }

    pub fn data(&self, source: Name, size: usize) -> Message {
        self.message(source, HnsrOpcode::Data, vec![5; size])
    }

    /// What the endpoint sends when it has taken so many bytes.
    pub fn window(&self, delta: usize) -> Message {
        self.message(self.endpoint, HnsrOpcode::Window, (delta as u32).to_le_bytes().to_vec())
    }

    pub fn close(&self) -> Message {
        self.message(self.requester, HnsrOpcode::Close, vec![0, 0, 0])
    }

    /// The CLOSE of a requester that does not wait for the ACCEPT.
    pub fn cancel(&self) -> Message {
        Message { context: self.context, ..self.close() }
    }

    /// A packet that is refused. Nothing goes by the context of an OPEN but the OPEN.
    pub fn refused(&self, refusal: Refusal) -> Message {
        match refusal {
            Refusal::Circuit => Message { context: self.context, ..self.data(self.requester, SIZES[1]) },
            Refusal::Body => self.message(self.endpoint, HnsrOpcode::Window, vec![0; 3]),
            Refusal::Request => Message { context: self.context, ..self.accept() },
            Refusal::Opcode => self.message(self.endpoint, HnsrOpcode::Opened, Vec::new()),
        }
    }

    fn message(&self, source: Name, opcode: HnsrOpcode, body: Vec<u8>) -> Message {
        Message { source, opcode, context: self.id, body, grant: None }
    }
}
