//! Packets and routes that own their bodies, for a host that keeps them past the next call.
use crate::body::{validate_packet, ProtocolError};
use crate::packet::{HnsrOpcode, HnsrPacket};
use crate::peer::HnsrPeerId;
use crate::route::{HnsrActionId, HnsrRoute, QueuedHnsrRoute, Routes};

/// A packet that owns its body: to [`HnsrPacket`] what `PathBuf` is to `Path`.
///
/// ```
/// use lekchnam_host::body::ProtocolError;
/// use lekchnam_host::{HnsrOpcode, HnsrPacket, HnsrPacketBuf};
///
/// let kept = HnsrPacketBuf::new(HnsrOpcode::Data, *b"circuit1", b"invoice".to_vec())?;
/// let lent: HnsrPacket<'_> = kept.as_packet();
/// assert_eq!(lent.to_buf(), kept);
/// # Ok::<(), ProtocolError>(())
/// ```
#[derive(Clone, Debug, Eq, Hash, PartialEq)]
pub struct HnsrPacketBuf {
    /// What it is.
    pub opcode: HnsrOpcode,
    /// The circuit that it is about, or the request.
    pub context_id: [u8; 8],
    /// The rest.
    pub body: Vec<u8>,
}

impl HnsrPacketBuf {
    /// A packet that is not too large and has a context where it must.
    pub fn new(opcode: HnsrOpcode, context_id: [u8; 8], body: Vec<u8>) -> Result<Self, ProtocolError> {
        validate_packet(opcode.into(), context_id, body.len())?;
        Ok(Self { opcode, context_id, body })
    }

    /// The packet, its body lent.
    pub fn as_packet(&self) -> HnsrPacket<'_> {
        HnsrPacket { opcode: self.opcode, context_id: self.context_id, body: &self.body }
    }
}

impl HnsrPacket<'_> {
    /// A packet of its own, with a copy of the body.
    pub fn to_buf(self) -> HnsrPacketBuf {
        HnsrPacketBuf { opcode: self.opcode, context_id: self.context_id, body: self.body.to_vec() }
    }
}

/// A packet that owns its body, and the peer that it goes to.
#[derive(Clone, Debug, Eq, Hash, PartialEq)]
pub struct HnsrRouteBuf {
    /// The peer.
    pub destination: HnsrPeerId,
    /// The packet.
    pub packet: HnsrPacketBuf,
}

impl HnsrRouteBuf {
    /// The route, its packet's body lent.
    pub fn as_route(&self) -> HnsrRoute<'_> {
        HnsrRoute { destination: self.destination, packet: self.packet.as_packet() }
    }
}

impl HnsrRoute<'_> {
    /// A route of its own, with a copy of the body.
    pub fn to_buf(self) -> HnsrRouteBuf {
        HnsrRouteBuf { destination: self.destination, packet: self.packet.to_buf() }
    }
}

/// A route that owns its packet's body, until it is sent and acknowledged.
#[derive(Clone, Debug, Eq, Hash, PartialEq)]
pub struct QueuedHnsrRouteBuf {
    /// Its number.
    pub action_id: HnsrActionId,
    /// What to send, and where.
    pub route: HnsrRouteBuf,
}

impl QueuedHnsrRouteBuf {
    /// The route, its packet's body lent.
    pub fn as_queued(&self) -> QueuedHnsrRoute<'_> {
        QueuedHnsrRoute { action_id: self.action_id, route: self.route.as_route() }
    }
}

impl QueuedHnsrRoute<'_> {
    /// A route of its own, with a copy of the body.
    pub fn to_buf(self) -> QueuedHnsrRouteBuf {
        QueuedHnsrRouteBuf { action_id: self.action_id, route: self.route.to_buf() }
    }
}

impl Routes<'_> {
    /// All, with copies of their bodies. So the relay is free for the next call, `acknowledge` for one.
    pub fn to_vec(self) -> Vec<QueuedHnsrRouteBuf> {
        self.iter().map(QueuedHnsrRoute::to_buf).collect()
    }
}

/// The two conversions of each pair.
macro_rules! conversions {
    ($($lent:ident, $owned:ident, $lend:ident;)+) => {$(
        impl From<$lent<'_>> for $owned {
            fn from(lent: $lent<'_>) -> Self {
                lent.to_buf()
            }
        }

        impl<'a> From<&'a $owned> for $lent<'a> {
            fn from(owned: &'a $owned) -> Self {
                owned.$lend()
            }
        }
    )+};
}

conversions! {
    HnsrPacket, HnsrPacketBuf, as_packet;
    HnsrRoute, HnsrRouteBuf, as_route;
    QueuedHnsrRoute, QueuedHnsrRouteBuf, as_queued;
}

/// A packet that a host is to send: a route of the relay, or a notice of the host's own.
#[derive(Clone, Debug, Eq, Hash, PartialEq)]
pub struct Outgoing {
    /// Of a route its number, to be acknowledged once it is written, or cannot be. A notice has none: nobody counts it.
    pub action_id: Option<HnsrActionId>,
    /// What to send, and where.
    pub route: HnsrRouteBuf,
}

impl From<QueuedHnsrRouteBuf> for Outgoing {
    fn from(queued: QueuedHnsrRouteBuf) -> Self {
        Self { action_id: Some(queued.action_id), route: queued.route }
    }
}

/// A notice.
impl From<HnsrRouteBuf> for Outgoing {
    fn from(route: HnsrRouteBuf) -> Self {
        Self { action_id: None, route }
    }
}
