//! The sides of circuits and of OPENs that wait, and who of them was not told of an end.
use crate::body::{CloseBody, ProtocolError};
use crate::lent::{RelayCircuit, RelayPending, ReservationId, Runtime, StoredPeer, Tables};
use crate::owned::{HnsrPacketBuf, HnsrRouteBuf};
use crate::packet::{HnsrOpcode, HnsrPacket};
use crate::peer::HnsrPeerId;
use crate::route::Routes;

/// A side of a circuit, or of an OPEN that waits.
#[derive(Clone, Copy, Debug, Eq, Hash, PartialEq)]
pub struct CircuitSide {
    /// Who it is.
    pub peer: HnsrPeerId,
    /// By what it knows the circuit: its id, but to the requester of an OPEN that waits the context of that OPEN.
    pub context_id: [u8; 8],
}

impl CircuitSide {
    /// A CLOSE for it, of the host's own: the relay does not count it, and there is nothing to acknowledge.
    pub fn close(&self, reason: u16, detail: &str) -> Result<HnsrRouteBuf, ProtocolError> {
        let body = CloseBody { reason, detail }.encode()?;
        let packet = HnsrPacketBuf { opcode: HnsrOpcode::Close, context_id: self.context_id, body };
        Ok(HnsrRouteBuf { destination: self.peer, packet })
    }

    fn new(peer: &StoredPeer, context: u64) -> Self {
        Self { peer: HnsrPeerId::found(peer), context_id: context.to_be_bytes() }
    }

    /// Whether it can be told: only tables that a host put together have a name of no bytes, or a context of zero.
    pub(crate) fn hears(&self) -> bool {
        !self.peer.as_bytes().is_empty() && self.context_id != [0; 8]
    }
}

/// Where a record stands.
#[derive(Clone, Copy)]
enum Place {
    Pending(usize),
    Circuit(usize),
}

/// An OPEN that waits, or a circuit.
#[derive(Clone, Copy)]
pub struct Record {
    place: Place,
    pub requester: CircuitSide,
    pub endpoint: CircuitSide,
}

impl Record {
    /// Those that fit: OPENs that wait, then circuits.
    pub fn those<'a>(
        tables: &'a Tables,
        pending: impl Fn(&RelayPending) -> bool + 'a,
        circuit: impl Fn(&RelayCircuit) -> bool + 'a,
    ) -> impl Iterator<Item = Self> + 'a {
        let seen = tables.in_use();
        let pending = seen.pending.iter().enumerate().filter(move |(_, record)| record.used && pending(record));
        let circuits = seen.circuits.iter().enumerate().filter(move |(_, record)| record.used && circuit(record));
        pending.map(Self::pending).chain(circuits.map(Self::circuit))
    }

    fn pending((place, record): (usize, &RelayPending)) -> Self {
        let (id, context) = (record.circuit_id, record.requester_context);
        let (requester, endpoint) = (&record.requester, &record.endpoint);
        let (requester, endpoint) = (CircuitSide::new(requester, context), CircuitSide::new(endpoint, id));
        Self { place: Place::Pending(place), requester, endpoint }
    }

    fn circuit((place, record): (usize, &RelayCircuit)) -> Self {
        let id = record.circuit_id;
        let (requester, endpoint) = (CircuitSide::new(&record.requester, id), CircuitSide::new(&record.endpoint, id));
        Self { place: Place::Circuit(place), requester, endpoint }
    }

    /// Whether it waits.
    pub fn waits(&self) -> bool {
        matches!(self.place, Place::Pending(_))
    }

    /// Whether it is still there.
    pub fn stands(&self, tables: &Tables) -> bool {
        let seen = tables.in_use();
        match self.place {
            Place::Pending(place) => seen.pending.get(place).is_some_and(|record| record.used),
            Place::Circuit(place) => seen.circuits.get(place).is_some_and(|record| record.used),
        }
    }
}

/// By what a call ends records.
#[derive(Clone, Copy)]
pub enum Cause<'a> {
    /// A CLOSE or an ERROR, and its sender.
    Said(&'a HnsrPeerId, HnsrPacket<'a>),
    /// An INCOMING that was not delivered: its id.
    LostIncoming(u64),
    /// Another route that was not delivered: its id.
    Lost(u64),
    /// A peer that is gone.
    Gone(&'a HnsrPeerId),
    /// A reservation that is revoked.
    Revoked(ReservationId),
    /// The time.
    Expired(u64),
    /// The switch.
    Switched,
}

impl Cause<'_> {
    /// How many records end at the most.
    fn most(&self, records: usize) -> usize {
        match self {
            Self::Said(..) | Self::LostIncoming(_) | Self::Lost(_) => 1,
            Self::Gone(_) | Self::Revoked(_) | Self::Expired(_) | Self::Switched => records,
        }
    }

    /// Whether this may end an OPEN that waits.
    fn of_pending(&self, record: &RelayPending) -> bool {
        match self {
            Self::Said(_, packet) => {
                [record.circuit_id, record.requester_context].contains(&u64::from_be_bytes(packet.context_id))
            }
            Self::LostIncoming(id) => record.circuit_id == *id,
            Self::Lost(_) => false,
            Self::Gone(peer) => has_side(peer, &record.requester, &record.endpoint),
            Self::Revoked(id) => record.ticket.reservation_id == *id,
            Self::Expired(now) => record.deadline.min(record.ticket.expires_at) <= *now,
            Self::Switched => true,
        }
    }

    /// Whether this may end a circuit.
    fn of_circuit(&self, record: &RelayCircuit) -> bool {
        match self {
            Self::Said(_, packet) => record.circuit_id == u64::from_be_bytes(packet.context_id),
            Self::LostIncoming(_) => false,
            Self::Lost(id) => record.circuit_id == *id,
            Self::Gone(peer) => has_side(peer, &record.requester, &record.endpoint),
            Self::Revoked(id) => record.reservation_id == *id,
            Self::Expired(now) => record.expires_at <= *now,
            Self::Switched => true,
        }
    }

    /// The sides that are to hear of the end of such a record.
    fn told(&self, record: &Record) -> Vec<CircuitSide> {
        let (requester, endpoint) = (record.requester, record.endpoint);
        match *self {
            Self::Said(peer, packet) => {
                let sender = CircuitSide { peer: *peer, context_id: packet.context_id };
                if requester == sender {
                    vec![endpoint]
                } else if endpoint == sender {
                    vec![requester]
                } else {
                    Vec::new()
                }
            }
            Self::LostIncoming(_) => vec![requester],
            Self::Gone(peer) => [requester, endpoint].into_iter().filter(|side| side.peer != *peer).collect(),
            Self::Lost(_) | Self::Revoked(_) | Self::Expired(_) | Self::Switched => vec![requester, endpoint],
        }
    }
}

fn has_side(peer: &HnsrPeerId, requester: &StoredPeer, endpoint: &StoredPeer) -> bool {
    [requester, endpoint].iter().any(|side| side.as_bytes() == peer.as_bytes())
}

/// The records that a call may end, as they are before it, each with the sides that are to hear.
#[derive(Default)]
pub struct Standing(Vec<(Record, Vec<CircuitSide>)>);

impl Standing {
    /// None where every notice will find its room: then no record is looked at.
    pub fn before(tables: &Tables, runtime: &Runtime, cause: Cause<'_>) -> Self {
        if has_room(tables, runtime, cause) {
            return Self::default();
        }
        let records = Record::those(tables, |record| cause.of_pending(record), |record| cause.of_circuit(record));
        Self(records.map(|record| (record, cause.told(&record))).collect())
    }

    /// The sides of what has ended since that no route tells.
    pub fn untold(self, tables: &Tables, routes: Routes<'_>) -> Vec<CircuitSide> {
        let untold = |side: &CircuitSide| {
            let routes = routes.iter().map(|queued| queued.route);
            side.hears()
                && !routes
                    .map(|route| (route.destination, route.packet.context_id))
                    .any(|to| to == (side.peer, side.context_id))
        };
        let ended = self.0.into_iter().filter(|(record, _)| !record.stands(tables));
        ended.flat_map(|(_, sides)| sides).filter(untold).collect()
    }
}

/// Whether there are places and numbers for two notices of every record that may end. About one circuit there always
/// are: its actions go with it, and two is the least limit.
fn has_room(tables: &Tables, runtime: &Runtime, cause: Cause<'_>) -> bool {
    let (seen, limits) = (tables.in_use(), &runtime.config);
    let notices = cause.most(seen.pending.len() + seen.circuits.len()).saturating_mul(2);
    let actions = seen.inflight.len().saturating_add(notices);
    actions <= limits.maximum_inflight_actions
        && actions <= limits.maximum_inflight_actions_per_peer
        && limits.maximum_inflight_actions_per_circuit >= 2
        && runtime.next_action_sequence.checked_add(notices as u64).is_some()
}
