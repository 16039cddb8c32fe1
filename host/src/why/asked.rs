//! The rows asked again, over the tables as the refusal left them.
//!
//! A refusal leaves what its row is about, but for four things. The clock has moved, and records of the ledger whose
//! time was over have gone: no row below asks for them. An OPEN has made its ledger record before expiry and bytes are
//! asked: a new record has the grant's expiry and no bytes. A CLOSE or an ERROR has ended its record before its route
//! is asked for. And where a route finds no number, or no context, all is written: then only these are asked again.
use super::row::{ActionLimit, Row};
use crate::body::{
    validate_packet, AcceptBody, CloseBody, DataBody, ErrorBody, Invalid, OpenBody, ProtocolError, WindowBody,
};
use crate::config::OpaqueRelayConfig;
use crate::error::HnsrRuntimeError as Refusal;
use crate::lent::{
    InUse, InflightAction, Packet, RelayCircuit, RelayPending, ReservationId, ReservationUsage, Runtime, StoredPeer,
    Tables,
};
use crate::limits::{MAXIMUM_PEER, MAX_WINDOW};
use crate::packet::HnsrOpcode;
use std::collections::HashMap;
use std::hash::Hash;

/// What a packet was refused over.
pub struct Asked<'a> {
    tables: &'a Tables,
    seen: InUse<'a>,
    runtime: &'a Runtime,
    packet: &'a Packet<'a>,
}

impl<'a> Asked<'a> {
    pub fn new(tables: &'a Tables, runtime: &'a Runtime, packet: &'a Packet<'a>) -> Self {
        Self { tables, seen: tables.in_use(), runtime, packet }
    }

    /// The first row that gives this refusal.
    pub fn row(&self, refused: Refusal) -> Option<Row> {
        use HnsrOpcode::{Accept, Close, Data, Error, Open, Window};
        let opcode = HnsrOpcode::from(self.packet.head.opcode);
        match (refused, opcode) {
            (Refusal::Short, _) => Some(self.short()),
            (Refusal::InvalidPeer, _) => self.name(opcode),
            (Refusal::Protocol(cause), _) => self.protocol(cause, opcode),
            (Refusal::ClockRollback, _) => self.clock(),
            (Refusal::Disabled, _) => (!self.runtime.enabled).then_some(Row::Disabled { opening: opcode == Open }),
            (Refusal::UnexpectedOpcode, Open | Accept | Data | Window | Close | Error) => None,
            (Refusal::UnexpectedOpcode, _) => Some(Row::Opcode),
            (Refusal::Capacity, Open) => self.open_capacity(),
            (Refusal::Randomness, Open) => Some(Row::Draws),
            (Refusal::Deadline, Open) => {
                self.now().checked_add(self.config().accept_timeout_seconds).is_none().then_some(Row::Deadline)
            }
            (Refusal::LedgerFull, Open) => self.ledger_full(),
            (Refusal::ByteLimit, Open) => self.usage(),
            (Refusal::UnknownRequest, Accept) => self.pending().is_none().then_some(Row::NotPending),
            (Refusal::WrongPeer, Accept) => (!self.is_sender(&self.pending()?.endpoint)).then_some(Row::OtherPeer),
            (Refusal::InvalidAdmission, Accept) => self.accept_late(),
            (Refusal::Capacity, Accept) => self.accept_capacity(),
            (Refusal::UnknownCircuit, Data | Window) if self.waits() => Some(Row::Unaccepted),
            (Refusal::UnknownCircuit, Data | Window | Close | Error) => {
                self.circuit().is_none().then_some(Row::NoCircuit)
            }
            (Refusal::WrongPeer, Data | Window | Close | Error) => {
                let circuit = self.circuit()?;
                let side = self.is_sender(&circuit.requester) || self.is_sender(&circuit.endpoint);
                (!side).then_some(Row::OtherPeer)
            }
            (Refusal::Capacity, Data | Window) => {
                let other = self.sides()?.1.peer;
                self.actions(Some(self.packet.head.context_id), other, |_| true)
            }
            (Refusal::InvalidAdmission, Data) => {
                self.usage_of(self.circuit()?.reservation_id).is_none().then_some(Row::NoLedgerRecord)
            }
            (Refusal::ByteLimit, Data) => self.data_bytes(),
            (Refusal::FlowControl, Data) => self.data_flow(),
            (Refusal::FlowControl, Window) => self.window_credit(),
            (Refusal::InvalidAdmission, Close | Error) => (self.named() >= 2).then_some(Row::NamesTwo),
            (Refusal::Capacity, Close | Error) => self.ended_actions(),
            (Refusal::GenerationExhausted, Close | Error) => self.numbers_gone().then_some(Row::EndedSequence),
            (Refusal::GenerationExhausted, Open | Accept | Data | Window) => {
                self.numbers_gone().then_some(Row::Sequence)
            }
            _ => None,
        }
    }

    fn config(&self) -> &'a OpaqueRelayConfig {
        &self.runtime.config
    }

    fn now(&self) -> u64 {
        self.packet.head.now
    }

    fn is_sender(&self, peer: &StoredPeer) -> bool {
        peer.as_bytes() == self.packet.source
    }

    // ---- entry, clock, and what every message may be refused by

    fn short(&self) -> Row {
        let (Tables { pending, circuits, inflight, .. }, limits) = (self.tables, self.config());
        let tables = pending.len() < limits.maximum_pending
            || circuits.len() < limits.maximum_circuits
            || inflight.len() < limits.maximum_inflight_actions;
        if tables {
            Row::TablesShort
        } else {
            Row::WordsShort
        }
    }

    fn name(&self, opcode: HnsrOpcode) -> Option<Row> {
        let wrong = |name: &[u8]| !(1..=MAXIMUM_PEER).contains(&name.len());
        let Packet { source, endpoint, .. } = self.packet;
        match (wrong(source), opcode) {
            (true, _) => Some(Row::SourceName { length: source.len() }),
            (false, HnsrOpcode::Open) if wrong(endpoint) => Some(Row::EndpointName { length: endpoint.len() }),
            _ => None,
        }
    }

    fn clock(&self) -> Option<Row> {
        let (high_water, now) = (self.runtime.trusted_time_high_water, self.now());
        (now < high_water).then_some(Row::Clock { high_water, now })
    }

    fn protocol(&self, cause: ProtocolError, opcode: HnsrOpcode) -> Option<Row> {
        let Packet { head, body, .. } = self.packet;
        let packet = validate_packet(head.opcode, head.context_id.to_be_bytes(), body.len());
        let read = match opcode {
            HnsrOpcode::Open => OpenBody::decode(body, head.key_valid).map(drop),
            HnsrOpcode::Accept => AcceptBody::decode(body).map(drop),
            HnsrOpcode::Data => DataBody::decode(body).map(drop),
            HnsrOpcode::Window => WindowBody::decode(body).map(drop),
            HnsrOpcode::Close => CloseBody::decode(body).map(drop),
            HnsrOpcode::Error => ErrorBody::decode(body).map(drop),
            _ => Ok(()),
        };
        let (expires_at, now) = (head.ticket.expires_at, head.now);
        match (cause, opcode) {
            _ if packet == Err(cause) => Some(Row::Packet(cause)),
            _ if read == Err(cause) => Some(Row::Body(cause)),
            (ProtocolError::Admission, HnsrOpcode::Open) if !head.admitted => Some(Row::NotAdmitted),
            (ProtocolError::Admission, HnsrOpcode::Open) if expires_at <= now => {
                Some(Row::GrantOver { expires_at, now })
            }
            (
                ProtocolError::Invalid(Invalid::ContextZero),
                HnsrOpcode::Accept | HnsrOpcode::Close | HnsrOpcode::Error,
            ) => Some(Row::RequesterContextZero),
            _ => None,
        }
    }

    fn numbers_gone(&self) -> bool {
        self.runtime.next_action_sequence == u64::MAX
    }

    // ---- OPEN

    fn open_capacity(&self) -> Option<Row> {
        let (Packet { head, source, body, endpoint, .. }, limits) = (self.packet, self.config());
        let per_peer = usize::from(limits.maximum_circuits_per_peer);
        let per_reservation = usize::from(head.ticket.max_active_circuits);
        let (most, context) = (limits.maximum_pending, head.context_id);
        if count(self.seen.pending, |pending| pending.used) >= most {
            return Some(Row::PendingFull { most });
        }
        if let Some(full) = self.circuits_full() {
            return Some(full);
        }
        if self.peer_work(source) >= per_peer {
            return Some(Row::RequesterWork { most: per_peer });
        }
        if self.seen.pending.iter().any(|pending| pending.used && self.requested(pending, context)) {
            return Some(Row::ContextPending);
        }
        if endpoint == source {
            return Some(Row::EndpointIsRequester);
        }
        if self.peer_work(endpoint) >= per_peer {
            return Some(Row::EndpointWork { most: per_peer });
        }
        let reservation = OpenBody::read(body, head.key_valid).body.reservation_id;
        if self.reservation_work(reservation.into()) >= per_reservation {
            return Some(Row::ReservationWork { most: per_reservation });
        }
        self.actions(None, endpoint, |_| true)
    }

    fn ledger_full(&self) -> Option<Row> {
        let (places, used) = (self.tables.ledger.len(), count(self.seen.ledger, |usage| usage.used));
        let missing = self.usage_of(self.packet.head.ticket.reservation_id).is_none();
        (missing && used >= places).then_some(Row::LedgerFull { places })
    }

    fn usage(&self) -> Option<Row> {
        let ticket = &self.packet.head.ticket;
        let usage = self.usage_of(ticket.reservation_id)?;
        let (recorded, granted) = (usage.expires_at, ticket.expires_at);
        let (used, most) = (usage.bytes, ticket.max_total_bytes);
        if recorded != granted {
            return Some(Row::ExpiryDiffers { recorded, granted });
        }
        (used >= most).then_some(Row::ReservationSpent { used, most })
    }

    // ---- ACCEPT

    fn accept_late(&self) -> Option<Row> {
        let (pending, now) = (self.pending()?, self.now());
        let due = pending.deadline.min(pending.ticket.expires_at);
        (due <= now).then_some(Row::AcceptLate { due, now })
    }

    fn accept_capacity(&self) -> Option<Row> {
        let (pending, context) = (self.pending()?, self.packet.head.context_id);
        let (offered, accepted) = (pending.initial_window, AcceptBody::read(self.packet.body).body.accepted_window);
        if offered < accepted {
            return Some(Row::WindowOverOffered { offered, accepted });
        }
        if let Some(full) = self.circuits_full() {
            return Some(full);
        }
        // it may be at its most: the OPEN that waits counts itself
        let most = usize::from(pending.ticket.max_active_circuits);
        if self.reservation_work(pending.ticket.reservation_id) > most {
            return Some(Row::ReservationWork { most });
        }
        // the actions of the OPEN give way to OPENED
        self.actions(Some(context), pending.requester.as_bytes(), |action| action.circuit_id != context)
    }

    // ---- DATA, WINDOW

    fn data_bytes(&self) -> Option<Row> {
        let (circuit, asked) = (self.circuit()?, self.packet.body.len() as u64);
        let used = self.usage_of(circuit.reservation_id)?.bytes;
        let over = |used: u64, most: u64| used.saturating_add(asked) > most;
        if over(circuit.forwarded_bytes, circuit.maximum_bytes) {
            let left = circuit.maximum_bytes.saturating_sub(circuit.forwarded_bytes);
            return Some(Row::CircuitBytes { left, asked });
        }
        let left = circuit.maximum_total_bytes.saturating_sub(used);
        over(used, circuit.maximum_total_bytes).then_some(Row::TotalBytes { left, asked })
    }

    fn data_flow(&self) -> Option<Row> {
        let (sender, other) = self.sides()?;
        let (most, asked) = (self.config().maximum_queue_bytes, self.packet.body.len());
        let (credit, sent) = (u64::from(sender.credit), asked as u64);
        if credit < sent {
            return Some(Row::Credit { left: credit, asked: sent });
        }
        if asked > most {
            return Some(Row::DataOverQueue { most: most as u64, asked: sent });
        }
        let left = most.saturating_sub(other.queued) as u64;
        (other.queued.saturating_add(asked) > most).then_some(Row::Queue { left, asked: sent })
    }

    fn window_credit(&self) -> Option<Row> {
        let (_, other) = self.sides()?;
        let asked = u64::from(WindowBody::read(self.packet.body).body.credit_delta);
        let (credit, most) = (u64::from(other.credit), u64::from(MAX_WINDOW));
        (credit + asked > most).then_some(Row::CreditOverMost { left: most.saturating_sub(credit), asked })
    }

    // ---- CLOSE, ERROR

    /// How many OPENs that wait the packet names.
    fn named(&self) -> usize {
        count(self.seen.pending, |pending| names(pending, self.packet.source, self.packet.head.context_id))
    }

    /// The record has gone, its actions with it, and with it whom the route would have gone to: so the relay's limit is
    /// asked, then whether any peer is at its most.
    fn ended_actions(&self) -> Option<Row> {
        let limits = self.config();
        let relay = (ActionLimit::Relay, limits.maximum_inflight_actions, self.tally(|_| true));
        let circuit = (ActionLimit::Circuit, limits.maximum_inflight_actions_per_circuit, 0);
        let toward = self.largest(|action| Some(action.destination));
        let peer = (ActionLimit::Peer, limits.maximum_inflight_actions_per_peer, toward);
        let (of, most, _) = [relay, circuit, peer].into_iter().find(|(_, most, count)| count >= most)?;
        Some(Row::EndedActions { of, most })
    }

    // ---- lookups and counts

    /// Whether no circuit has the packet's context as its id, but an OPEN that waits has, and the sender is a side.
    fn waits(&self) -> bool {
        let side = |pending: &RelayPending| self.is_sender(&pending.requester) || self.is_sender(&pending.endpoint);
        self.circuit().is_none() && self.pending().is_some_and(side)
    }

    /// The OPEN that waits under the packet's context, as an id.
    fn pending(&self) -> Option<&'a RelayPending> {
        let id = self.packet.head.context_id;
        self.seen.pending.iter().find(|pending| pending.used && pending.circuit_id == id)
    }

    fn circuit(&self) -> Option<&'a RelayCircuit> {
        let id = self.packet.head.context_id;
        self.seen.circuits.iter().find(|circuit| circuit.used && circuit.circuit_id == id)
    }

    fn usage_of(&self, id: ReservationId) -> Option<&'a ReservationUsage> {
        self.seen.ledger.iter().find(|usage| usage.used && usage.reservation_id == id)
    }

    /// The sender's side of the circuit, and the other; a peer that is both is the requester.
    fn sides(&self) -> Option<(Side<'a>, Side<'a>)> {
        let circuit = self.circuit()?;
        let requester = Side {
            peer: circuit.requester.as_bytes(),
            credit: circuit.requester_credit,
            queued: circuit.queued_to_requester,
        };
        let endpoint = Side {
            peer: circuit.endpoint.as_bytes(),
            credit: circuit.endpoint_credit,
            queued: circuit.queued_to_endpoint,
        };
        match self.packet.source {
            source if source == requester.peer => Some((requester, endpoint)),
            source if source == endpoint.peer => Some((endpoint, requester)),
            _ => None,
        }
    }

    fn requested(&self, pending: &RelayPending, context: u64) -> bool {
        self.is_sender(&pending.requester) && pending.requester_context == context
    }

    fn circuits_full(&self) -> Option<Row> {
        let most = self.config().maximum_circuits;
        (count(self.seen.circuits, |circuit| circuit.used) >= most).then_some(Row::CircuitsFull { most })
    }

    fn peer_work(&self, name: &[u8]) -> usize {
        let is = |peer: &StoredPeer| peer.as_bytes() == name;
        count(self.seen.pending, |pending| pending.used && (is(&pending.requester) || is(&pending.endpoint)))
            + count(self.seen.circuits, |circuit| circuit.used && (is(&circuit.requester) || is(&circuit.endpoint)))
    }

    fn reservation_work(&self, id: ReservationId) -> usize {
        count(self.seen.pending, |pending| pending.used && pending.ticket.reservation_id == id)
            + count(self.seen.circuits, |circuit| circuit.used && circuit.reservation_id == id)
    }

    fn tally(&self, counts: impl Fn(&InflightAction) -> bool) -> usize {
        count(self.seen.inflight, |action| action.used && counts(action))
    }

    /// Which limit of actions is reached, of those that are `kept`. The id that an OPEN drew is not known: of an OPEN
    /// the circuit's limit is asked last, as that of any id that it could have drawn.
    fn actions(&self, circuit: Option<u64>, peer: &[u8], kept: impl Fn(&InflightAction) -> bool) -> Option<Row> {
        let limits = self.config();
        let relay = (ActionLimit::Relay, limits.maximum_inflight_actions, self.tally(&kept));
        let toward = self.tally(|action| kept(action) && action.destination.as_bytes() == peer);
        let peer = (ActionLimit::Peer, limits.maximum_inflight_actions_per_peer, toward);
        let per_circuit = limits.maximum_inflight_actions_per_circuit;
        let under = |count| (ActionLimit::Circuit, per_circuit, count);
        let asked = match circuit {
            Some(id) => [relay, under(self.tally(|action| kept(action) && action.circuit_id == id)), peer],
            None => [relay, peer, under(self.largest(|action| self.free(action.circuit_id)))],
        };
        let (of, most, _) = asked.into_iter().find(|(_, most, count)| count >= most)?;
        Some(Row::Actions { of, most })
    }

    /// An id that can be drawn.
    fn free(&self, id: u64) -> Option<u64> {
        let taken = self.seen.pending.iter().any(|pending| pending.used && pending.circuit_id == id)
            || self.seen.circuits.iter().any(|circuit| circuit.used && circuit.circuit_id == id);
        (id != 0 && !taken).then_some(id)
    }

    /// How many actions there are of the key that has most.
    fn largest<Key: Eq + Hash>(&self, key: impl Fn(&InflightAction) -> Option<Key>) -> usize {
        let mut counts = HashMap::new();
        for key in self.seen.inflight.iter().filter(|action| action.used).filter_map(key) {
            *counts.entry(key).or_insert(0) += 1;
        }
        counts.into_values().max().unwrap_or(0)
    }
}

/// What a circuit has of one side.
struct Side<'a> {
    peer: &'a [u8],
    credit: u32,
    /// Bytes toward it that are not acknowledged.
    queued: usize,
}

/// Whether a CLOSE or an ERROR of this peer under this context names the OPEN: the requester names it by its own
/// context, the endpoint by its id.
pub fn names(pending: &RelayPending, peer: &[u8], context: u64) -> bool {
    let by_requester = pending.requester.as_bytes() == peer && pending.requester_context == context;
    let by_endpoint = pending.endpoint.as_bytes() == peer && pending.circuit_id == context;
    pending.used && (by_requester || by_endpoint)
}

fn count<Record>(table: &[Record], holds: impl Fn(&Record) -> bool) -> usize {
    table.iter().filter(|record| holds(record)).count()
}
