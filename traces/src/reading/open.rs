//! OPEN.
use super::queue::{Kind, Message};
use super::table::{count, lowest, put};
use super::{Outcome, Packet, Refused, World, named, refuse, same};
use crate::Grant;
use lekchnam_host::HnsrOpcode;
use lekchnam_host::body::{OpenBody, ProtocolError};
use lekchnam_host::lent::{RelayCircuit, RelayPending, ReservationId, ReservationUsage, StoredPeer};

/// How many zeros, and how many taken ids, end a drawing (DRAW.2, DRAW.3).
const MOST_DRAWS: usize = 8;

impl World {
    pub(super) fn open(&mut self, packet: &Packet<'_>) -> Outcome {
        let requester = named(packet.source)?;
        self.open_room(&requester, packet.context)?;
        let body = OpenBody::decode(packet.body, packet.key_valid)?;
        let grant = packet.admission.filter(|grant| grant.expires_at > packet.now).ok_or(ProtocolError::Admission)?;
        self.drop_lapsed(packet.now);
        let endpoint = named(&grant.endpoint)?;
        let busy = same(&endpoint, &requester)
            || self.at_most_work(&endpoint)
            || self.under(body.reservation_id.into()) >= grant.max_active_circuits.into();
        refuse(busy, Refused::Capacity)?;
        let circuit_id = self.drawn(packet.random).ok_or(Refused::Randomness)?;
        self.action_room(circuit_id, &endpoint, None)?;
        let timeout = self.runtime.config.accept_timeout_seconds;
        let latest = packet.now.checked_add(timeout).ok_or(Refused::Deadline)?;
        self.book(grant)?;
        let record = RelayPending {
            used: true,
            circuit_id,
            requester,
            endpoint,
            requester_context: packet.context,
            ticket: grant.ticket(),
            initial_window: body.initial_window,
            deadline: latest.min(grant.expires_at),
        };
        put(&mut self.tables, |other| other.circuit_id == circuit_id, record);
        let opens = &mut self.runtime.counters.admitted_opens;
        *opens = opens.saturating_add(1);
        self.queue(incoming(&record, &body))
    }

    /// 10 (OPEN.1): no more fit for the relay or for the requester, or it is pending already.
    fn open_room(&self, requester: &StoredPeer, context: u64) -> Result<(), Refused> {
        let (config, tables) = (&self.runtime.config, &self.tables);
        let repeated = |p: &RelayPending| same(&p.requester, requester) && p.requester_context == context;
        let full = count(tables, |_: &RelayPending| true) >= config.maximum_pending
            || count(tables, |_: &RelayCircuit| true) >= config.maximum_circuits
            || self.at_most_work(requester)
            || lowest(tables, repeated).is_some();
        refuse(full, Refused::Capacity)
    }

    /// Whether a peer has its most of pending records and circuits, being either side of them.
    fn at_most_work(&self, peer: &StoredPeer) -> bool {
        let pending = count(&self.tables, |p: &RelayPending| same(&p.requester, peer) || same(&p.endpoint, peer));
        let circuits = count(&self.tables, |c: &RelayCircuit| same(&c.requester, peer) || same(&c.endpoint, peer));
        pending + circuits >= self.runtime.config.maximum_circuits_per_peer.into()
    }

    /// The pending records and circuits that store a reservation's id.
    pub(super) fn under(&self, id: ReservationId) -> usize {
        let pending = count(&self.tables, |p: &RelayPending| p.ticket.reservation_id == id);
        pending + count(&self.tables, |c: &RelayCircuit| c.reservation_id == id)
    }

    /// DRAW.1 to DRAW.5.
    fn drawn(&self, random: &[u8]) -> Option<u64> {
        let (mut zeros, mut candidates) = (0, 0);
        for draw in random.chunks_exact(8) {
            let id = u64::from_be_bytes(draw.try_into().expect("eight bytes"));
            let taken = lowest(&self.tables, |p: &RelayPending| p.circuit_id == id).is_some()
                || lowest(&self.tables, |c: &RelayCircuit| c.circuit_id == id).is_some();
            match (id, taken) {
                (0, _) => zeros += 1,
                (_, true) => (zeros, candidates) = (0, candidates + 1),
                (_, false) => return Some(id),
            }
            if zeros == MOST_DRAWS || candidates == MOST_DRAWS {
                return None;
            }
        }
        None
    }

    /// 23 (OPEN.9); the ledger record, made if it is missing (OPEN.16); 18 (OPEN.10).
    fn book(&mut self, grant: &Grant) -> Result<(), Refused> {
        let id = ReservationId::from(grant.reservation_id);
        let tables = &mut self.tables;
        let under = |usage: &ReservationUsage| usage.reservation_id == id;
        if lowest(tables, under).is_none() {
            refuse(count(tables, |_: &ReservationUsage| true) == tables.ledger.len(), Refused::LedgerFull)?;
            put(
                tables,
                under,
                ReservationUsage { used: true, reservation_id: id, bytes: 0, expires_at: grant.expires_at },
            );
        }
        let usage = &tables.ledger[lowest(tables, under).expect("it was made")];
        refuse(usage.expires_at != grant.expires_at || usage.bytes >= grant.max_total_bytes, Refused::ByteLimit)
    }
}

/// The body of INCOMING (BODY.7).
fn incoming(record: &RelayPending, open: &OpenBody) -> Message {
    let (request, profile, window) =
        (record.requester_context.to_be_bytes(), open.profile.to_le_bytes(), open.initial_window.to_le_bytes());
    Message {
        destination: record.endpoint,
        circuit: record.circuit_id,
        opcode: HnsrOpcode::Incoming,
        context: record.circuit_id,
        body: [&open.ticket_id[..], &request, &profile, &open.requester_nonce, &window].concat(),
        kind: Kind::Incoming,
        to_endpoint: false,
    }
}
