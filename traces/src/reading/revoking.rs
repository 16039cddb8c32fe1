//! The ends of records: acknowledge, revocation, and the calls that revoke.
use super::queue::{Kind, Message};
use super::table::{drop_all, lowest, next};
use super::{Outcome, Refused, Route, World, named, refuse, same};
use lekchnam_host::HnsrOpcode;
use lekchnam_host::lent::{InflightAction, RelayCircuit, RelayPending, ReservationId, ReservationUsage, StoredPeer};

/// The relay's own messages (NOTICE.1 to NOTICE.7).
type Notice = (u16, &'static str);

const PEER_DISCONNECTED: Notice = (11, "outer peer disconnected");
const RESERVATION_REVOKED: Notice = (6, "reservation revoked");
const ACCEPTANCE_EXPIRED: Notice = (8, "endpoint acceptance expired");
const TICKET_EXPIRED: Notice = (6, "relay ticket expired");
const RELAY_DISABLED: Notice = (15, "opaque relay disabled");
const ENDPOINT_WRITE_FAILED: Notice = (11, "endpoint write failed");
const OUTER_WRITE_FAILED: Notice = (11, "outer write failed");

fn notice(
    destination: StoredPeer,
    circuit: u64,
    opcode: HnsrOpcode,
    context: u64,
    (reason, detail): Notice,
) -> Message {
    let body = [&reason.to_le_bytes()[..], &[detail.len() as u8], detail.as_bytes()].concat();
    Message { destination, circuit, opcode, context, body, kind: Kind::Close, to_endpoint: false }
}

fn to_requester(p: &RelayPending, opcode: HnsrOpcode, why: Notice) -> Message {
    notice(p.requester, p.circuit_id, opcode, p.requester_context, why)
}

fn close_to_endpoint(p: &RelayPending, why: Notice) -> Message {
    notice(p.endpoint, p.circuit_id, HnsrOpcode::Close, p.circuit_id, why)
}

impl World {
    fn count_revoked(&mut self) {
        let revoked = &mut self.runtime.counters.revoked_work;
        *revoked = revoked.saturating_add(1);
    }

    /// The record's actions are all that are stored under its id.
    pub(super) fn end_pending(&mut self, place: usize) {
        let id = self.tables.pending[place].circuit_id;
        self.tables.pending[place].used = false;
        drop_all(&mut self.tables, |action: &InflightAction| action.circuit_id == id);
        self.count_revoked();
    }

    pub(super) fn end_circuit(&mut self, place: usize) {
        let id = self.tables.circuits[place].circuit_id;
        self.tables.circuits[place].used = false;
        drop_all(&mut self.tables, |action: &InflightAction| action.circuit_id == id);
        self.count_revoked();
    }

    /// REVOKE.3: what the sides of a pending record hear.
    fn revoke_pending(&mut self, place: usize, why: Notice) -> Vec<Route> {
        let p = self.tables.pending[place];
        self.end_pending(place);
        [self.tell(to_requester(&p, HnsrOpcode::Error, why)), self.tell(close_to_endpoint(&p, why))].concat()
    }

    /// A circuit is ended and its sides are told (REVOKE.1, REVOKE.2).
    fn revoke_circuit_there(&mut self, place: usize, why: Notice) -> Vec<Route> {
        let c = self.tables.circuits[place];
        self.end_circuit(place);
        [c.requester, c.endpoint]
            .map(|peer| self.tell(notice(peer, c.circuit_id, HnsrOpcode::Close, c.circuit_id, why)))
            .concat()
    }

    /// An action stores an id and no place: the lowest record of that id is meant.
    fn revoke_circuit(&mut self, id: u64, why: Notice) -> Vec<Route> {
        let found = lowest(&self.tables, |c: &RelayCircuit| c.circuit_id == id);
        found.map_or_else(Vec::new, |place| self.revoke_circuit_there(place, why))
    }

    /// DISC.4: of a pending record, the peer that is left.
    fn disconnect_pending(&mut self, place: usize, peer: &StoredPeer) -> Vec<Route> {
        let p = self.tables.pending[place];
        self.end_pending(place);
        let close = match same(&p.requester, peer) {
            true => close_to_endpoint(&p, PEER_DISCONNECTED),
            false => to_requester(&p, HnsrOpcode::Close, PEER_DISCONNECTED),
        };
        self.tell(close)
    }

    /// By ascending id, those that have the property, each at its place (REVOKE.5).
    fn revoke_all(
        &mut self,
        pending: impl Fn(&RelayPending) -> bool,
        end: impl Fn(&mut Self, usize) -> Vec<Route>,
        circuits: impl Fn(&RelayCircuit) -> bool,
        why: Notice,
    ) -> Vec<Route> {
        let mut routes = Vec::new();
        let mut last = None;
        while let Some((id, place)) = next(&self.tables, |p| p.circuit_id, &pending, last) {
            last = Some((id, place));
            routes.extend(end(self, place));
        }
        last = None;
        while let Some((id, place)) = next(&self.tables, |c| c.circuit_id, &circuits, last) {
            last = Some((id, place));
            routes.extend(self.revoke_circuit_there(place, why));
        }
        routes
    }

    /// `disconnect` (DISC).
    pub(super) fn disconnect(&mut self, peer: &[u8]) -> Outcome {
        let peer = named(peer)?;
        drop_all(&mut self.tables, |action: &InflightAction| same(&action.destination, &peer));
        Ok(self.revoke_all(
            |p| same(&p.requester, &peer) || same(&p.endpoint, &peer),
            |world, place| world.disconnect_pending(place, &peer),
            |c| same(&c.requester, &peer) || same(&c.endpoint, &peer),
            PEER_DISCONNECTED,
        ))
    }

    /// `revoke_reservation` (RES).
    pub(super) fn revoke_reservation(&mut self, id: ReservationId) -> Vec<Route> {
        if let Some(place) = lowest(&self.tables, |usage: &ReservationUsage| usage.reservation_id == id) {
            self.tables.ledger[place].used = false;
        }
        self.revoke_all(
            |p| p.ticket.reservation_id == id,
            |world, place| world.revoke_pending(place, RESERVATION_REVOKED),
            |c| c.reservation_id == id,
            RESERVATION_REVOKED,
        )
    }

    /// `expire` (EXPIRE).
    pub(super) fn expire(&mut self, now: u64) -> Outcome {
        self.clock(now)?;
        self.drop_lapsed(now);
        Ok(self.revoke_all(
            |p| p.deadline <= now || p.ticket.expires_at <= now,
            |world, place| world.revoke_pending(place, ACCEPTANCE_EXPIRED),
            |c| c.expires_at <= now,
            TICKET_EXPIRED,
        ))
    }

    /// `replace_enabled` (SWITCH).
    pub(super) fn replace_enabled(&mut self, expected: u64, enabled: bool) -> Outcome {
        refuse(expected != self.runtime.generation, Refused::StaleGeneration)?;
        if enabled == self.runtime.enabled {
            return Ok(Vec::new());
        }
        self.runtime.generation = expected.checked_add(1).ok_or(Refused::GenerationExhausted)?;
        self.runtime.enabled = enabled;
        self.runtime.next_action_sequence = 1;
        drop_all(&mut self.tables, |_: &InflightAction| true);
        let off = !enabled;
        Ok(self.revoke_all(
            |_| off,
            |world, place| world.revoke_pending(place, RELAY_DISABLED),
            |_| off,
            RELAY_DISABLED,
        ))
    }

    /// The action goes, and a Data's bytes leave their queue (ACK.3, ACK.4).
    pub(super) fn acknowledge(&mut self, generation: u64, sequence: u64, delivered: bool) -> Outcome {
        refuse(generation != self.runtime.generation, Refused::StaleGeneration)?;
        let tables = &mut self.tables;
        let numbered = |action: &InflightAction| (action.generation, action.sequence) == (generation, sequence);
        let found = lowest(tables, numbered).ok_or(Refused::UnknownAction)?;
        let action = tables.inflight[found];
        tables.inflight[found].used = false;
        let (id, kind) = (action.circuit_id, Kind::stored(action.kind));
        if let (Kind::Data, Some(place)) = (kind, lowest(tables, |c: &RelayCircuit| c.circuit_id == id)) {
            let circuit = &mut tables.circuits[place];
            let queue =
                if action.to_endpoint { &mut circuit.queued_to_endpoint } else { &mut circuit.queued_to_requester };
            *queue = queue.saturating_sub(action.bytes);
        }
        match kind {
            _ if delivered => Ok(Vec::new()),
            Kind::Incoming => self.fail_incoming(id),
            Kind::Opened | Kind::Data | Kind::Control => Ok(self.revoke_circuit(id, OUTER_WRITE_FAILED)),
            Kind::Close => Ok(Vec::new()),
        }
    }

    /// ACK.6: an INCOMING that was not delivered.
    fn fail_incoming(&mut self, id: u64) -> Outcome {
        let Some(place) = lowest(&self.tables, |p: &RelayPending| p.circuit_id == id) else { return Ok(Vec::new()) };
        let p = self.tables.pending[place];
        self.tables.pending[place].used = false;
        self.count_revoked();
        self.queue(to_requester(&p, HnsrOpcode::Error, ENDPOINT_WRITE_FAILED))
    }
}
