//! ACCEPT, DATA, WINDOW, CLOSE and ERROR.
use super::queue::{Kind, Message};
use super::table::{count, drop_all, lowest, put};
use super::{Outcome, Packet, Refused, World, named, refuse, same};
use lekchnam_host::HnsrOpcode;
use lekchnam_host::body::{AcceptBody, CloseBody, DataBody, WindowBody};
use lekchnam_host::lent::{InflightAction, RelayCircuit, RelayPending, ReservationUsage, StoredPeer};
use lekchnam_host::limits::MAX_WINDOW;

const MOST_CREDIT: u64 = MAX_WINDOW as u64;

/// The circuit that a packet names: its place, and whether the requester sends.
struct Named {
    place: usize,
    by_requester: bool,
}

impl World {
    pub(super) fn accept(&mut self, packet: &Packet<'_>) -> Outcome {
        let id = packet.context;
        let (config, tables) = (self.runtime.config, &self.tables);
        let place = lowest(tables, |p: &RelayPending| p.circuit_id == id).ok_or(Refused::UnknownRequest)?;
        let p = tables.pending[place];
        refuse(!same(&p.endpoint, &named(packet.source)?), Refused::WrongPeer)?;
        refuse(p.deadline <= packet.now || p.ticket.expires_at <= packet.now, Refused::InvalidAdmission)?;
        let body = AcceptBody::decode(packet.body)?;
        let full = body.accepted_window > p.initial_window
            || count(tables, |_: &RelayCircuit| true) >= config.maximum_circuits
            || self.under(p.ticket.reservation_id) > p.ticket.max_active_circuits.into();
        refuse(full, Refused::Capacity)?;
        self.action_room(id, &p.requester, Some(id))?;
        self.tables.pending[place].used = false;
        drop_all(&mut self.tables, |action: &InflightAction| action.circuit_id == id);
        let circuit = started(&p, body.accepted_window, config.maximum_bytes_per_circuit);
        put(&mut self.tables, |other| other.circuit_id == id, circuit);
        let opened = &mut self.runtime.counters.opened_circuits;
        *opened = opened.saturating_add(1);
        self.queue(Message {
            destination: p.requester,
            circuit: id,
            opcode: HnsrOpcode::Opened,
            context: p.requester_context,
            // The body of OPENED (BODY.9).
            body: [&id.to_be_bytes()[..], packet.body].concat(),
            kind: Kind::Opened,
            to_endpoint: false,
        })
    }

    /// 14 and 15: no such circuit, or the sender is no side of it.
    fn named_circuit(&self, packet: &Packet<'_>) -> Result<Named, Refused> {
        let found = lowest(&self.tables, |c: &RelayCircuit| c.circuit_id == packet.context);
        let place = found.ok_or(Refused::UnknownCircuit)?;
        let (circuit, source) = (&self.tables.circuits[place], named(packet.source)?);
        let by_requester = same(&circuit.requester, &source);
        refuse(!by_requester && !same(&circuit.endpoint, &source), Refused::WrongPeer)?;
        Ok(Named { place, by_requester })
    }

    /// The side that hears.
    fn receiver(&self, named: &Named) -> StoredPeer {
        let circuit = &self.tables.circuits[named.place];
        if named.by_requester { circuit.endpoint } else { circuit.requester }
    }

    /// DATA.
    pub(super) fn data(&mut self, packet: &Packet<'_>) -> Outcome {
        DataBody::decode(packet.body)?;
        let named = self.named_circuit(packet)?;
        let receiver = self.receiver(&named);
        self.action_room(packet.context, &receiver, None)?;
        let amount = packet.body.len() as u64;
        let reservation = self.tables.circuits[named.place].reservation_id;
        let found = lowest(&self.tables, |usage: &ReservationUsage| usage.reservation_id == reservation);
        let usage = &mut self.tables.ledger[found.ok_or(Refused::InvalidAdmission)?];
        let circuit = &mut self.tables.circuits[named.place];
        let spent = [circuit.forwarded_bytes, usage.bytes].map(|bytes| bytes.saturating_add(amount));
        refuse(spent[0] > circuit.maximum_bytes || spent[1] > circuit.maximum_total_bytes, Refused::ByteLimit)?;
        let (credit, queue) = match named.by_requester {
            true => (&mut circuit.requester_credit, &mut circuit.queued_to_endpoint),
            false => (&mut circuit.endpoint_credit, &mut circuit.queued_to_requester),
        };
        let queued = queue.saturating_add(packet.body.len());
        refuse(u64::from(*credit) < amount || queued > self.runtime.config.maximum_queue_bytes, Refused::FlowControl)?;
        *credit -= amount as u32;
        *queue = queued;
        [circuit.forwarded_bytes, usage.bytes] = spent;
        let counters = &mut self.runtime.counters;
        counters.bytes_sent = counters.bytes_sent.saturating_add(amount);
        counters.bytes_received = counters.bytes_received.saturating_add(amount);
        self.queue(Message { to_endpoint: named.by_requester, ..forwarded(packet, receiver, Kind::Data) })
    }

    /// WINDOW.
    pub(super) fn window(&mut self, packet: &Packet<'_>) -> Outcome {
        let body = WindowBody::decode(packet.body)?;
        let named = self.named_circuit(packet)?;
        let receiver = self.receiver(&named);
        self.action_room(packet.context, &receiver, None)?;
        let circuit = &mut self.tables.circuits[named.place];
        let credit = if named.by_requester { &mut circuit.endpoint_credit } else { &mut circuit.requester_credit };
        let raised = u64::from(*credit) + u64::from(body.credit_delta);
        refuse(raised > MOST_CREDIT, Refused::FlowControl)?;
        *credit = raised as u32;
        self.queue(forwarded(packet, receiver, Kind::Control))
    }

    /// CLOSE and ERROR (CLOSE).
    pub(super) fn close(&mut self, packet: &Packet<'_>) -> Outcome {
        CloseBody::decode(packet.body)?;
        let source = named(packet.source)?;
        let names = |p: &RelayPending| {
            same(&p.requester, &source) && p.requester_context == packet.context
                || same(&p.endpoint, &source) && p.circuit_id == packet.context
        };
        refuse(count(&self.tables, names) > 1, Refused::InvalidAdmission)?;
        let Some(place) = lowest(&self.tables, names) else {
            let named = self.named_circuit(packet)?;
            let receiver = self.receiver(&named);
            self.end_circuit(named.place);
            return self.queue(forwarded(packet, receiver, Kind::Close));
        };
        let p = self.tables.pending[place];
        self.end_pending(place);
        let (receiver, context) = match same(&p.requester, &source) {
            true => (p.endpoint, p.circuit_id),
            false => (p.requester, p.requester_context),
        };
        self.queue(Message { circuit: p.circuit_id, context, ..forwarded(packet, receiver, Kind::Close) })
    }
}

/// ACCEPT.10: the circuit as it begins.
fn started(p: &RelayPending, window: u32, most_bytes: u64) -> RelayCircuit {
    RelayCircuit {
        used: true,
        circuit_id: p.circuit_id,
        requester: p.requester,
        endpoint: p.endpoint,
        reservation_id: p.ticket.reservation_id,
        expires_at: p.ticket.expires_at,
        maximum_bytes: p.ticket.max_bytes_per_circuit.min(most_bytes),
        maximum_total_bytes: p.ticket.max_total_bytes,
        requester_credit: window,
        endpoint_credit: window,
        forwarded_bytes: 0,
        queued_to_requester: 0,
        queued_to_endpoint: 0,
    }
}

/// The packet itself, on to the other side.
fn forwarded(packet: &Packet<'_>, receiver: StoredPeer, kind: Kind) -> Message {
    Message {
        destination: receiver,
        circuit: packet.context,
        opcode: packet.opcode.into(),
        context: packet.context,
        body: packet.body.to_vec(),
        kind,
        to_endpoint: false,
    }
}
