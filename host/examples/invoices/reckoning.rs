//! What the relay's counts must be, reckoned from the calls that were taken and the routes that they handed out.
//! Nothing here looks into the relay.
use lekchnam_host::{HnsrOpcode, HnsrPeerId, HnsrRuntimeStatus, QueuedHnsrRouteBuf};
use std::collections::BTreeMap;

/// A circuit's id, or the context that the requester gave its OPEN.
pub type Id = [u8; 8];

/// The id of a reservation.
pub type ReservationId = [u8; 16];

/// An OPEN that waits, or a circuit: its two sides, when its time is over, and the reservation that it goes by, with
/// its end.
#[derive(Clone, Copy)]
pub struct Work {
    pub sides: [HnsrPeerId; 2],
    pub due: u64,
    pub reservation: ReservationId,
    pub expires_at: u64,
}

/// A route that is not acknowledged.
struct Outstanding {
    about: Id,
    to: HnsrPeerId,
    data: usize,
}

#[derive(Default)]
pub struct Reckoning {
    generation: u64,
    enabled: bool,
    time: u64,
    asked: u64,
    opened: u64,
    ended: u64,
    passed: u64,
    waiting: BTreeMap<Id, Work>,
    circuits: BTreeMap<Id, Work>,
    requests: BTreeMap<Id, Id>,
    /// The end of each reservation that an OPEN went by.
    reservations: BTreeMap<ReservationId, u64>,
    outstanding: BTreeMap<u64, Outstanding>,
    /// How many of these there may be: in all, about one circuit, toward one peer.
    routes: [usize; 3],
}

impl Reckoning {
    pub fn new(generation: u64, time: u64, routes: [usize; 3]) -> Self {
        Self { generation, enabled: true, time, routes, ..Self::default() }
    }

    /// An OPEN: the INCOMING has the circuit's id. The reservation stays, whatever becomes of the OPEN.
    pub fn asked(&mut self, request: Id, work: Work, routes: &[QueuedHnsrRouteBuf]) {
        let id = routes.first().map_or([0; 8], |incoming| incoming.route.packet.context_id);
        self.asked += 1;
        self.requests.insert(request, id);
        self.reservations.insert(work.reservation, work.expires_at);
        self.waiting.insert(id, work);
        self.sent(routes);
    }

    /// An ACCEPT: the routes of the OPEN no longer count.
    pub fn accepted(&mut self, id: Id, routes: &[QueuedHnsrRouteBuf]) {
        let work = self.waiting.remove(&id).expect("it waited");
        self.opened += 1;
        self.circuits.insert(id, Work { due: work.expires_at, ..work });
        self.outstanding.retain(|_, route| route.about != id);
        self.sent(routes);
    }

    pub fn data(&mut self, bytes: usize, routes: &[QueuedHnsrRouteBuf]) {
        self.passed += bytes as u64;
        self.sent(routes);
    }

    pub fn closed(&mut self, id: Id, routes: &[QueuedHnsrRouteBuf]) {
        self.end(|other, _| *other == id);
        self.sent(routes);
    }

    /// Not delivered, anything but a closing ends what it was about.
    pub fn acknowledged(&mut self, queued: &QueuedHnsrRouteBuf, delivered: bool, routes: &[QueuedHnsrRouteBuf]) {
        let route = self.outstanding.remove(&queued.action_id.sequence).expect("it was outstanding");
        if !delivered && !matches!(queued.route.packet.opcode, HnsrOpcode::Close | HnsrOpcode::Error) {
            self.closed(route.about, routes);
        }
    }

    pub fn disconnected(&mut self, peer: HnsrPeerId, routes: &[QueuedHnsrRouteBuf]) {
        self.outstanding.retain(|_, route| route.to != peer);
        self.end(|_, work| work.sides.contains(&peer));
        self.sent(routes);
    }

    pub fn expired(&mut self, now: u64, routes: &[QueuedHnsrRouteBuf]) {
        self.time = now;
        self.reservations.retain(|_, ends_at| *ends_at > now);
        self.end(|_, work| work.due <= now);
        self.sent(routes);
    }

    pub fn switched(&mut self, enabled: bool, routes: &[QueuedHnsrRouteBuf]) {
        self.generation += 1;
        self.enabled = enabled;
        self.outstanding.clear();
        if !enabled {
            self.end(|_, _| true);
        }
        self.sent(routes);
    }

    /// Ends what is asked for, and drops its routes.
    fn end(&mut self, over: impl Fn(&Id, &Work) -> bool) {
        let ids: Vec<Id> =
            self.waiting.iter().chain(&self.circuits).filter(|(id, work)| over(id, work)).map(|(id, _)| *id).collect();
        for id in ids {
            self.waiting.remove(&id);
            self.circuits.remove(&id);
            self.outstanding.retain(|_, route| route.about != id);
            self.ended += 1;
        }
    }

    fn sent(&mut self, routes: &[QueuedHnsrRouteBuf]) {
        for queued in routes {
            let packet = &queued.route.packet;
            let about = *self.requests.get(&packet.context_id).unwrap_or(&packet.context_id);
            let data = if packet.opcode == HnsrOpcode::Data { packet.body.len() } else { 0 };
            self.outstanding
                .insert(queued.action_id.sequence, Outstanding { about, to: queued.route.destination, data });
        }
    }

    /// What the relay must tell of itself.
    pub fn status(&self) -> HnsrRuntimeStatus {
        HnsrRuntimeStatus {
            generation: self.generation,
            enabled: self.enabled,
            pending_circuits: self.waiting.len(),
            active_circuits: self.circuits.len(),
            queued_bytes: self.outstanding.values().map(|route| route.data).sum(),
            queued_actions: self.outstanding.len(),
            trusted_time_high_water: self.time,
            admitted_opens: self.asked,
            opened_circuits: self.opened,
            bytes_sent: self.passed,
            bytes_received: self.passed,
            revoked_work: self.ended,
        }
    }

    /// The reservations that the relay must have, each with its end.
    pub const fn reservations(&self) -> &BTreeMap<ReservationId, u64> {
        &self.reservations
    }

    /// Every circuit that was asked for, ended or not.
    pub fn asked_for(&self) -> impl Iterator<Item = Id> + '_ {
        self.requests.values().copied()
    }

    /// How many more routes must fit toward a peer and about a circuit.
    pub fn action_capacity(&self, peer: HnsrPeerId, circuit: Id) -> usize {
        let [all, per_circuit, per_peer] = self.routes;
        let about = self.outstanding.values().filter(|route| route.about == circuit).count();
        let toward = self.outstanding.values().filter(|route| route.to == peer).count();
        (all - self.outstanding.len()).min(per_circuit - about).min(per_peer - toward)
    }

    /// When the relay must have something to end: an OPEN, a circuit or a reservation.
    pub fn next_due(&self) -> Option<u64> {
        let work = self.waiting.values().chain(self.circuits.values()).map(|work| work.due);
        work.chain(self.reservations.values().copied()).min()
    }
}
