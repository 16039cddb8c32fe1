//! The host's loop. One thread owns the relay; it waits for events, or until something is due, and for nothing else.
//!
//! Nothing waits in a circle: sending to another thread never waits. A held packet waits for routes to be written; a
//! writer waits for its peer to read, and not for ever; and a peer reads whether or not its own writing is stopped.
use crate::connection::{self, Connection, Event, Job};
use crate::peer::{KEY, RESERVATION};
use crate::Result;
use lekchnam_host::body::{ErrorBody, OpenBody};
use lekchnam_host::limits::MAX_CIRCUITS;
use lekchnam_host::{
    Admission, Advice, Grant, HnsrActionId, HnsrErrorCode, HnsrOpcode, HnsrPacketBuf, HnsrPeerId, HnsrRuntimeError,
    HnsrRuntimeStatus, MonotonicClock, OpaqueRelayConfig, OpaqueRelayRuntime, Outgoing, Routes,
};
use std::collections::{BTreeMap, HashMap, VecDeque};
use std::mem;
use std::net::TcpListener;
use std::sync::atomic::AtomicBool;
use std::sync::mpsc::{channel, Receiver, RecvTimeoutError};
use std::sync::Mutex;
use std::thread;
use std::time::Duration;

/// How many routes of a circuit may be under way: the least, so that packets have to be held. By default it is 128.
const ACTIONS_PER_CIRCUIT: usize = 2;
/// How many seconds an ACCEPT may take.
const ACCEPT_WITHIN: u64 = 2;
/// How many seconds a reservation lasts.
const RESERVED_FOR: u64 = 3_600;
/// How long to wait for an event when nothing is due.
const IDLE: Duration = Duration::from_secs(3_600);

type Answer<T> = std::result::Result<T, HnsrRuntimeError>;

/// What a host can tell of itself.
#[derive(Clone, Debug)]
pub struct Figures {
    pub status: HnsrRuntimeStatus,
    /// Packets that are held now.
    pub held: usize,
    /// Packets that ever were.
    pub holds: u64,
    /// How often the relay refused, by number.
    pub refused: BTreeMap<u32, u64>,
}

/// Runs a relay until it is stopped and its last connection has ended. After each event `page` has its figures.
pub fn run(listener: &TcpListener, stopped: &AtomicBool, page: &Mutex<Option<Figures>>) -> Result<()> {
    let mut host = Host::new()?;
    thread::scope(|scope| {
        let (events, told) = channel();
        scope.spawn(move || connection::accept(scope, listener, stopped, &events));
        host.run(&told, page);
    });
    Ok(())
}

/// Who may be called. Reservations are the host's own business; this one knows of one, and the first to connect has it.
#[derive(Clone, Copy)]
struct Reservation {
    endpoint: HnsrPeerId,
    /// Set once: while a reservation lives, the relay refuses a grant under its id with another end (18).
    expires_at: u64,
}

impl Reservation {
    /// Of an OPEN the relay takes the host's word: whose key it names, and what is granted.
    fn admission(&self, packet: &HnsrPacketBuf) -> Admission<'_> {
        let open = OpenBody::read(&packet.body, true).body;
        if packet.opcode != HnsrOpcode::Open || (open.reservation_id, open.endpoint_key) != (RESERVATION, KEY) {
            return Admission::Refused;
        }
        Admission::Granted(Grant {
            endpoint: self.endpoint.as_bytes(),
            reservation_id: RESERVATION,
            expires_at: self.expires_at,
            max_active_circuits: MAX_CIRCUITS,
            max_bytes_per_circuit: 1 << 24,
            max_total_bytes: 1 << 30,
        })
    }
}

struct Host {
    relay: OpaqueRelayRuntime,
    clock: MonotonicClock,
    reservation: Reservation,
    connections: HashMap<HnsrPeerId, Connection>,
    /// Packets that the relay had no room for, the oldest first: of each connection at most one, which is not read on.
    held: VecDeque<(HnsrPeerId, HnsrPacketBuf)>,
    /// Routes to peers that are not there.
    undeliverable: VecDeque<HnsrActionId>,
    holds: u64,
    refused: BTreeMap<u32, u64>,
}

impl Host {
    fn new() -> Result<Self> {
        let config = OpaqueRelayConfig {
            maximum_inflight_actions_per_circuit: ACTIONS_PER_CIRCUIT,
            accept_timeout_seconds: ACCEPT_WITHIN,
            ..OpaqueRelayConfig::default()
        };
        let clock = MonotonicClock::new();
        Ok(Self {
            relay: OpaqueRelayRuntime::new([7; 16], 1, config, clock.now())?,
            reservation: Reservation { endpoint: connection::name(0), expires_at: clock.now() + RESERVED_FOR },
            clock,
            connections: HashMap::new(),
            held: VecDeque::new(),
            undeliverable: VecDeque::new(),
            holds: 0,
            refused: BTreeMap::new(),
        })
    }

    /// The loop. It ends when nobody is left who could tell of an event: neither `accept` nor a reader nor a writer.
    fn run(&mut self, events: &Receiver<Event>, page: &Mutex<Option<Figures>>) {
        loop {
            let wait = self.relay.next_due().map_or(IDLE, |due| self.clock.until(due));
            match events.recv_timeout(wait) {
                Ok(event) => self.take(event),
                Err(RecvTimeoutError::Timeout) => {}
                Err(RecvTimeoutError::Disconnected) => return,
            }
            // Each time, since no wait runs out where event follows event.
            let now = self.clock.now();
            if self.relay.next_due().is_some_and(|due| due <= now) {
                let _ = self.call(|relay| relay.expire(now));
            }
            while let Some(action_id) = self.undeliverable.pop_front() {
                self.acknowledge(action_id, false);
            }
            let (status, held) = (self.relay.status(), self.held.len());
            let figures = Figures { status, held, holds: self.holds, refused: self.refused.clone() };
            *page.lock().expect("nobody panics that has it") = Some(figures);
        }
    }

    fn take(&mut self, event: Event) {
        match event {
            Event::Connected(name, connection) => {
                self.connections.insert(name, connection);
            }
            Event::Packet(source, packet) => {
                if let Some(packet) = self.offer(source, packet) {
                    self.holds += 1;
                    self.held.push_back((source, packet));
                }
            }
            Event::Written(action_id, delivered) => self.acknowledge(action_id, delivered),
            Event::Gone(name) => self.end(&name),
        }
    }

    /// Makes a call, and sends what is to be sent because of it, also where it is refused.
    fn call(&mut self, call: impl FnOnce(&mut OpaqueRelayRuntime) -> Answer<Routes<'_>>) -> Option<HnsrRuntimeError> {
        let refused = call(&mut self.relay).err();
        if let Some(refused) = refused {
            *self.refused.entry(refused.number()).or_default() += 1;
        }
        for outgoing in self.relay.outgoing() {
            self.send(outgoing);
        }
        refused
    }

    /// Gives a packet to its writer.
    fn send(&mut self, outgoing: Outgoing) {
        let Outgoing { action_id, route } = outgoing;
        let job = match action_id {
            Some(action_id) => Job::Route(action_id, route.packet),
            None => Job::Notice(route.packet),
        };
        match self.connections.get(&route.destination) {
            Some(connection) if connection.jobs.send(job).is_ok() => {}
            _ => self.undeliverable.extend(action_id),
        }
    }

    /// Offers a packet to the relay. It comes back if it must be held; else its connection is read on, or ended.
    fn offer(&mut self, source: HnsrPeerId, packet: HnsrPacketBuf) -> Option<HnsrPacketBuf> {
        if !self.connections.contains_key(&source) {
            return None;
        }
        let (now, reservation) = (self.clock.now(), self.reservation);
        let admission = reservation.admission(&packet);
        if let Some(refused) = self.call(|relay| relay.handle(&admission, &source, &packet.as_packet(), now)) {
            match self.relay.advice(refused, &admission, &source, &packet.as_packet(), now) {
                Advice::OfferAgain => return Some(packet),
                // It had ended before, or has now, and whoever else is to hear of it has been sent a packet.
                Advice::Late | Advice::Forget | Advice::TellOtherSide => {}
                Advice::TurnDown | Advice::MendHost if packet.opcode == HnsrOpcode::Open => {
                    self.turn_down(source, packet.context_id);
                    return None;
                }
                Advice::TurnDown | Advice::MendHost | Advice::EndCircuit => {
                    self.end_circuit(&source, packet.context_id)
                }
                Advice::EndConnection => self.end(&source),
            }
        }
        self.read_on(&source);
        None
    }

    fn read_on(&self, source: &HnsrPeerId) {
        if let Some(connection) = self.connections.get(source) {
            let _ = connection.go_on.send(());
        }
    }

    /// The relay tells a requester nothing of an OPEN that it refused, so the host does. Nobody counts this packet: so
    /// the requester is read on when it is written, and who asks without end and reads nothing fills no memory.
    fn turn_down(&mut self, requester: HnsrPeerId, context_id: [u8; 8]) {
        let error = ErrorBody { reason: HnsrErrorCode::Refused.into(), detail: "the circuit cannot be had" };
        let body = error.encode().expect("the detail is short");
        if let Some(connection) = self.connections.get(&requester) {
            let _ = connection.jobs.send(Job::Reply(HnsrPacketBuf { opcode: HnsrOpcode::Error, context_id, body }));
        }
    }

    /// Nothing more of the stream may pass, or there would be a hole in it.
    fn end_circuit(&mut self, source: &HnsrPeerId, circuit_id: [u8; 8]) {
        let (reason, now) = (HnsrErrorCode::Protocol.into(), self.clock.now());
        match self.relay.end_circuit(circuit_id, reason, "no more of it passes", now) {
            Ok(ended) => ended.into_iter().for_each(|outgoing| self.send(outgoing)),
            Err(_) => self.end(source),
        }
    }

    /// Tells the relay what became of a route, and offers what is held again. Each route comes here once. So as long as
    /// routes take the room that a packet needs, there is another acknowledge to come.
    fn acknowledge(&mut self, action_id: HnsrActionId, delivered: bool) {
        // A 5 or a 20 is normal: what the route was for has ended since.
        let _ = self.call(|relay| relay.acknowledge(action_id, delivered));
        for (source, packet) in mem::take(&mut self.held) {
            if let Some(packet) = self.offer(source, packet) {
                self.held.push_back((source, packet));
            }
        }
    }

    /// Ends a connection, if it has not ended. The routes to it are acknowledged like all others: those that its writer
    /// has by the writer, later ones as undeliverable.
    fn end(&mut self, name: &HnsrPeerId) {
        if self.connections.remove(name).is_some() {
            let _ = self.call(|relay| relay.disconnect(name));
        }
    }
}
