//! The host: it has the relay, carries what the relay hands out, and keeps the reckoning beside it.
use crate::bodies;
use crate::reckoning::{Id, Reckoning, Work};
use lekchnam_host::body::CloseBody;
use lekchnam_host::{
    Admission, Grant, HnsrOpcode, HnsrPacket, HnsrPeerId, HnsrRuntimeError, OpaqueRelayConfig, OpaqueRelayRuntime,
    QueuedHnsrRouteBuf,
};
use std::collections::{BTreeMap, VecDeque};
use std::error::Error;

pub type Result<T> = std::result::Result<T, Box<dyn Error>>;

const START: u64 = 1_000;
/// Seconds that a reservation lasts.
const LASTS: u64 = 3_600;
/// Seconds that an ACCEPT may take, by the default configuration.
const ACCEPT_WITHIN: u64 = 10;

/// How many routes may be unacknowledged: in all, about one circuit, toward one peer. So few that a busy yard fills
/// them.
const ROUTES: [usize; 3] = [8, 4, 6];

/// A route on its way.
pub type Letter = QueuedHnsrRouteBuf;

pub struct Office {
    relay: OpaqueRelayRuntime,
    reckoning: Reckoning,
    now: u64,
    steps: u32,
    connections: u8,
    requests: u64,
    /// The last that was asked for.
    circuit: Id,
    /// What the relay handed out and nobody has yet.
    bag: VecDeque<Letter>,
    /// Invoices that the purchasing system has yet to get.
    expected: VecDeque<Vec<u8>>,
    arrived: usize,
}

impl Office {
    pub fn new() -> Self {
        let [all, per_circuit, per_peer] = ROUTES;
        let config = OpaqueRelayConfig {
            maximum_inflight_actions: all,
            maximum_inflight_actions_per_circuit: per_circuit,
            maximum_inflight_actions_per_peer: per_peer,
            ..OpaqueRelayConfig::default()
        };
        Self {
            relay: OpaqueRelayRuntime::new([7; 16], 1, config, START).expect("good limits"),
            reckoning: Reckoning::new(1, START, ROUTES),
            now: START,
            steps: 0,
            connections: 1,
            requests: 0,
            circuit: Id::default(),
            bag: VecDeque::new(),
            expected: VecDeque::new(),
            arrived: 0,
        }
    }

    pub fn arrived(&self) -> usize {
        self.arrived
    }

    pub fn step(&mut self, text: &str) {
        self.steps += 1;
        println!("\n{}. {text}", self.steps);
    }

    /// The supplier's box. A connection has a name of its own, so a new one inherits nothing.
    fn supplier(&self) -> HnsrPeerId {
        HnsrPeerId::new(vec![b's', self.connections]).expect("two bytes")
    }

    fn merchant(&self) -> HnsrPeerId {
        HnsrPeerId::new("merchant").expect("eight bytes")
    }

    fn name(&self, peer: HnsrPeerId) -> &'static str {
        match peer {
            _ if peer == self.merchant() => "purchasing",
            _ if peer == self.supplier() => "box",
            _ => "nobody (an old connection)",
        }
    }

    /// When the reservation ends that the merchant has now: it takes a new one as soon as the old one has ended.
    fn reserved_until(&self) -> u64 {
        START + LASTS * ((self.now - START) / LASTS + 1)
    }
}

/// What the two parties do.
impl Office {
    /// The box asks for a circuit. The reservation lets it have two at once.
    pub fn ask(&mut self) -> Result<Id> {
        self.requests += 1;
        let (request, body) = (self.requests.to_be_bytes(), bodies::open());
        let (supplier, merchant, expires_at) = (self.supplier(), self.merchant(), self.reserved_until());
        let grant = Grant {
            endpoint: merchant.as_bytes(),
            reservation_id: bodies::RESERVATION,
            expires_at,
            max_active_circuits: 2,
            max_bytes_per_circuit: 1 << 20,
            max_total_bytes: 1 << 24,
        };
        let packet = HnsrPacket::new(HnsrOpcode::Open, request, &body)?;
        println!("     box says OPEN");
        let letters = self.relay.handle(&Admission::Granted(grant), &supplier, &packet, self.now)?.to_vec();
        let circuit = letters.first().ok_or("no INCOMING")?.route.packet.context_id;
        self.circuit = circuit;
        let due = expires_at.min(self.now + ACCEPT_WITHIN);
        self.record(letters, |reckoning, routes| {
            let reservation = bodies::RESERVATION;
            reckoning.asked(request, Work { sides: [supplier, merchant], due, reservation, expires_at }, routes)
        });
        Ok(circuit)
    }

    /// The box asks, and the purchasing system accepts.
    pub fn circuit(&mut self) -> Result<Id> {
        let circuit = self.ask()?;
        self.settle()?;
        let letters = self.say(self.merchant(), HnsrOpcode::Accept, circuit, &bodies::accept())?;
        self.record(letters, |reckoning, routes| reckoning.accepted(circuit, routes));
        self.settle()?;
        Ok(circuit)
    }

    pub fn invoice(&mut self, circuit: Id, number: u64) -> Result<()> {
        let invoice = bodies::invoice(number);
        let letters = self.say(self.supplier(), HnsrOpcode::Data, circuit, &invoice)?;
        self.record(letters, |reckoning, routes| reckoning.data(invoice.len(), routes));
        self.expected.push_back(invoice);
        Ok(())
    }

    /// An invoice that the relay has no room for, and must refuse so.
    pub fn held(&mut self, circuit: Id, number: u64) -> Result<()> {
        let answer = self.say(self.supplier(), HnsrOpcode::Data, circuit, &bodies::invoice(number));
        match answer.map_err(|refusal| refusal.downcast_ref::<HnsrRuntimeError>().copied()) {
            Err(Some(refusal @ HnsrRuntimeError::Capacity)) => {
                println!("     it is refused, {}: {refusal}", refusal.number());
                Ok(())
            }
            other => Err(format!("Capacity expected, not {other:?}").into()),
        }
    }

    pub fn hang_up(&mut self, circuit: Id) -> Result<()> {
        let letters = self.say(self.merchant(), HnsrOpcode::Close, circuit, &bodies::close(0, "all paid"))?;
        self.record(letters, |reckoning, routes| reckoning.closed(circuit, routes));
        Ok(())
    }

    fn say(&mut self, from: HnsrPeerId, opcode: HnsrOpcode, circuit: Id, body: &[u8]) -> Result<Vec<Letter>> {
        let packet = HnsrPacket::new(opcode, circuit, body)?;
        println!("     {} says {}", self.name(from), shown(packet));
        Ok(self.relay.handle(&Admission::Refused, &from, &packet, self.now)?.to_vec())
    }
}

/// What happens on the way.
impl Office {
    /// All letters arrive; nothing is acknowledged yet.
    pub fn deliver(&mut self) -> Result<Vec<Letter>> {
        let letters: Vec<Letter> = self.bag.drain(..).collect();
        for Letter { route, .. } in &letters {
            println!("     {} gets {}", self.name(route.destination), shown(route.packet.as_packet()));
            if route.packet.opcode == HnsrOpcode::Data {
                let sent = self.expected.pop_front().ok_or("an invoice that nobody sent")?;
                if route.packet.body != sent {
                    return Err("an invoice arrived changed".into());
                }
                self.arrived += 1;
            }
        }
        Ok(letters)
    }

    /// All letters arrive, and are acknowledged at once; what goes to a broken connection is
    /// lost. Until no letter is left.
    pub fn settle(&mut self) -> Result<()> {
        while !self.bag.is_empty() {
            for letter in self.deliver()? {
                let reached = [self.merchant(), self.supplier()].contains(&letter.route.destination);
                self.acknowledge(letter, reached)?;
            }
        }
        Ok(())
    }

    pub fn acknowledge(&mut self, letter: Letter, delivered: bool) -> Result<()> {
        let letters = self.relay.acknowledge(letter.action_id, delivered)?.to_vec();
        self.record(letters, |reckoning, routes| reckoning.acknowledged(&letter, delivered, routes));
        Ok(())
    }

    /// The last letter is lost.
    pub fn lose(&mut self) -> Result<()> {
        let letter = self.bag.pop_back().ok_or("no letter")?;
        self.expected.pop_back();
        println!("     {} -- lost on the way", shown(letter.route.packet.as_packet()));
        self.acknowledge(letter, false)
    }

    /// An acknowledgement that the relay must refuse so.
    pub fn refused(&mut self, letter: Letter, expected: HnsrRuntimeError) -> Result<()> {
        match self.relay.acknowledge(letter.action_id, true) {
            Err(refusal) if refusal == expected => {
                println!("     the acknowledgement is refused, {}: {refusal}", refusal.number());
                Ok(())
            }
            other => Err(format!("{expected:?} expected, not {other:?}").into()),
        }
    }

    /// The box comes back by a new connection.
    pub fn break_connection(&mut self) -> Result<()> {
        let broken = self.supplier();
        let letters = self.relay.disconnect(&broken)?.to_vec();
        self.record(letters, |reckoning, routes| reckoning.disconnected(broken, routes));
        self.connections += 1;
        Ok(())
    }

    /// The host sleeps until something is due, and ends it.
    pub fn expire(&mut self) -> Result<()> {
        self.now = self.now.max(self.relay.next_due().ok_or("nothing is due")?);
        println!("     the host wakes at {}", self.now);
        let letters = self.relay.expire(self.now)?.to_vec();
        let now = self.now;
        self.record(letters, |reckoning, routes| reckoning.expired(now, routes));
        Ok(())
    }

    pub fn switch(&mut self, enabled: bool) -> Result<()> {
        let generation = self.relay.status().generation;
        let letters = self.relay.replace_enabled(generation, enabled)?.to_vec();
        self.record(letters, |reckoning, routes| reckoning.switched(enabled, routes));
        Ok(())
    }
}

/// The book beside the relay.
impl Office {
    /// Enters a call, and takes its routes into the bag.
    fn record(&mut self, routes: Vec<Letter>, enter: impl FnOnce(&mut Reckoning, &[Letter])) {
        enter(&mut self.reckoning, &routes);
        self.bag.extend(routes);
    }

    /// What must be where nothing is left to wake for.
    pub fn idle(&self) -> Result<()> {
        match (self.relay.reservations().count(), self.relay.next_due()) {
            (0, None) => Ok(()),
            left => Err(format!("reservations, and what is due next: {left:?}").into()),
        }
    }

    /// Prints how many more routes fit toward the merchant, and holds what fits toward everybody to the reckoning.
    pub fn room(&self) -> Result<()> {
        match self.relay.action_capacity(&self.merchant(), self.circuit)? {
            1 => println!("   | 1 more route fits to purchasing"),
            more => println!("   | {more} more routes fit to purchasing"),
        }
        let stranger = HnsrPeerId::new("stranger")?;
        for peer in [self.merchant(), self.supplier(), stranger] {
            for circuit in self.reckoning.asked_for().chain([Id::default()]) {
                let (told, reckoned) =
                    (self.relay.action_capacity(&peer, circuit)?, self.reckoning.action_capacity(peer, circuit));
                if told != reckoned {
                    return Err(format!("{told} more routes fit to {peer}, by the history {reckoned}").into());
                }
            }
        }
        Ok(())
    }

    /// Prints the status page, and holds it to the reckoning.
    pub fn check(&self) -> Result<()> {
        let (told, reckoned) = (self.relay.status(), self.reckoning.status());
        for line in told.to_string().lines() {
            println!("   | {line}");
        }
        let due = self.relay.next_due().map_or_else(|| "nothing".to_owned(), |due| due.to_string());
        println!("   | reservations: {}, due next: {due}", self.relay.reservations().count());
        self.room()?;
        if told != reckoned {
            return Err(format!("the relay tells\n{told:#?}\nand the history makes\n{reckoned:#?}").into());
        }
        let listed = self.relay.reservations().map(|reservation| (reservation.reservation_id, reservation.expires_at));
        if listed.collect::<BTreeMap<_, _>>() != *self.reckoning.reservations() {
            return Err("the relay has other reservations than the history makes".into());
        }
        let (due, reckoned) = (self.relay.next_due(), self.reckoning.next_due());
        if due != reckoned {
            return Err(format!("next due is {due:?}, by the history {reckoned:?}").into());
        }
        Ok(())
    }
}

/// A message as the log shows it: an invoice by its first line, a closing by its detail.
fn shown(packet: HnsrPacket<'_>) -> String {
    let text = match packet.opcode {
        HnsrOpcode::Data => std::str::from_utf8(packet.body).ok().and_then(|invoice| invoice.lines().next()),
        HnsrOpcode::Close | HnsrOpcode::Error => CloseBody::decode(packet.body).ok().map(|close| close.detail),
        _ => None,
    };
    text.map_or_else(|| packet.opcode.to_string(), |text| format!("{}: {text}", packet.opcode))
}
