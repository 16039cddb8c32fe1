//! What stands in the tables beside the circuits that the calls are measured on.
use crate::circuit::Circuit;
use crate::relay::OWN;
use crate::side::{ActionId, Message, Seen, Side};
use lekchnam_traces::Config;

/// The first numbers of the load's circuits and OPENs, and of their peers.
const CIRCUITS: u64 = 1_000_000;
const PENDING: u64 = 2_000_000;

/// How many circuits the peers of the load have.
const PER_REQUESTER: u64 = 8;
const PER_ENDPOINT: u64 = 16;

/// How many unacknowledged actions a circuit has at the most.
const PER_CIRCUIT: usize = 64;

/// How many records a load has.
#[derive(Clone, Copy, Debug)]
pub struct Fill {
    pub pending: usize,
    pub circuits: usize,
    pub actions: usize,
}

impl Fill {
    /// A share of each table, less the places that the measured calls take: each is made once on each own circuit,
    /// and sends two routes at the most. There are circuits enough for the actions.
    pub fn share(config: &Config, share: f64) -> Self {
        let part = |places: usize, own: usize| ((places as f64 * share) as usize).saturating_sub(own);
        let actions = part(config.maximum_inflight_actions, 2 * OWN);
        Self {
            pending: part(config.maximum_pending, OWN),
            circuits: part(config.maximum_circuits, OWN).max(actions.div_ceil(PER_CIRCUIT)),
            actions,
        }
    }

    /// So many actions outstanding, less the same places, on as many circuits as are measured; no OPEN waits.
    pub fn few_circuits(outstanding: usize) -> Self {
        Self { pending: 0, circuits: OWN, actions: outstanding.saturating_sub(2 * OWN) }
    }

    /// What ends when all does.
    pub fn ending(&self) -> usize {
        self.pending + self.circuits
    }

    /// Under how many reservations the load goes.
    pub fn reservations(&self) -> usize {
        [self.pending, self.circuits].map(|records| records.div_ceil(PER_ENDPOINT as usize)).iter().sum()
    }
}

/// The load of one side.
pub struct Load<S: Side> {
    pending: usize,
    circuits: usize,
    /// DATA of one byte of each circuit's requester, then of its endpoint. There may be more than there are circuits.
    data: Vec<S::Packet>,
    /// Its routes that are not acknowledged.
    actions: Seen,
}

impl<S: Side> Load<S> {
    pub fn new() -> Self {
        Self { pending: 0, circuits: 0, data: Vec::new(), actions: Seen::default() }
    }

    /// None yet, but the driver's own memory for it is taken.
    pub fn ready(to: Fill) -> Self {
        let mut load = Self::new();
        (0..to.circuits).for_each(|place| load.add_data(&spread(CIRCUITS, place)));
        load.actions.ids = vec![ActionId { generation: 1, sequence: 1 }; to.actions];
        load.actions.ids.clear();
        load
    }

    /// Adds what is missing. Where there is too much of something, all ends first.
    pub fn fill(&mut self, side: &mut S, to: Fill) {
        if self.actions.ids.len() > to.actions {
            self.end(side);
        }
        while self.circuits < to.circuits {
            self.add_circuit(side);
        }
        while self.pending < to.pending {
            open(side, &spread(PENDING, self.pending));
            self.pending += 1;
        }
        while self.actions.ids.len() < to.actions {
            let next = self.actions.ids.len() % (2 * self.circuits);
            side.handle(&self.data[next], &mut self.actions);
        }
    }

    fn add_circuit(&mut self, side: &mut S) {
        let circuit = spread(CIRCUITS, self.circuits);
        open(side, &circuit);
        delivered(side, &circuit.accept());
        self.circuits += 1;
        if self.data.len() < 2 * self.circuits {
            self.add_data(&circuit);
        }
    }

    fn add_data(&mut self, circuit: &Circuit) {
        self.data.push(S::packet(&circuit.data(circuit.requester, 1)));
        self.data.push(S::packet(&circuit.data(circuit.endpoint, 1)));
    }

    fn end(&mut self, side: &mut S) {
        for id in std::mem::take(&mut self.actions.ids) {
            side.acknowledge(id, &mut self.actions);
        }
        for place in 0..self.circuits {
            delivered(side, &spread(CIRCUITS, place).close());
        }
        for place in 0..self.pending {
            delivered(side, &spread(PENDING, place).cancel());
        }
        *self = Self::new();
    }
}

/// A circuit of the load: a peer has several.
fn spread(first: u64, place: usize) -> Circuit {
    let place = place as u64;
    Circuit::new(first + place, first + 2 * (place / PER_REQUESTER), first + 2 * (place / PER_ENDPOINT) + 1)
}

fn open<S: Side>(side: &mut S, circuit: &Circuit) {
    getrandom::set_queue(&circuit.id);
    delivered(side, &circuit.open());
}

/// A message whose route is delivered.
fn delivered<S: Side>(side: &mut S, message: &Message) {
    let mut seen = Seen::default();
    side.handle(&S::packet(message), &mut seen);
    for id in std::mem::take(&mut seen.ids) {
        side.acknowledge(id, &mut seen);
    }
}
