//! One side with its load, and the circuits that the calls are measured on.
use crate::call::{Call, Refusal, SIZES, Turn};
use crate::circuit::Circuit;
use crate::load::{Fill, Load};
use crate::side::{Message, NOW, Seen, Side};
use crate::times::Times;

/// How many circuits the calls are measured on. Each call is made once on each.
pub const OWN: usize = 8;

/// Their messages, as a side takes them.
struct Own<S: Side> {
    /// The ids that the OPENs draw.
    draws: Vec<u8>,
    open: Vec<S::Packet>,
    accept: Vec<S::Packet>,
    data: [Vec<S::Packet>; SIZES.len()],
    window: [Vec<S::Packet>; SIZES.len()],
    close: Vec<S::Packet>,
    refused: [Vec<S::Packet>; Refusal::ALL.len()],
    requesters: Vec<S::Peer>,
}

impl<S: Side> Own<S> {
    fn new() -> Self {
        let circuits: Vec<Circuit> =
            (0..OWN as u64).map(|number| Circuit::new(number, 2 * number, 2 * number + 1)).collect();
        let each = |message: &dyn Fn(&Circuit) -> Message| circuits.iter().map(|c| S::packet(&message(c))).collect();
        Self {
            draws: circuits.iter().flat_map(|circuit| circuit.id).collect(),
            open: each(&Circuit::open),
            accept: each(&Circuit::accept),
            data: SIZES.map(|size| each(&|circuit| circuit.data(circuit.requester, size))),
            window: SIZES.map(|size| each(&|circuit| circuit.window(size))),
            close: each(&Circuit::close),
            refused: Refusal::ALL.map(|refusal| each(&|circuit| circuit.refused(refusal))),
            requesters: circuits.iter().map(|circuit| S::peer(&circuit.requester)).collect(),
        }
    }
}

pub struct Relay<S: Side> {
    side: S,
    own: Own<S>,
    load: Load<S>,
    pub seen: Seen,
    pub times: Times,
}

impl<S: Side> Relay<S> {
    pub fn new(side: S) -> Self {
        let mut relay = Self { side, own: Own::new(), load: Load::new(), seen: Seen::default(), times: Times::new() };
        relay.open_own();
        relay
    }

    /// Changes the load. The circuits that are measured end before and start again after, so that they stand behind it.
    pub fn fill(&mut self, to: Fill) {
        self.close_own();
        self.load.fill(&mut self.side, to);
        self.open_own();
    }

    pub fn turn(&mut self, turn: Turn) {
        match turn {
            Turn::Traffic(size) => self.traffic(size),
            Turn::Life => {
                self.close_own();
                self.open_own();
            }
            Turn::Leave => {
                self.timed(Call::Disconnect, |side, own, seen, place| side.disconnect(&own.requesters[place], seen));
                self.settle();
                self.open_own();
            }
            Turn::Idle => {
                self.timed(Call::Expire, |side, _, seen, _| side.expire(NOW, seen));
                self.timed(Call::Status, |side, _, seen, _| side.status(seen));
            }
            Turn::Refused => {
                for (kind, refusal) in Refusal::ALL.into_iter().enumerate() {
                    self.timed(Call::Refused(refusal), |side, own, seen, place| {
                        side.refused(&own.refused[kind][place], seen)
                    });
                }
            }
        }
    }

    fn traffic(&mut self, size: usize) {
        self.timed(Call::Data(size), |side, own, seen, place| side.handle(&own.data[size][place], seen));
        let ids = std::mem::take(&mut self.seen.ids);
        self.timed(Call::Acknowledge, |side, _, seen, place| side.acknowledge(ids[place], seen));
        self.timed(Call::Window, |side, own, seen, place| side.handle(&own.window[size][place], seen));
        self.settle();
    }

    fn close_own(&mut self) {
        self.timed(Call::Close, |side, own, seen, place| side.handle(&own.close[place], seen));
        self.settle();
    }

    fn open_own(&mut self) {
        getrandom::set_queue(&self.own.draws);
        self.timed(Call::Open, |side, own, seen, place| side.handle(&own.open[place], seen));
        self.settle();
        self.timed(Call::Accept, |side, own, seen, place| side.handle(&own.accept[place], seen));
        self.settle();
    }

    /// Acknowledges what the last calls sent.
    fn settle(&mut self) {
        for id in std::mem::take(&mut self.seen.ids) {
            self.side.acknowledge(id, &mut self.seen);
        }
    }

    /// Makes a call on each own circuit.
    fn timed(&mut self, call: Call, each: impl Fn(&mut S, &Own<S>, &mut Seen, usize)) {
        self.seen.ids.reserve(2 * OWN);
        let Self { side, own, seen, times, .. } = self;
        times.note(call, OWN, |place| each(side, own, seen, place));
    }
}
