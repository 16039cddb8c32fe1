//! The proved library, and the second reading that it is held to beyond the domain (DOMAIN.4), against the Rust.
use lekchnam_traces::file::Places;
use lekchnam_traces::reading::Reading;
use lekchnam_traces::replay::Machine;
use lekchnam_traces::{Answer, Call, Class, Relay, State};
use oracle::action_capacity;
use oracle::compare::{Compared, compare};

const TRACES: u64 = 500;
const CALLS: usize = 200;

fn compared<Runs: Machine>(who: &str, make: impl Fn(Places) -> Runs) {
    let mut compared = Compared::default();
    for seed in 0..TRACES {
        compare(seed, CALLS, &make, &mut compared).unwrap_or_else(|difference| panic!("{difference}"));
    }
    let calls = TRACES * CALLS as u64;
    assert!(compared.asked > 4 * calls && compared.zeros > calls / 10, "{compared}");
    println!("compared with the Rust: {TRACES} traces of {who}, {compared}");
}

#[test]
fn the_library() {
    compared("the library", Relay::new);
}

#[test]
fn the_second_reading() {
    compared("the second reading", Reading::new);
}

/// A relay that takes every route for delivered.
struct Trusting(Relay);

impl Machine for Trusting {
    fn call(&mut self, class: Class, call: &Call) -> Answer {
        match call.clone() {
            Call::Acknowledge { generation, sequence, .. } => {
                self.0.call(class, &Call::Acknowledge { generation, sequence, delivered: true })
            }
            call => self.0.call(class, &call),
        }
    }

    fn state(&self) -> Option<State> {
        self.0.state()
    }

    fn action_capacity(&self, peer: &[u8], circuit: [u8; 8]) -> Option<usize> {
        self.0.action_capacity(peer, circuit)
    }
}

#[test]
fn a_difference_is_told_with_its_seed_and_line() {
    let seeds =
        (0..TRACES).map(|seed| compare(seed, CALLS, |places| Trusting(Relay::new(places)), &mut Compared::default()));
    let told: Vec<String> = seeds.filter_map(Result::err).collect();
    assert!(told.len() > TRACES as usize / 2, "{} differences", told.len());
    for difference in told {
        let lines: Vec<&str> = difference.lines().collect();
        assert!(lines[0].starts_with("seed ") && lines[0].contains(": expected ") && lines[0].contains(", came "));
        assert!(lines[1].starts_with("  call acknowledge d ") && lines[1].ends_with(" 0"));
        assert!(
            lines[2].starts_with("  Rust 0 - ")
                || lines[2].starts_with("  Rust 6 - ")
                || lines[2].starts_with("  Rust 10 - ")
        );
        assert!(lines[3].starts_with("  came 0 - "));
    }
}

type Number = fn(&mut State, &[u8], [u8; 8]) -> usize;

/// A relay that tells another number of further actions, by its own state.
struct Telling(Relay, Number);

impl Machine for Telling {
    fn call(&mut self, class: Class, call: &Call) -> Answer {
        self.0.call(class, call)
    }

    fn state(&self) -> Option<State> {
        self.0.state()
    }

    fn action_capacity(&self, peer: &[u8], circuit: [u8; 8]) -> Option<usize> {
        self.state().map(|mut state| self.1(&mut state, peer, circuit))
    }
}

/// Each is wrong in one way.
const WRONG_NUMBERS: [(&str, Number); 7] = [
    ("one too many", |state, peer, circuit| action_capacity(state, peer, circuit) + 1),
    ("one too few", |state, peer, circuit| action_capacity(state, peer, circuit).saturating_sub(1)),
    ("without the relay's limit", |state, peer, circuit| {
        state.config.maximum_inflight_actions = usize::MAX;
        action_capacity(state, peer, circuit)
    }),
    ("without the circuit's limit", |state, peer, circuit| {
        state.config.maximum_inflight_actions_per_circuit = usize::MAX;
        action_capacity(state, peer, circuit)
    }),
    ("without the peer's limit", |state, peer, circuit| {
        state.config.maximum_inflight_actions_per_peer = usize::MAX;
        action_capacity(state, peer, circuit)
    }),
    ("as an ACCEPT counts", |state, peer, circuit| {
        state.actions.retain(|action| action.circuit_id != circuit);
        action_capacity(state, peer, circuit)
    }),
    ("of known peers alone", |state, peer, circuit| {
        let known = state.actions.iter().any(|action| action.destination == peer);
        if known { action_capacity(state, peer, circuit) } else { 0 }
    }),
];

#[test]
fn another_number_of_further_actions_is_told() {
    for (wrong, number) in WRONG_NUMBERS {
        let telling = |places| Telling(Relay::new(places), number);
        let mut seeds = (0..TRACES).map(|seed| compare(seed, CALLS, telling, &mut Compared::default()));
        let told = seeds.find_map(Result::err).unwrap_or_else(|| panic!("{wrong}: not found"));
        let first = told.lines().next().expect("a line");
        assert!(first.starts_with("seed ") && first.contains(": how many more actions fit toward "), "{wrong}: {told}");
        assert!(first.contains(": expected ") && first.contains(", came Some("), "{wrong}: {told}");
    }
}
