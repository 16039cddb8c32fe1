//! The proved library, or another machine, beside the Rust, call by call.
use crate::generate::Run;
use crate::run::Rust;
use crate::{Oracle, action_capacity};
use lekchnam_traces::bytes::hex;
use lekchnam_traces::counts::Counts;
use lekchnam_traces::file::Places;
use lekchnam_traces::replay::Machine;
use lekchnam_traces::{Answer, Event, State};
use std::collections::BTreeSet;
use std::fmt::{self, Display, Formatter};

/// In a trace file the calls begin in this line.
const FIRST_LINE: usize = 3;

/// About so many known pairs a machine is asked after each call.
const KNOWN_PAIRS: usize = 8;

/// A peer and a circuit that are unknown to every relay of a trace: its peers have other names, and ids by chance do
/// not come to this one.
const UNKNOWN_PEER: &[u8] = b"unknown";
const UNKNOWN_CIRCUIT: [u8; 8] = *b"unknown.";

/// A peer, and a circuit's id.
type Pair<'a> = (&'a [u8], [u8; 8]);

/// What was compared.
#[derive(Clone, Debug, Default)]
pub struct Compared {
    /// How often each answer came.
    pub answers: Counts,
    /// How often it was asked how many more actions fit.
    pub asked: u64,
    /// And how often none did.
    pub zeros: u64,
}

impl Display for Compared {
    fn fmt(&self, f: &mut Formatter<'_>) -> fmt::Result {
        let Self { answers, asked, zeros } = self;
        write!(f, "{} calls, answers {answers}; how many more actions fit: asked {asked} times, ", answers.total())?;
        write!(f, "{zeros} times none")
    }
}

/// Compares every call of one seed's trace: the answer, its cause, every output word, status, next due, the whole
/// private state, and how many more actions fit.
pub fn compare<Runs: Machine>(
    seed: u64,
    calls: usize,
    make: impl Fn(Places) -> Runs,
    compared: &mut Compared,
) -> Result<(), String> {
    let mut run = Run::new(seed, calls);
    let mut machine = make(run.places);
    for line in FIRST_LINE.. {
        let Some(event) = run.next() else { break };
        let came = machine.call(event.class, &event.call);
        let other = difference(&event, &came, &machine)
            .or_else(|| other_capacity(&event, run.rust(), &machine, line, compared));
        if let Some(what) = other {
            let call = event.call.text(event.class);
            let (rust, came) = (event.answer.text(true), came.text(true));
            return Err(format!("seed {seed}, line {line}: {what}\n  call {call}\n  Rust {rust}\n  came {came}"));
        }
        compared.answers.add(came.number);
    }
    Ok(())
}

fn difference(event: &Event, came: &Answer, machine: &impl Machine) -> Option<String> {
    event.answer.difference(came).or_else(|| match (&event.after, machine.state()) {
        (Some(expected), Some(came)) => expected.difference(&came),
        (expected, came) => {
            (expected.is_some() != came.is_some()).then(|| "one has a relay, the other none".to_owned())
        }
    })
}

/// How many more actions fit: as many as the Rust's private state leaves, and none exactly where the Rust's own test
/// refuses.
fn other_capacity(
    event: &Event,
    rust: &Rust,
    machine: &impl Machine,
    turn: usize,
    compared: &mut Compared,
) -> Option<String> {
    let (state, relay) = (event.after.as_ref()?, rust.relay()?);
    pairs(state, turn).into_iter().find_map(|pair| other_number(state, relay, machine, pair, compared))
}

fn other_number(
    state: &State,
    relay: &Oracle,
    machine: &impl Machine,
    (peer, circuit): Pair<'_>,
    compared: &mut Compared,
) -> Option<String> {
    let expected = action_capacity(state, peer, circuit);
    let (fits, came) = (relay.action_fits(peer, circuit), machine.action_capacity(peer, circuit));
    compared.asked += 1;
    compared.zeros += u64::from(expected == 0);
    let whose = || format!("how many more actions fit toward {} about {}", hex(peer), hex(&circuit));
    if fits != (expected > 0) {
        return Some(format!("{}: by hand {expected}, and by the Rust one more fits: {fits}", whose()));
    }
    (came != Some(expected)).then(|| format!("{}: expected {expected}, came {came:?}", whose()))
}

/// What is asked about: pairs that an action or a circuit has, in turn where they are many; and a peer, a circuit and
/// both that nothing has, and the circuit 0.
fn pairs(state: &State, turn: usize) -> Vec<Pair<'_>> {
    let actions = state.actions.iter().map(|action| (&action.destination[..], action.circuit_id));
    let sides = state
        .circuits
        .iter()
        .flat_map(|circuit| [&circuit.requester, &circuit.endpoint].map(|side| (&side[..], circuit.id)));
    let known: BTreeSet<Pair<'_>> = actions.chain(sides).collect();
    let first = turn % known.len().max(1);
    let mut pairs: Vec<Pair<'_>> =
        known.iter().cycle().skip(first).take(known.len().min(KNOWN_PAIRS)).copied().collect();
    let (peer, circuit) = pairs.first().copied().unwrap_or((UNKNOWN_PEER, UNKNOWN_CIRCUIT));
    pairs.extend([(UNKNOWN_PEER, circuit), (peer, UNKNOWN_CIRCUIT), (UNKNOWN_PEER, UNKNOWN_CIRCUIT), (peer, [0; 8])]);
    pairs
}
