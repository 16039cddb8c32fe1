//! How many more actions fit: `status` asked after each call, about peers and circuits by chance.
use super::Case;
use super::checks::{Checked, ensure, other_behind_names};
use super::lent::{given_name, id};
use crate::Call;
use crate::answer::status_numbers;
use crate::bytes::hex;
use crate::reading::World;
use crate::rng::Rng;
use lekchnam_host::HnsrOpcode;
use lekchnam_host::HnsrRuntimeError::{Capacity, InvalidPeer, Short};
use lekchnam_host::lent::{self, InflightAction, RelayCircuit};
use lekchnam_host::limits::{HANDLE_WORDS, MAXIMUM_PEER};

/// How many pairs are asked about after a call.
const PAIRS: usize = 2;

/// About whom and what `status` is asked.
#[derive(Clone, Copy, Debug, Eq, Ord, PartialEq, PartialOrd)]
pub enum Pair {
    /// Where an action goes, and what it is about.
    Known,
    /// Where an action goes, and another circuit.
    OtherCircuit,
    /// The same of a place that is not used: unmarked, or at or above the number.
    Unused,
    /// A name that no record has.
    UnknownPeer,
    /// A circuit that no record has.
    UnknownCircuit,
    CircuitZero,
    /// The other side of a circuit, and the circuit, as a WINDOW finds them.
    ByWindow,
    NoBytes,
    /// A name of one byte more than the most.
    OneTooMany,
    /// And of more than that.
    TooMany,
}

/// What it tells.
#[derive(Clone, Copy, Debug, Eq, Ord, PartialEq, PartialOrd)]
pub enum Told {
    /// No more fit.
    Nothing,
    /// Some do.
    Some,
    /// 22.
    Short,
    /// 4.
    NoName,
}

impl Pair {
    pub const ALL: [Self; 10] = [
        Self::Known,
        Self::OtherCircuit,
        Self::Unused,
        Self::UnknownPeer,
        Self::UnknownCircuit,
        Self::CircuitZero,
        Self::ByWindow,
        Self::NoBytes,
        Self::OneTooMany,
        Self::TooMany,
    ];

    /// What must be told of such a pair at times. Over tables that are short no WINDOW is tried.
    pub fn expected(self) -> &'static [Told] {
        match self {
            Self::NoBytes | Self::OneTooMany | Self::TooMany => &[Told::Short, Told::NoName],
            Self::ByWindow => &[Told::Nothing, Told::Some],
            _ => &[Told::Nothing, Told::Some, Told::Short],
        }
    }

    /// A name and a circuit's id, if the world has such.
    fn by_chance(self, world: &World, rng: &mut Rng) -> Option<(Vec<u8>, u64)> {
        let tables = &world.tables;
        let stands = |place: &usize| tables.inflight[*place].used && *place < tables.places.actions;
        let mut one_of = |stand: bool| {
            let places: Vec<usize> = (0..tables.inflight.len()).filter(|place| stands(place) == stand).collect();
            (!places.is_empty()).then(|| tables.inflight[*rng.pick(&places)])
        };
        let name = |action: InflightAction| action.destination.as_bytes().to_vec();
        Some(match self {
            Self::Known => one_of(true).map(|action| (name(action), action.circuit_id))?,
            Self::OtherCircuit => {
                let action = one_of(true)?;
                let others: Vec<u64> = [1, 2, 3, u64::MAX].into_iter().filter(|id| *id != action.circuit_id).collect();
                (name(action), *rng.pick(&others))
            }
            Self::Unused => one_of(false).map(|action| (name(action), action.circuit_id))?,
            // alike but for one byte, and one byte shorter than another
            Self::UnknownPeer => (rng.pick(&[&b"peer-number-0003"[..], &[b'x'; MAXIMUM_PEER - 1]]).to_vec(), id(rng)),
            Self::UnknownCircuit => (given_name(rng), *rng.pick(&[4, 1 << 48, u64::MAX - 1])),
            Self::CircuitZero => (given_name(rng), 0),
            // the WINDOW has it
            Self::ByWindow => return None,
            Self::NoBytes => (Vec::new(), id(rng)),
            Self::OneTooMany => (vec![b'x'; MAXIMUM_PEER + 1], id(rng)),
            Self::TooMany => (vec![b'x'; *rng.pick(&[MAXIMUM_PEER + 2, 1_000])], id(rng)),
        })
    }
}

/// Asks about pairs by chance, and tells what was told of each.
pub fn asked(world: &World, rng: &mut Rng) -> Result<Vec<(Pair, Told)>, String> {
    let mut asked = Vec::new();
    for _ in 0..PAIRS {
        let pair = *rng.pick(&Pair::ALL);
        let window = if pair == Pair::ByWindow { window(world, rng) } else { None };
        let about = match &window {
            Some(window) => Some((window.peer.clone(), window.circuit)),
            None => pair.by_chance(world, rng),
        };
        let Some((peer, circuit)) = about else { continue };
        let wrong = |wrong| format!("{wrong}; asked about {pair:?}, the name {} and the circuit {circuit}", hex(&peer));
        let told = told(world, &peer, circuit, rng).map_err(wrong)?;
        window.map_or(Ok(()), |window| window.finds(world, told))?;
        asked.push((pair, told));
    }
    Ok(asked)
}

/// The answer and the number are those of the second reading, the status is the same for everybody, and what unused
/// places hold and what stands behind a name makes no difference.
fn told(world: &World, peer: &[u8], circuit: u64, rng: &mut Rng) -> Result<Told, String> {
    let asked = |world: &World| lent::status(&world.tables, &world.runtime, peer, circuit);
    let told = asked(world);
    let number = told.map(|told| told.action_capacity);
    let read = world.action_capacity(peer, circuit);
    ensure(number == read, &format!("how many more actions fit: {number:?}, by the second reading {read:?}"))?;
    if let Ok(told) = told {
        let status = world.told().map(|after| after.status);
        ensure(status == Ok(status_numbers(&told.status)), "`status` tells something else for a pair")?;
    }
    ensure(asked(&world.with_other_unused_places(rng)) == told, "what unused places hold makes a difference")?;
    ensure(asked(&other_behind_names(world, rng)) == told, "what stands behind a name makes a difference")?;
    match number {
        Ok(0) => Ok(Told::Nothing),
        Ok(_) => Ok(Told::Some),
        Err(Short) => Ok(Told::Short),
        Err(InvalidPeer) => Ok(Told::NoName),
        Err(refused) => Err(format!("`status` is refused with {}", refused.number())),
    }
}

/// A WINDOW by a circuit of the world, and whom it goes to.
struct Window {
    call: Call,
    peer: Vec<u8>,
    circuit: u64,
}

/// One that comes as far as the row of the actions: nothing in front of it refuses.
fn window(world: &World, rng: &mut Rng) -> Option<Window> {
    let (runtime, below) = (&world.runtime, world.tables.in_use());
    if !runtime.enabled || world.told().is_err() {
        return None;
    }
    let used: Vec<&RelayCircuit> = below.circuits.iter().filter(|circuit| circuit.used).collect();
    // of two with one id the lowest is meant
    let lowest = |circuit: &RelayCircuit| used.iter().find(|other| other.circuit_id == circuit.circuit_id);
    let circuit = lowest(used.get(rng.below(used.len().max(1) as u64) as usize)?)?;
    let (requester, endpoint) = (circuit.requester.as_bytes(), circuit.endpoint.as_bytes());
    // a peer that is both sides is the requester
    let by_requester = rng.chance(50) || requester == endpoint;
    let (source, peer) = if by_requester { (requester, endpoint) } else { (endpoint, requester) };
    let named = !source.is_empty() && !peer.is_empty() && circuit.circuit_id != 0;
    named.then(|| Window {
        call: Call::Handle {
            source: source.to_vec(),
            opcode: HnsrOpcode::Window.into(),
            context: circuit.circuit_id.to_be_bytes(),
            body: 1_u32.to_le_bytes().to_vec(),
            now: runtime.trusted_time_high_water,
            key_valid: true,
            admission: None,
            random: Vec::new(),
        },
        peer: peer.to_vec(),
        circuit: circuit.circuit_id,
    })
}

impl Window {
    /// It is refused with 10 exactly where no more actions fit.
    fn finds(self, world: &World, told: Told) -> Checked {
        let left = Case { world: world.clone(), call: self.call, out: vec![0; HANDLE_WORDS] }.made();
        let full = left.answer == Err(Capacity);
        ensure(full == (told == Told::Nothing), "a WINDOW finds another room than `status` tells")
    }
}
