//! The library beyond the domain (DOMAIN.4): runtimes, tables, numbers of places, output words and names that no run
//! has.
//!
//! Each call is made on what the one before it left, or on a new world by chance. Whatever it is lent, the library must
//! do what the second reading of the rules does, and what `checks` says in words.

mod calls;
mod capacity;
mod checks;
mod due;
mod lent;
mod made;

use crate::Call;
use crate::counts::Counts;
use crate::reading::World;
use crate::rng::Rng;
pub use capacity::{Pair, Told};
pub use due::Due;
use lekchnam_host::lent::Tables;
use made::Left;
use std::collections::BTreeMap;
use std::fmt::{self, Display, Formatter};

/// In a hundred calls so many begin in a new world, and of the others so many over new numbers.
const NEW_WORLDS: u64 = 15;
const NEW_NUMBERS: u64 = 10;

/// A call, and what it is lent.
struct Case {
    world: World,
    call: Call,
    out: Vec<u32>,
}

/// What the number of a table is beside its places and marks.
#[derive(Clone, Copy, Debug, Eq, Ord, PartialEq, PartialOrd)]
pub enum Number {
    /// A mark is set at or above it.
    TooSmall,
    /// Smaller than the table, and no mark is set at or above it.
    Between,
    /// The table's size.
    Size,
    /// Larger than that.
    Larger,
    Largest,
}

impl Number {
    pub const ALL: [Self; 5] = [Self::TooSmall, Self::Between, Self::Size, Self::Larger, Self::Largest];

    fn of<R>(number: usize, table: &[R], marked: fn(&R) -> bool) -> Self {
        match number {
            usize::MAX => Self::Largest,
            number if number > table.len() => Self::Larger,
            number if number == table.len() => Self::Size,
            number if table[number..].iter().any(marked) => Self::TooSmall,
            _ => Self::Between,
        }
    }
}

/// How often each answer came, by call, and over which numbers; what next due went by after the calls; and what was
/// told of how many more actions fit.
#[derive(Default)]
pub struct Answers {
    by_call: BTreeMap<&'static str, Counts>,
    numbers: BTreeMap<Number, u64>,
    due: BTreeMap<Due, u64>,
    capacity: BTreeMap<Pair, BTreeMap<Told, u64>>,
}

impl Answers {
    fn add(&mut self, case: &Case, left: &Left, asked: Vec<(Pair, Told)>) {
        self.by_call.entry(case.call.label()).or_default().add(left.number());
        let Tables { pending, circuits, ledger, inflight, places } = &case.world.tables;
        for number in [
            Number::of(places.pending, pending, |record| record.used),
            Number::of(places.circuits, circuits, |record| record.used),
            Number::of(places.ledger, ledger, |record| record.used),
            Number::of(places.actions, inflight, |record| record.used),
        ] {
            *self.numbers.entry(number).or_default() += 1;
        }
        for due in Due::of(&left.world) {
            *self.due.entry(due).or_default() += 1;
        }
        for (pair, told) in asked {
            *self.capacity.entry(pair).or_default().entry(told).or_default() += 1;
        }
    }

    /// How often an answer came.
    pub fn of(&self, number: u8) -> u64 {
        self.by_call.values().map(|counts| counts.of(number)).sum()
    }

    /// How often a table was lent with such a number: four tables a call.
    pub fn over(&self, number: Number) -> u64 {
        self.numbers.get(&number).copied().unwrap_or(0)
    }

    /// After how many calls next due went by this.
    pub fn due(&self, due: Due) -> u64 {
        self.due.get(&due).copied().unwrap_or(0)
    }

    /// How often such a pair was asked about, and this was told.
    pub fn capacity(&self, pair: Pair, told: Told) -> u64 {
        self.capacity.get(&pair).and_then(|counts| counts.get(&told)).copied().unwrap_or(0)
    }
}

impl Display for Answers {
    fn fmt(&self, f: &mut Formatter<'_>) -> fmt::Result {
        self.by_call.iter().try_for_each(|(label, counts)| writeln!(f, "  {label:<19} {counts}"))?;
        let numbers: Vec<String> = self.numbers.iter().map(|(number, count)| format!("{number:?}:{count}")).collect();
        writeln!(f, "numbers of places in use, four a call: {}", numbers.join(" "))?;
        let due: Vec<String> = self.due.iter().map(|(due, count)| format!("{due:?}:{count}")).collect();
        writeln!(f, "next due after a call: {}", due.join(" "))?;
        writeln!(f, "how many more actions fit after a call:")?;
        self.capacity.iter().try_for_each(|(pair, counts)| {
            let counts: Vec<String> = counts.iter().map(|(told, count)| format!("{told:?}:{count}")).collect();
            writeln!(f, "  {:<19} {}", format!("{pair:?}"), counts.join(" "))
        })
    }
}

/// So many calls by chance. The first that is wrong ends it, with all that is needed to make it again.
pub fn beyond(seed: u64, calls: u64) -> Result<Answers, String> {
    // what is asked between the calls does not change the calls of a seed
    let (mut rng, mut asking) = (Rng::new(seed), Rng::new(!seed));
    let mut answers = Answers::default();
    let mut world = World::by_chance(&mut rng);
    for index in 0..calls {
        if rng.chance(NEW_WORLDS) {
            world = World::by_chance(&mut rng);
        } else if rng.chance(NEW_NUMBERS) {
            world.tables.places = lent::numbers(&mut rng, &world.tables);
        }
        let case = Case::by_chance(&mut rng, world);
        let left = case.made();
        let checked = checks::all(&case, &left, &mut rng).and_then(|()| capacity::asked(&left.world, &mut asking));
        let asked = checked.map_err(|wrong| {
            let (call, room) = (case.call.text('d'), case.out.len());
            format!(
                "call {index} of seed {seed}: {wrong}\n{call}\n{room} output words lent\n{:#?}\nleft\n{left:#?}",
                case.world
            )
        })?;
        answers.add(&case, &left, asked);
        world = left.world;
    }
    Ok(answers)
}

impl Case {
    fn by_chance(rng: &mut Rng, world: World) -> Self {
        // a copy takes just the memory that it needs
        let call = world.call_by_chance(rng).clone();
        let needed = call.words_needed(world.records());
        let room = match rng.below(60) {
            0 => 0,
            1 => needed.saturating_sub(1),
            2 => rng.below(2 * needed as u64 + 1) as usize,
            3..=12 => needed + rng.below(200) as usize,
            _ => needed,
        };
        let out: Box<[u32]> = (0..room).map(|_| rng.draw() as u32).collect();
        Self { world, call, out: out.into_vec() }
    }
}
