//! What must hold of every call, whatever it is lent.
use super::Case;
use super::made::Left;
use crate::answer::status_numbers;
use crate::reading::World;
use crate::rng::Rng;
use crate::words::words;
use crate::{Answer, Call};
use lekchnam_host::lent::{self, Places, StoredPeer, Tables};
use lekchnam_host::limits::{HEAD_WORDS, MAXIMUM_PEER};
use lekchnam_host::{HnsrOpcode, HnsrRuntimeError};

pub type Checked = Result<(), String>;

pub fn all(case: &Case, left: &Left, rng: &mut Rng) -> Checked {
    output(case, left)?;
    as_read(case, left)?;
    new_alone(case, left)?;
    told(left)?;
    waking(left)?;
    again(case, left)?;
    unused_places(case, left, rng)?;
    behind_names(case, left, rng)?;
    opaque(case, left, rng)
}

pub fn ensure(holds: bool, wrong: &str) -> Checked {
    if holds { Ok(()) } else { Err(wrong.to_owned()) }
}

/// ANS.3, OUT.6, and no more words are written than OUT.8 asks for.
fn output(case: &Case, left: &Left) -> Checked {
    let written = left.answer.unwrap_or(0);
    let needed = case.call.words_needed(case.world.records());
    ensure(written <= needed.min(case.out.len()), "more words are written than OUT.8 asks for")?;
    ensure(left.out[written..] == case.out[written..], "the output is touched beyond the words that are written")
}

/// The answer, its cause, every word, the runtime and every record of a used place are those of the second reading. So
/// a refusal leaves what ANS.4 lets it leave.
fn as_read(case: &Case, left: &Left) -> Checked {
    let mut world = case.world.clone();
    let read = world.call(&case.call, case.out.len());
    let expected = Answer::of(read.map(|routes| words(&routes)), None);
    let came = Answer::of(left.answer.map(|_| left.words().to_vec()), None);
    if let Some(what) = expected.difference(&came) {
        return Err(what);
    }
    ensure(world.runtime == left.world.runtime, "another runtime is left")?;
    ensure(seen(&world) == seen(&left.world), "other records are left")
}

/// The world as it is read: what unused places hold does not count, nor a number but for which places it makes unused.
fn seen(world: &World) -> World {
    let (tables, below) = (&world.tables, world.tables.in_use());
    fn used<R: Copy + Default>(below: &[R], places: usize, used: impl Fn(&R) -> bool) -> Vec<R> {
        let mut seen: Vec<R> = below.iter().map(|record| if used(record) { *record } else { R::default() }).collect();
        seen.resize(places, R::default());
        seen
    }
    let tables = Tables {
        pending: used(below.pending, tables.pending.len(), |record| record.used),
        circuits: used(below.circuits, tables.circuits.len(), |record| record.used),
        ledger: used(below.ledger, tables.ledger.len(), |record| record.used),
        inflight: used(below.inflight, tables.inflight.len(), |record| record.used),
        places: Places::EVERY,
    };
    World { runtime: world.runtime, tables }
}

/// A `new` touches no table, whatever stands there; its numbers are 0, or as they were where it is refused.
fn new_alone(case: &Case, left: &Left) -> Checked {
    let Call::New { .. } = case.call else { return Ok(()) };
    let places = if left.answer.is_ok() { Places::NONE } else { case.world.tables.places };
    let tables = Tables { places, ..case.world.tables.clone() };
    ensure(
        left.world == World { runtime: left.world.runtime, tables },
        "`new` touches a table, or leaves other numbers",
    )
}

/// `status` tells the counts of used places, the sum of the queues, and the runtime; `next_due` the earliest end of the
/// three tables; both are 22 where a table is short.
fn told(left: &Left) -> Checked {
    let World { runtime, tables } = &left.world;
    let told = (lent::status(tables, runtime, b"a", 0).map(|told| told.status), lent::next_due(tables, runtime));
    let holds = match left.world.told() {
        Ok(after) => told.0.map(|status| status_numbers(&status)) == Ok(after.status) && told.1 == Ok(after.due),
        Err(refused) => told == (Err(refused), Err(refused)) && refused == HnsrRuntimeError::Short,
    };
    ensure(holds, "`status` or `next_due` tells something else")
}

/// DUE.5 to DUE.7, as a host goes by them: before what is due next `expire` moves the clock and does nothing else; then
/// it drops or ends something, and what is due after it is later.
fn waking(left: &Left) -> Checked {
    let World { runtime, tables } = &left.world;
    let Ok(due) = lent::next_due(tables, runtime) else { return Ok(()) };
    let clock = runtime.trusted_time_high_water;
    let before = due.map_or(Some(u64::MAX), |due| due.checked_sub(1)).filter(|before| *before >= clock);
    // of a pending record the deadline alone counts (DUE.6)
    let by_ticket = |now| tables.pending().any(|pending| pending.grant.expires_at <= now);
    if let Some(now) = before.filter(|now| !by_ticket(*now)) {
        let slept = expired(&left.world, now);
        let mut moved = seen(&left.world);
        moved.runtime.trusted_time_high_water = now;
        ensure(slept.answer == Ok(0) && seen(&slept.world) == moved, "before what is due `expire` does something")?;
    }
    let Some(due) = due else { return Ok(()) };
    let now = due.max(clock);
    let woken = expired(&left.world, now);
    let changed = seen(&woken.world).tables != seen(&left.world).tables;
    ensure(woken.answer.is_ok() && changed, "when something is due `expire` leaves the records")?;
    let next = lent::next_due(&woken.world.tables, &woken.world.runtime);
    ensure(next.is_ok_and(|next| next.is_none_or(|next| next > now)), "after `expire` something is due at once")
}

/// `expire` at this time, lent words enough.
fn expired(world: &World, now: u64) -> Left {
    let call = Call::Expire { now };
    let out = vec![0; call.words_needed(world.records())];
    Case { world: world.clone(), call, out }.made()
}

/// The same call on a copy gives the same.
fn again(case: &Case, left: &Left) -> Checked {
    ensure(case.made() == *left, "the same call on a copy gives something else")
}

/// TAB.1, TAB.3: what unused places hold changes nothing, nor does a mark at or above a number.
fn unused_places(case: &Case, left: &Left, rng: &mut Rng) -> Checked {
    let other =
        Case { world: case.world.with_other_unused_places(rng), call: case.call.clone(), out: case.out.clone() }.made();
    let same = other.answer == left.answer && other.out == left.out && seen(&other.world) == seen(&left.world);
    ensure(same, "what unused places hold makes a difference")
}

/// TAB.9: a length over 128 is read as 128, and what stands behind a name is not read.
fn behind_names(case: &Case, left: &Left, rng: &mut Rng) -> Checked {
    let world = other_behind_names(&case.world, rng);
    let other = Case { world, call: case.call.clone(), out: case.out.clone() }.made();
    let same = other.answer == left.answer && other.out == left.out && plain(&other.world) == plain(&left.world);
    ensure(same, "what stands behind a name makes a difference")
}

/// The world with other bytes behind every name, and other lengths over the most.
pub fn other_behind_names(world: &World, rng: &mut Rng) -> World {
    let mut world = world.clone();
    for name in names(&mut world.tables) {
        match name.bytes.get_mut(name.len..) {
            Some(behind) => behind.iter_mut().for_each(|byte| *byte = rng.byte()),
            None => name.len = *rng.pick(&[MAXIMUM_PEER, MAXIMUM_PEER + 1, usize::MAX]),
        }
    }
    world
}

fn names(tables: &mut Tables) -> impl Iterator<Item = &mut StoredPeer> {
    let pending = tables.pending.iter_mut().flat_map(|p| [&mut p.requester, &mut p.endpoint]);
    let circuits = tables.circuits.iter_mut().flat_map(|c| [&mut c.requester, &mut c.endpoint]);
    pending.chain(circuits).chain(tables.inflight.iter_mut().map(|action| &mut action.destination))
}

/// The world with zeros behind every name, and no length over the most.
fn plain(world: &World) -> World {
    let mut plain = world.clone();
    for name in names(&mut plain.tables) {
        name.len = name.len.min(MAXIMUM_PEER);
        name.bytes[name.len..].fill(0);
    }
    plain
}

/// DATA is opaque: other bytes of the same number change the words of the body and nothing else.
fn opaque(case: &Case, left: &Left, rng: &mut Rng) -> Checked {
    let mut call = case.call.clone();
    let is_data = call.message() == Some(HnsrOpcode::Data);
    let (true, Call::Handle { body, .. }) = (is_data, &mut call) else { return Ok(()) };
    body.iter_mut().for_each(|byte| *byte = rng.byte());
    let case = Case { world: case.world.clone(), call, out: case.out.clone() };
    let other = case.made();
    as_read(&case, &other)?;
    let head = |left: &Left| left.words().get(..HEAD_WORDS).map(<[u32]>::to_vec);
    let same = other.answer == left.answer && other.world == left.world && head(&other) == head(left);
    ensure(same, "the bytes of a DATA make a difference")
}
