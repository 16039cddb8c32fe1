//! A second reading of the rules: the relay over tables as lent, written for the tests to compare the library with.
//!
//! It is short and slow, and takes of the library only the checks of bodies, packets and limits, which are compared by
//! themselves.

mod circuits;
mod machine;
mod open;
mod queue;
mod revoking;
mod table;

use crate::answer::After;
use crate::{Call, Config, Grant};
use lekchnam_host::body::validate_packet;
use lekchnam_host::lent::{
    InflightAction, Places, RelayCircuit, RelayPending, ReservationUsage, Runtime, RuntimeCounters, StoredPeer, Tables,
};
use lekchnam_host::{HnsrOpcode, HnsrRuntimeError as Refused, MAXIMUM_PEER};
use table::{count, drop_all, used};

pub use crate::words::Route;
pub use machine::Reading;

/// The routes of a call that is taken, or the refusal.
pub type Outcome = Result<Vec<Route>, Refused>;

/// What a host keeps: the runtime, and the tables with their numbers.
#[derive(Clone, Debug, Eq)]
pub struct World {
    pub runtime: Runtime,
    pub tables: Tables,
}

/// Of a name every byte counts and the length as it stands, since a stored name is copied whole: records alone are
/// equal where their names read the same.
impl PartialEq for World {
    fn eq(&self, other: &Self) -> bool {
        let same_names = names(&self.tables).eq(names(&other.tables));
        self.runtime == other.runtime && self.tables == other.tables && same_names
    }
}

/// The names of every place, as they stand.
fn names(tables: &Tables) -> impl Iterator<Item = (usize, [u8; MAXIMUM_PEER])> {
    let pending = tables.pending.iter().flat_map(|p| [p.requester, p.endpoint]);
    let circuits = tables.circuits.iter().flat_map(|c| [c.requester, c.endpoint]);
    let actions = tables.inflight.iter().map(|action| action.destination);
    pending.chain(circuits).chain(actions).map(|name| (name.len, name.bytes))
}

/// A packet with what comes with it (HOST.3, HOST.4).
struct Packet<'call> {
    source: &'call [u8],
    opcode: u8,
    context: u64,
    body: &'call [u8],
    now: u64,
    key_valid: bool,
    admission: Option<&'call Grant>,
    random: &'call [u8],
}

impl World {
    /// Makes a call that is lent so many output words.
    pub fn call(&mut self, call: &Call, room: usize) -> Outcome {
        match call {
            Call::New { session, generation, config, now } => return self.start(*session, *generation, *config, *now),
            Call::Observe { now } => return self.clock(*now).map(|()| Vec::new()),
            Call::Poke { sequence } => {
                self.runtime.next_action_sequence = *sequence;
                return Ok(Vec::new());
            }
            _ => self.lent_enough(call, room)?,
        }
        match call {
            Call::Handle { source, opcode, context, body, now, key_valid, admission, random } => self.handle(&Packet {
                source,
                opcode: *opcode,
                context: u64::from_be_bytes(*context),
                body,
                now: *now,
                key_valid: *key_valid,
                admission: admission.as_ref(),
                random,
            }),
            Call::Acknowledge { generation, sequence, delivered } => {
                self.acknowledge(*generation, *sequence, *delivered)
            }
            Call::Disconnect { peer } => self.disconnect(peer),
            Call::Revoke { reservation } => Ok(self.revoke_reservation((*reservation).into())),
            Call::Expire { now } => self.expire(*now),
            Call::Replace { expected, enabled } => self.replace_enabled(*expected, *enabled),
            Call::New { .. } | Call::Observe { .. } | Call::Poke { .. } => unreachable!("they are above"),
        }
    }

    /// `new`: its refusals, and a relay with every place unused (NEW.1 to NEW.5).
    fn start(&mut self, session: [u8; 16], generation: u64, config: Config, now: u64) -> Outcome {
        refuse(session == [0; 16] || generation == 0, Refused::InvalidSession)?;
        config.validate()?;
        refuse(short(&config, &self.tables) || self.tables.ledger.is_empty(), Refused::Short)?;
        self.tables.places = Places::NONE;
        self.runtime = Runtime {
            session,
            generation,
            enabled: true,
            trusted_time_high_water: now,
            config,
            next_action_sequence: 1,
            counters: RuntimeCounters::default(),
        };
        Ok(Vec::new())
    }

    /// 22 (ENTRY.1): the output or a table is too short.
    fn lent_enough(&self, call: &Call, room: usize) -> Result<(), Refused> {
        refuse(short(&self.runtime.config, &self.tables) || room < call.words_needed(self.records()), Refused::Short)
    }

    /// How many pending records and circuits there are.
    pub fn records(&self) -> usize {
        count(&self.tables, |_: &RelayPending| true) + count(&self.tables, |_: &RelayCircuit| true)
    }

    /// 7 (ENTRY.4), and then the clock (ENTRY.5).
    fn clock(&mut self, now: u64) -> Result<(), Refused> {
        refuse(now < self.runtime.trusted_time_high_water, Refused::ClockRollback)?;
        self.runtime.trusted_time_high_water = now;
        Ok(())
    }

    /// 4 and 1 (ENTRY.2, ENTRY.3); the clock; 9 and 16 (HANDLE.2, HANDLE.3).
    fn handle(&mut self, packet: &Packet<'_>) -> Outcome {
        named(packet.source)?;
        validate_packet(packet.opcode, packet.context.to_be_bytes(), packet.body.len())?;
        self.clock(packet.now)?;
        refuse(!self.runtime.enabled, Refused::Disabled)?;
        match HnsrOpcode::from(packet.opcode) {
            HnsrOpcode::Open => self.open(packet),
            HnsrOpcode::Accept => self.accept(packet),
            HnsrOpcode::Data => self.data(packet),
            HnsrOpcode::Window => self.window(packet),
            HnsrOpcode::Close | HnsrOpcode::Error => self.close(packet),
            _ => Err(Refused::UnexpectedOpcode),
        }
    }

    /// OPEN.12: lapsed ledger records go.
    fn drop_lapsed(&mut self, now: u64) {
        drop_all(&mut self.tables, |usage: &ReservationUsage| usage.expires_at <= now);
    }

    /// What is told, or the 22 of `status` and `next_due`.
    pub fn told(&self) -> Result<After, Refused> {
        let (runtime, tables) = (&self.runtime, &self.tables);
        refuse(short(&runtime.config, tables), Refused::Short)?;
        let circuits = || used(tables).map(|(_, circuit): (_, &RelayCircuit)| circuit);
        let queues = circuits().flat_map(|circuit| [circuit.queued_to_requester, circuit.queued_to_endpoint]);
        // DUE.5 to DUE.7
        let deadlines = used(tables).map(|(_, pending): (_, &RelayPending)| pending.deadline);
        let reserved = used(tables).map(|(_, usage): (_, &ReservationUsage)| usage.expires_at);
        let counters = &runtime.counters;
        Ok(After {
            status: [
                runtime.generation,
                runtime.enabled.into(),
                count(tables, |_: &RelayPending| true) as u64,
                count(tables, |_: &RelayCircuit| true) as u64,
                queues.fold(0, usize::saturating_add) as u64,
                count(tables, |_: &InflightAction| true) as u64,
                runtime.trusted_time_high_water,
                counters.admitted_opens,
                counters.opened_circuits,
                counters.bytes_sent,
                counters.bytes_received,
                counters.revoked_work,
            ],
            due: deadlines.chain(circuits().map(|circuit| circuit.expires_at)).chain(reserved).min(),
            ledger: count(tables, |_: &ReservationUsage| true),
        })
    }
}

fn refuse(refused: bool, by: Refused) -> Result<(), Refused> {
    if refused { Err(by) } else { Ok(()) }
}

fn short(config: &Config, tables: &Tables) -> bool {
    tables.pending.len() < config.maximum_pending
        || tables.circuits.len() < config.maximum_circuits
        || tables.inflight.len() < config.maximum_inflight_actions
}

/// HOST.1: how long a name may be.
fn named(name: &[u8]) -> Result<StoredPeer, Refused> {
    lekchnam_host::HnsrPeerId::new(name).map(StoredPeer::from)
}

/// TAB.9: how a stored name is read.
fn same(one: &StoredPeer, other: &StoredPeer) -> bool {
    one.as_bytes() == other.as_bytes()
}
