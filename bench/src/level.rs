//! The relays that are measured: how large, and how much of them is in use.
use crate::call::{Call, Refusal};
use crate::load::Fill;
use crate::relay::OWN;
use lekchnam_traces::Config;

/// How much of each table is in use. A relay goes through the levels in their order.
#[derive(Clone, Copy, Debug)]
pub struct Level {
    pub label: &'static str,
    pub share: f64,
}

impl Level {
    pub const EMPTY: Self = Self { label: "empty", share: 0.0 };
    pub const HALF: Self = Self { label: "half", share: 0.5 };
    pub const RISING: [Self; 5] = [
        Self::EMPTY,
        Self { label: "1 %", share: 0.01 },
        Self { label: "10 %", share: 0.1 },
        Self::HALF,
        Self { label: "full", share: 1.0 },
    ];
    /// As empty, but full before.
    pub const EMPTIED: Self = Self { label: "emptied", share: 0.0 };
    pub const OF_SIZES: [Self; 2] = [Self::EMPTY, Self::HALF];

    /// Those with a load.
    pub fn loaded() -> &'static [Self; 4] {
        Self::RISING.last_chunk().expect("there are more")
    }
}

/// The default configuration with its maxima scaled to so many actions, but with room for the circuits that are
/// measured beside as many others. A circuit may pass any number of bytes, so that one lasts through the run.
pub fn config(actions: usize) -> Config {
    let default = Config::default();
    let scaled = |places: usize| places * actions / default.maximum_inflight_actions;
    Config {
        maximum_pending: scaled(default.maximum_pending).max(2 * OWN),
        maximum_circuits: scaled(default.maximum_circuits).max(4 * OWN),
        maximum_inflight_actions: actions,
        maximum_inflight_actions_per_circuit: default.maximum_inflight_actions_per_circuit.min(actions),
        maximum_inflight_actions_per_peer: default.maximum_inflight_actions_per_peer.min(actions),
        maximum_bytes_per_circuit: u64::MAX,
        ..default
    }
}

/// As `config`, but one circuit may have all actions, and one peer too.
pub fn few_circuits(actions: usize) -> Config {
    Config {
        maximum_inflight_actions_per_circuit: actions,
        maximum_inflight_actions_per_peer: actions,
        ..config(actions)
    }
}

/// How many records in use the library reads in one reading of what a call goes through: circuits or pending
/// records where there is none to be found; up to the action that is acknowledged; where nothing is due the three
/// tables but that of actions; else all actions. None where nothing is in use, and where no record is read or a
/// lookup ends at the one that it finds.
pub fn records(call: Call, config: &Config, level: Level) -> Option<usize> {
    let fill = Fill::share(config, level.share);
    let count = match call {
        Call::Refused(Refusal::Circuit) => fill.circuits + OWN,
        Call::Refused(Refusal::Request) => fill.pending,
        Call::Refused(Refusal::Body | Refusal::Opcode) => 0,
        Call::Acknowledge => fill.actions + OWN / 2,
        Call::Expire => fill.pending + fill.circuits + fill.reservations() + 2 * OWN,
        _ => fill.actions,
    };
    (level.share > 0.0 && count > 0).then_some(count)
}
