//! The start of a run: its configuration, and `new`, refused perhaps before it is taken.
use super::Generator;
use lekchnam_host::limits::*;
use lekchnam_traces::rng::Rng;
use lekchnam_traces::{Call, Config};

/// Three kinds of trace: tight for peers, tight in all, roomy. The most actions for a circuit, for a peer, and in all.
fn action_limits(rng: &mut Rng) -> (usize, usize, usize) {
    match rng.below(3) {
        0 => (2, 2 + rng.below(2) as usize, rng.range(6, 14) as usize),
        1 => {
            let per_circuit = rng.range(2, 5) as usize;
            let per_peer = per_circuit + rng.below(3) as usize;
            (per_circuit, per_peer, per_peer + rng.below(6) as usize)
        }
        _ => (rng.range(3, 8) as usize, rng.range(8, 12) as usize, rng.range(12, 24) as usize),
    }
}

pub fn config(rng: &mut Rng) -> Config {
    let (per_circuit, per_peer, total) = action_limits(rng);
    let most = *rng.pick(&[1, 2, 4, 6]);
    let most_queued = MAX_CIRCUIT_QUEUE;
    Config {
        maximum_pending: rng.range(1, most) as usize,
        maximum_circuits: rng.range(1, most) as usize,
        maximum_circuits_per_peer: *rng.pick(&[1, 2, 3, 4, 6, 12, MAX_CIRCUITS]),
        maximum_queue_bytes: *rng.pick(&[1, 50, MAX_DATA_SIZE, 20_000, 32_768, most_queued, most_queued, most_queued]),
        maximum_inflight_actions: total,
        maximum_inflight_actions_per_circuit: per_circuit,
        maximum_inflight_actions_per_peer: per_peer,
        maximum_bytes_per_circuit: *rng.pick(&[100, 20_000, 60_000, 16 * 1024 * 1024, 16 * 1024 * 1024, u64::MAX]),
        accept_timeout_seconds: rng.range(1, MAX_OPEN_DEADLINE_SECONDS),
    }
}

impl Generator {
    /// Some refused `new`s perhaps, then the one that is taken.
    pub fn opening(&mut self) -> Vec<Call> {
        let session = self.rng.bytes();
        let (generation, config, now) = (self.generation, self.config, self.start);
        let mut calls = Vec::new();
        for _ in 0..self.rng.below(3) {
            calls.push(self.refused_new(session));
        }
        calls.push(Call::New { session, generation, config, now });
        calls
    }

    fn refused_new(&mut self, mut session: [u8; 16]) -> Call {
        let (mut generation, mut config) = (self.generation, self.config);
        for _ in 0..self.rng.range(1, 2) {
            match self.rng.below(20) {
                0 => session = [0; 16],
                1 => generation = 0,
                2 => config.maximum_pending = 0,
                3 => config.maximum_pending = MAX_RUNTIME_PENDING + 1,
                4 => config.maximum_circuits = 0,
                5 => config.maximum_circuits = MAX_RUNTIME_CIRCUITS + 1,
                6 => config.maximum_circuits_per_peer = 0,
                7 => config.maximum_circuits_per_peer = MAX_CIRCUITS + 1,
                8 => config.maximum_queue_bytes = 0,
                9 => config.maximum_queue_bytes = MAX_CIRCUIT_QUEUE + 1,
                10 => config.maximum_inflight_actions = 0,
                11 => config.maximum_inflight_actions = MAX_RUNTIME_INFLIGHT_ACTIONS + 1,
                12 => config.maximum_inflight_actions_per_circuit = 1,
                13 => config.maximum_inflight_actions_per_circuit = config.maximum_inflight_actions_per_peer + 1,
                14 => config.maximum_inflight_actions_per_peer = config.maximum_inflight_actions_per_circuit - 1,
                15 => config.maximum_inflight_actions_per_peer = config.maximum_inflight_actions + 1,
                16 => config.maximum_bytes_per_circuit = 0,
                17 => config.accept_timeout_seconds = 0,
                18 => config.accept_timeout_seconds = MAX_OPEN_DEADLINE_SECONDS + 1,
                _ => config.maximum_inflight_actions_per_circuit = config.maximum_inflight_actions + 1,
            }
        }
        Call::New { session, generation, config, now: self.start }
    }
}
