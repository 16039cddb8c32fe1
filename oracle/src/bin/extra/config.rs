//! `new` at and past every bound of the configuration.
use crate::script::{Script, small};
use lekchnam_host::limits::*;
use lekchnam_traces::file::Places;
use lekchnam_traces::{Call, Config};
use oracle::default_config;

const PLACES: Places = Places {
    pending: MAX_RUNTIME_PENDING,
    circuits: MAX_RUNTIME_CIRCUITS,
    actions: MAX_RUNTIME_INFLIGHT_ACTIONS,
    ledger: 1,
};

pub fn script() -> Script {
    let mut script = Script::new("config", PLACES);
    for config in [vec![default_config(), small()], sizes(), actions(), amounts()].concat() {
        script.new_relay(config);
    }
    sessions(&mut script);
    script
}

fn sizes() -> Vec<Config> {
    let d = default_config();
    let mut list = Vec::new();
    let around = |most: usize| [0, 1, most - 1, most, most + 1];
    let (pending, circuits, queue) =
        (around(MAX_RUNTIME_PENDING), around(MAX_RUNTIME_CIRCUITS), around(MAX_CIRCUIT_QUEUE));
    for ((pending, circuits), queue) in pending.into_iter().zip(circuits).zip(queue) {
        list.push(Config { maximum_pending: pending, ..d });
        list.push(Config { maximum_circuits: circuits, ..d });
        list.push(Config { maximum_queue_bytes: queue, ..d });
    }
    let per_peer = [0, 1, MAX_CIRCUITS - 1, MAX_CIRCUITS, MAX_CIRCUITS + 1, u16::MAX];
    list.extend(per_peer.map(|n| Config { maximum_circuits_per_peer: n, ..d }));
    list
}

fn actions() -> Vec<Config> {
    let d = default_config();
    let all = |total, per_circuit, per_peer| Config {
        maximum_inflight_actions: total,
        maximum_inflight_actions_per_circuit: per_circuit,
        maximum_inflight_actions_per_peer: per_peer,
        ..d
    };
    let (per_circuit, per_peer) = (d.maximum_inflight_actions_per_circuit, d.maximum_inflight_actions_per_peer);
    let total = d.maximum_inflight_actions;
    let mut list = Vec::new();
    let most = MAX_RUNTIME_INFLIGHT_ACTIONS;
    let beside = |n: usize| [n - 1, n, n + 1];
    let edges = [&[0, 1, 2], &beside(per_circuit)[..], &beside(per_peer), &[total], &beside(most)].concat();
    for n in edges {
        list.push(all(n, per_circuit, per_peer));
        list.push(all(total, n, per_peer));
        list.push(all(total, per_circuit, n));
        list.push(all(n, n, n));
        list.push(all(n, 2, 2));
    }
    list
}

fn amounts() -> Vec<Config> {
    let d = default_config();
    let both = |n| [Config { maximum_bytes_per_circuit: n, ..d }, Config { accept_timeout_seconds: n, ..d }];
    [0, 1, MAX_OPEN_DEADLINE_SECONDS, MAX_OPEN_DEADLINE_SECONDS + 1, u64::MAX].map(both).concat()
}

fn sessions(script: &mut Script) {
    let config = default_config();
    for (session, generation, now) in [([0; 16], 1, 1), ([1; 16], 0, 1), ([0; 16], 0, 1), ([1; 16], u64::MAX, u64::MAX)]
    {
        script.call(Call::New { session, generation, config, now });
    }
    for at in 0..16 {
        let mut session = [0; 16];
        session[at] = 1;
        script.call(Call::New { session, generation: 1, config, now: 0 });
    }
    // the session's 3 before the configuration's 2
    let config = Config { maximum_pending: 0, ..config };
    script.call(Call::New { session: [0; 16], generation: 1, config, now: 1 });
}
