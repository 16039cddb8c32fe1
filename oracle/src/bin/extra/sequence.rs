//! Every queueing with the sequence at, or one below, 2^64 - 1.
use crate::script::*;
use lekchnam_host::HnsrOpcode;
use lekchnam_traces::file::Places;
use lekchnam_traces::{Call, Config};

const SECOND_CONTEXT: [u8; 8] = *b"context2";
const SECOND_CIRCUIT: [u8; 8] = *b"circuit2";
const CLOSING: [u8; 5] = [9, 0, 2, b'o', b'k'];

/// What is done once the sequence is poked.
#[derive(Clone, Copy, Eq, PartialEq)]
enum Step {
    Accept,
    CloseByRequester,
    ErrorByEndpoint,
    IncomingFails,
    Data,
    Window,
    CloseCircuit,
    ErrorCircuit,
    Disconnect,
    ExpirePending,
    Revoke,
    ExpireCircuit,
    Disable,
}

const STEPS: [Step; 13] = [
    Step::Accept,
    Step::CloseByRequester,
    Step::ErrorByEndpoint,
    Step::IncomingFails,
    Step::Data,
    Step::Window,
    Step::CloseCircuit,
    Step::ErrorCircuit,
    Step::Disconnect,
    Step::ExpirePending,
    Step::Revoke,
    Step::ExpireCircuit,
    Step::Disable,
];

impl Step {
    /// Whether it is about a circuit; else it is about a pending record.
    fn active(self) -> bool {
        use Step::*;
        matches!(self, Data | Window | CloseCircuit | ErrorCircuit | ExpireCircuit | Disable)
    }
}

pub fn script() -> Script {
    let mut script = Script::new("sequence (poked)", Places { pending: 4, circuits: 4, actions: 24, ledger: 2 });
    // tight: at most two actions toward one peer
    let tight = Config { maximum_inflight_actions_per_circuit: 2, maximum_inflight_actions_per_peer: 2, ..small() };
    for (config, tight) in [(small(), false), (tight, true)] {
        for top in [u64::MAX, u64::MAX - 1] {
            opened(&mut script, config, top);
            for step in STEPS {
                poked(&mut script, config, tight, top, step);
            }
        }
    }
    script
}

fn opened(script: &mut Script, config: Config, top: u64) {
    script.new_relay(config);
    script.call(Call::Poke { sequence: top });
    script.open(REQUESTER, CONTEXT, &open_body(), &CIRCUIT);
    script.open(REQUESTER, SECOND_CONTEXT, &open_body(), &SECOND_CIRCUIT);
}

fn poked(script: &mut Script, config: Config, tight: bool, top: u64, step: Step) {
    script.new_relay(config);
    script.open(REQUESTER, CONTEXT, &open_body(), &CIRCUIT);
    if step.active() {
        script.packet(ENDPOINT, HnsrOpcode::Accept, CIRCUIT, &accept_body(WINDOW, 5));
    }
    if tight && step != Step::Accept {
        fill(script, step);
    }
    script.call(Call::Poke { sequence: top });
    take(script, step);
    // what stayed shows in what can follow
    script.call(Call::Observe { now: 1_000 });
    script.call(Call::Replace { expected: 1, enabled: false });
}

/// Fills the way to the requester with the closings of other pending records, and the way to the endpoint too.
fn fill(script: &mut Script, step: Step) {
    let mut close_another = |context, id: [u8; 8]| {
        script.open(REQUESTER, context, &open_body(), &id);
        script.packet(ENDPOINT, HnsrOpcode::Close, id, &CLOSING);
    };
    close_another(SECOND_CONTEXT, SECOND_CIRCUIT);
    if !step.active() {
        close_another(*b"context3", [7; 8]);
    }
}

fn take(script: &mut Script, step: Step) {
    match step {
        Step::Accept => _ = script.packet(ENDPOINT, HnsrOpcode::Accept, CIRCUIT, &accept_body(WINDOW, 5)),
        Step::CloseByRequester => _ = script.packet(REQUESTER, HnsrOpcode::Close, CONTEXT, &CLOSING),
        Step::ErrorByEndpoint | Step::ErrorCircuit => _ = script.packet(ENDPOINT, HnsrOpcode::Error, CIRCUIT, &CLOSING),
        Step::IncomingFails => _ = script.call(Call::Acknowledge { generation: 1, sequence: 1, delivered: false }),
        Step::Data => both_twice(script, HnsrOpcode::Data, b"data"),
        Step::Window => both_twice(script, HnsrOpcode::Window, &[1, 0, 0, 0]),
        Step::CloseCircuit => _ = script.packet(REQUESTER, HnsrOpcode::Close, CIRCUIT, &CLOSING),
        Step::Disconnect => _ = script.call(Call::Disconnect { peer: REQUESTER.to_vec() }),
        Step::ExpirePending => _ = script.call(Call::Expire { now: 200 }),
        Step::Revoke => _ = script.call(Call::Revoke { reservation: [2; 16] }),
        Step::ExpireCircuit => _ = script.call(Call::Expire { now: 1_000 }),
        Step::Disable => _ = script.call(Call::Replace { expected: 1, enabled: false }),
    }
}

fn both_twice(script: &mut Script, opcode: HnsrOpcode, body: &[u8]) {
    for _ in 0..2 {
        script.packet(REQUESTER, opcode, CIRCUIT, body);
        script.packet(ENDPOINT, opcode, CIRCUIT, body);
    }
}
