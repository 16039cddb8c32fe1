//! A trace written call by call, and the calls that every script is made of.
use lekchnam_host::HnsrOpcode;
use lekchnam_traces::bytes::unhex;
use lekchnam_traces::file::{Places, Writer};
use lekchnam_traces::replay::Machine;
use lekchnam_traces::{Call, Config, Grant};
use oracle::default_config;
use oracle::run::Rust;

pub const REQUESTER: &[u8] = b"req";
pub const ENDPOINT: &[u8] = b"end";
pub const CONTEXT: [u8; 8] = *b"context1";
pub const CIRCUIT: [u8; 8] = *b"circuit1";
/// The window that every OPEN offers.
pub const WINDOW: u32 = 32_768;
/// The time of every packet.
pub const NOW: u64 = 100;

const KEY: &str = "0279be667ef9dcbbac55a06295ce870b07029bfcdb2dce28d959f2815b16f81798";

pub struct Script {
    rust: Rust,
    trace: Writer,
    calls: usize,
}

impl Script {
    pub fn new(title: &str, places: Places) -> Self {
        Self { rust: Rust::default(), trace: Writer::new(title, places, false), calls: 0 }
    }

    /// A script whose every relay has the limits of `small`.
    pub fn of_small(title: &str) -> Self {
        let limits = small();
        let (pending, circuits, actions) =
            (limits.maximum_pending, limits.maximum_circuits, limits.maximum_inflight_actions);
        Self::new(title, Places { pending, circuits, actions, ledger: 1 })
    }

    pub fn calls(&self) -> usize {
        self.calls
    }

    pub fn text(&self) -> String {
        self.trace.text()
    }

    /// Runs a call on the Rust and writes its line; the answer's number.
    pub fn call(&mut self, call: Call) -> u8 {
        let class = if matches!(call, Call::Poke { .. }) { 'p' } else { 'd' };
        let answer = self.rust.call(class, &call);
        self.trace.call(class, &call, &answer);
        self.calls += 1;
        answer.number
    }

    pub fn new_relay(&mut self, config: Config) -> u8 {
        self.call(Call::New { session: [1; 16], generation: 1, config, now: NOW })
    }

    pub fn packet(&mut self, source: &[u8], opcode: HnsrOpcode, context: [u8; 8], body: &[u8]) -> u8 {
        self.handle(source, opcode, context, body, None, &[])
    }

    /// An OPEN that is admitted.
    pub fn open(&mut self, source: &[u8], context: [u8; 8], body: &[u8], random: &[u8]) -> u8 {
        self.handle(source, HnsrOpcode::Open, context, body, Some(grant()), random)
    }

    fn handle(
        &mut self,
        source: &[u8],
        opcode: HnsrOpcode,
        context: [u8; 8],
        body: &[u8],
        admission: Option<Grant>,
        random: &[u8],
    ) -> u8 {
        let (source, opcode, body, random) = (source.to_vec(), opcode.into(), body.to_vec(), random.to_vec());
        self.call(Call::Handle { source, opcode, context, body, now: NOW, key_valid: true, admission, random })
    }
}

pub fn small() -> Config {
    Config {
        maximum_pending: 4,
        maximum_circuits: 4,
        maximum_circuits_per_peer: 8,
        maximum_inflight_actions: 24,
        maximum_inflight_actions_per_circuit: 8,
        maximum_inflight_actions_per_peer: 24,
        ..default_config()
    }
}

fn grant() -> Grant {
    Grant {
        endpoint: ENDPOINT.to_vec(),
        reservation_id: [2; 16],
        expires_at: 1_000,
        max_active_circuits: 32,
        max_bytes_per_circuit: 1 << 20,
        max_total_bytes: 1 << 20,
    }
}

/// The body of a good OPEN.
pub fn open_body() -> Vec<u8> {
    let (ticket, reservation, profile, nonce) = ([1; 32], [2; 16], 1_u16.to_le_bytes(), [4; 16]);
    let key = unhex(KEY).expect("a key in hex");
    [&ticket[..], &reservation, &key, &profile, &nonce, &WINDOW.to_le_bytes()].concat()
}

/// The body of an ACCEPT.
pub fn accept_body(window: u32, nonce: u8) -> Vec<u8> {
    [&window.to_le_bytes()[..], &[nonce; 16]].concat()
}
