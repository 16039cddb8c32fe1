//! A relay to try, with ids that count up, and the packets of its parties.
use lekchnam_host::{
    Admission, Grant, HnsrOpcode, HnsrPacket, HnsrPeerId, HnsrRuntimeError, OpaqueRelayConfig, OpaqueRelayRuntime,
    RandomSource, Routes,
};

pub const START: u64 = 100;
pub const EXPIRY: u64 = 1_000;
pub const WINDOW: u32 = 32_768;

/// Draws 1, 2, 3 and so on, from behind this number.
#[derive(Default)]
pub struct Counting(pub u64);

impl RandomSource for Counting {
    fn supply(&mut self, room: &mut [u8]) -> usize {
        self.0 += 1;
        room[..8].copy_from_slice(&self.0.to_be_bytes());
        8
    }
}

pub type Relay = OpaqueRelayRuntime<Counting>;

/// The configuration of the sixteen cases (CASE.1).
pub fn small() -> OpaqueRelayConfig {
    OpaqueRelayConfig {
        maximum_pending: 2,
        maximum_circuits: 2,
        maximum_inflight_actions: 8,
        maximum_inflight_actions_per_circuit: 8,
        maximum_inflight_actions_per_peer: 8,
        ..OpaqueRelayConfig::default()
    }
}

pub fn relay(config: OpaqueRelayConfig) -> Relay {
    relay_drawing(config, Counting::default())
}

pub fn relay_drawing<Random: RandomSource>(config: OpaqueRelayConfig, random: Random) -> OpaqueRelayRuntime<Random> {
    OpaqueRelayRuntime::new_with([1; 16], 1, config, START, config.ledger_places(), random).expect("a new relay")
}

pub fn restored(relay: &Relay) -> Relay {
    let drawn = relay.runtime().counters.admitted_opens;
    Relay::from_parts(*relay.runtime(), relay.tables().clone(), Counting(drawn)).expect("stored parts")
}

pub fn peer(name: &[u8]) -> HnsrPeerId {
    HnsrPeerId::new(name).expect("a good name")
}

/// The grant of the sixteen cases, but that it allows more circuits.
pub fn grant(endpoint: &[u8]) -> Grant<'_> {
    Grant {
        endpoint,
        reservation_id: [5; 16],
        expires_at: EXPIRY,
        max_active_circuits: 100,
        max_bytes_per_circuit: 20_000,
        max_total_bytes: 30_000,
    }
}

pub fn open_body() -> Vec<u8> {
    [&[1; 32][..], &[5; 16], &[2; 33], &1_u16.to_le_bytes(), &[3; 16], &WINDOW.to_le_bytes()].concat()
}

pub fn accept_body() -> Vec<u8> {
    [&WINDOW.to_le_bytes()[..], &[4; 16]].concat()
}

/// An OPEN, and the id that it is given.
pub fn open<Random: RandomSource>(
    relay: &mut OpaqueRelayRuntime<Random>,
    requester: &[u8],
    context: u64,
    grant: Grant<'_>,
) -> Result<u64, HnsrRuntimeError> {
    let body = open_body();
    let packet = HnsrPacket { opcode: HnsrOpcode::Open, context_id: context.to_be_bytes(), body: &body };
    let routes = relay.handle(&Admission::Granted(grant), &peer(requester), &packet, START)?;
    let incoming = routes.iter().next().expect("an INCOMING");
    Ok(u64::from_be_bytes(incoming.route.packet.context_id))
}

/// Any other packet.
pub fn say<'a>(
    relay: &'a mut Relay,
    source: &[u8],
    opcode: HnsrOpcode,
    context: u64,
    body: &[u8],
) -> Result<Routes<'a>, HnsrRuntimeError> {
    let packet = HnsrPacket { opcode, context_id: context.to_be_bytes(), body };
    relay.handle(&Admission::Refused, &peer(source), &packet, START)
}

/// A circuit between two peers.
pub fn circuit(relay: &mut Relay, requester: &[u8], endpoint: &[u8], context: u64) -> u64 {
    let id = open(relay, requester, context, grant(endpoint)).expect("an OPEN");
    let opened = say(relay, endpoint, HnsrOpcode::Accept, id, &accept_body()).expect("an ACCEPT");
    assert_eq!(opened.len(), 1);
    id
}
