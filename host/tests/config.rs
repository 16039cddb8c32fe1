//! Configurations for a number of peers, what they cost, and the least and most of a limit.
use lekchnam_host::body::{DataBody, Invalid, ProtocolError, WindowBody};
use lekchnam_host::lent::{Places, Tables};
use lekchnam_host::limits::*;
use lekchnam_host::{HnsrPeerId, HnsrRuntimeError, OpaqueRelayConfig};

/// The bytes of the tables and the output words that a relay of these limits has.
fn taken(config: &OpaqueRelayConfig) -> usize {
    let tables = Tables::new(config, config.ledger_places()).expect("the memory for them");
    let Tables { pending, circuits, ledger, inflight, places } = &tables;
    assert_eq!(*places, Places::EVERY);
    size_of_val(&pending[..])
        + size_of_val(&circuits[..])
        + size_of_val(&ledger[..])
        + size_of_val(&inflight[..])
        + tables.most_words() * size_of::<u32>()
}

#[test]
fn every_number_of_peers_has_a_configuration() {
    let edges =
        [511, 512, 513, 4_095, 4_096, 4_097, 1 << 32, usize::MAX / 33, usize::MAX / 32, usize::MAX / 2, usize::MAX];
    for peers in (0..3_000).chain(edges) {
        let config = OpaqueRelayConfig::for_peers(peers);
        assert_eq!(config.validate(), Ok(config), "{peers} peers");
        assert_eq!(config.maximum_circuits_per_peer, 32);
        assert_eq!(config.maximum_circuits, (16 * peers.clamp(2, 5_000)).min(MAX_RUNTIME_CIRCUITS));
        assert_eq!(config.maximum_pending, config.maximum_circuits);
        let routes = (512 * peers.clamp(2, 5_000)).min(MAX_RUNTIME_INFLIGHT_ACTIONS);
        assert_eq!(config.maximum_inflight_actions, routes);
        assert_eq!(config.maximum_inflight_actions_per_peer, 1_024);
        assert_eq!(config.maximum_inflight_actions_per_circuit, 32);
    }
}

#[test]
fn the_memory_is_what_a_relay_takes() {
    let small = OpaqueRelayConfig { maximum_pending: 1, maximum_circuits: 1, ..OpaqueRelayConfig::default() };
    for config in
        [small, OpaqueRelayConfig::default()].into_iter().chain([0, 10, 1_000].map(OpaqueRelayConfig::for_peers))
    {
        assert_eq!(config.memory_bytes(), taken(&config));
    }
    let vast = OpaqueRelayConfig { maximum_inflight_actions: usize::MAX / 100, ..small };
    assert_eq!(vast.memory_bytes(), usize::MAX);
    let vast = OpaqueRelayConfig { maximum_pending: usize::MAX, maximum_circuits: usize::MAX, ..small };
    assert_eq!(vast.memory_bytes(), usize::MAX);
}

/// The archive takes the least, and refuses one less.
#[test]
fn a_limit_may_be_at_its_least_and_not_below() {
    let data = |length| DataBody::decode(&[7; MAX_DATA_SIZE + 1][..length]).map(|data| data.bytes.len());
    let size = Err(ProtocolError::Invalid(Invalid::DataSize));
    assert_eq!((data(MIN_DATA_SIZE - 1), data(MIN_DATA_SIZE)), (size, Ok(MIN_DATA_SIZE)));
    assert_eq!((data(MAX_DATA_SIZE), data(MAX_DATA_SIZE + 1)), (Ok(MAX_DATA_SIZE), size));

    let window = |credit: u32| WindowBody::decode(&credit.to_le_bytes()).map(|window| window.credit_delta);
    let credit = Err(ProtocolError::Invalid(Invalid::WindowCredit));
    assert_eq!((window(MIN_WINDOW_CREDIT - 1), window(MIN_WINDOW_CREDIT)), (credit, Ok(MIN_WINDOW_CREDIT)));
    assert_eq!((window(MAX_WINDOW), window(MAX_WINDOW + 1)), (Ok(MAX_WINDOW), credit));

    let name = |length| HnsrPeerId::new(vec![7; length]).map(|peer| peer.as_bytes().len());
    let invalid = Err(HnsrRuntimeError::InvalidPeer);
    assert_eq!((name(MINIMUM_PEER - 1), name(MINIMUM_PEER)), (invalid, Ok(MINIMUM_PEER)));
    assert_eq!((name(MAXIMUM_PEER), name(MAXIMUM_PEER + 1)), (Ok(MAXIMUM_PEER), invalid));

    let of_circuit = |limit| {
        let config = OpaqueRelayConfig { maximum_inflight_actions_per_circuit: limit, ..OpaqueRelayConfig::default() };
        config.validate().map(|config| config.maximum_inflight_actions_per_circuit)
    };
    let least = MIN_INFLIGHT_ACTIONS_PER_CIRCUIT;
    assert_eq!((of_circuit(least - 1), of_circuit(least)), (Err(HnsrRuntimeError::InvalidConfig), Ok(least)));
    assert!((MIN_WINDOW..=MAX_WINDOW).contains(&DEFAULT_WINDOW) && DEFAULT_WINDOW as usize <= MAX_CIRCUIT_QUEUE);
}
