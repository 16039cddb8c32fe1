//! Refusals: their numbers, their words, and which come before which.
use crate::fixture::{circuit, grant, open, open_body, peer, relay, say, small, START};
use lekchnam_host::body::{Invalid, ProtocolError};
use lekchnam_host::lent::{ReservationUsage, Tables};
use lekchnam_host::limits::*;
use lekchnam_host::HnsrRuntimeError::{self, *};
use lekchnam_host::{
    Admission, Grant, HnsrActionId, HnsrOpcode, HnsrPacket, HnsrPeerId, OpaqueRelayConfig, OpaqueRelayRuntime, OsRandom,
};

/// The words of the Rust's `HnsrRuntimeError`, and of the two that are added.
const WORDS: [(HnsrRuntimeError, &str); 22] = [
    (InvalidConfig, "invalid HNSR runtime configuration"),
    (InvalidSession, "invalid or reused HNSR runtime session"),
    (InvalidPeer, "invalid HNSR outer peer identity"),
    (StaleGeneration, "stale HNSR runtime generation"),
    (GenerationExhausted, "HNSR runtime generation exhausted"),
    (ClockRollback, "HNSR trusted clock rollback detected"),
    (Randomness, "HNSR runtime randomness unavailable"),
    (Disabled, "HNSR runtime role is disabled"),
    (Capacity, "HNSR runtime capacity reached"),
    (InvalidAdmission, "invalid HNSR circuit admission"),
    (Deadline, "invalid or expired HNSR circuit deadline"),
    (UnknownRequest, "unknown HNSR circuit request"),
    (UnknownCircuit, "unknown HNSR circuit"),
    (WrongPeer, "HNSR packet arrived from the wrong outer peer"),
    (UnexpectedOpcode, "unexpected HNSR runtime opcode"),
    (FlowControl, "HNSR circuit flow-control bound exceeded"),
    (ByteLimit, "HNSR circuit byte bound exceeded"),
    (NoQueuedData, "no queued HNSR requester data"),
    (UnknownAction, "unknown HNSR queued action"),
    (CorruptSnapshot, "corrupt HNSR runtime snapshot"),
    (Short, "HNSR relay tables or output words too few"),
    (LedgerFull, "HNSR reservation ledger is full"),
];

#[test]
fn numbers_and_words() {
    for (place, (error, words)) in WORDS.into_iter().enumerate() {
        assert_eq!(error.number() as usize, place + 2);
        assert_eq!(error.to_string(), words);
    }
    let cause = ProtocolError::Invalid(Invalid::DataSize);
    assert_eq!(Protocol(cause).number(), 1);
    assert_eq!(Protocol(cause).to_string(), cause.to_string());
}

#[test]
fn opcodes_have_the_numbers_of_the_rust() {
    for number in 0..=255_u8 {
        let opcode = HnsrOpcode::from(number);
        assert_eq!(u8::from(opcode), number);
        match opcode {
            HnsrOpcode::Unknown(unknown) => assert_eq!((unknown.number(), number > 20), (number, true)),
            _ => assert!(number <= 20),
        }
    }
    let relayed = [(13, HnsrOpcode::Open), (15, HnsrOpcode::Accept), (17, HnsrOpcode::Data), (18, HnsrOpcode::Window)];
    let sent = [(14, HnsrOpcode::Incoming), (16, HnsrOpcode::Opened), (19, HnsrOpcode::Close), (20, HnsrOpcode::Error)];
    for (number, opcode) in relayed.into_iter().chain(sent) {
        assert_eq!(u8::from(opcode), number);
    }
}

#[test]
fn every_opcode_from_21_on_is_refused_with_16_and_moves_the_clock() {
    let mut relay = relay(small());
    for (number, now) in (HnsrOpcode::COUNT..=255).zip(START..) {
        let packet = HnsrPacket::new(number.into(), [1; 8], b"").expect("a packet");
        assert_eq!(relay.handle(&Admission::Refused, &peer(b"r"), &packet, now).unwrap_err(), UnexpectedOpcode);
        assert_eq!(relay.status().trusted_time_high_water, now);
    }
}

#[test]
fn names_of_peers() {
    assert_eq!(HnsrPeerId::new(""), Err(InvalidPeer));
    assert_eq!(HnsrPeerId::new([7; MAXIMUM_PEER + 1]), Err(InvalidPeer));
    for length in [1, 2, MAXIMUM_PEER - 1, MAXIMUM_PEER] {
        let name = vec![7; length];
        assert_eq!(peer(&name).as_bytes(), name);
    }
    // a zero at the end is part of a name, and names are ordered as their bytes are
    assert_ne!(peer(&[1]), peer(&[1, 0]));
    assert!(peer(&[1]) < peer(&[1, 0]) && peer(&[1, 9]) < peer(&[2]));
}

/// The answer to a `new` that is refused.
fn refused_new(
    session: [u8; 16],
    generation: u64,
    config: OpaqueRelayConfig,
    ledger_places: usize,
) -> HnsrRuntimeError {
    let random = OsRandom::default();
    OpaqueRelayRuntime::new_with(session, generation, config, START, ledger_places, random).map(|_| ()).unwrap_err()
}

/// More places than there are addresses: of any record, of the ledger's, and of those just so many
/// that their bytes can be counted.
const NOT_TO_BE_HAD: [usize; 3] =
    [usize::MAX, usize::MAX / size_of::<ReservationUsage>(), isize::MAX as usize / size_of::<ReservationUsage>()];

#[test]
fn new_refuses_session_then_configuration_then_ledger() {
    let none = OpaqueRelayConfig { maximum_pending: 0, ..small() };
    let vast = OpaqueRelayConfig { maximum_pending: usize::MAX, maximum_circuits: usize::MAX, ..small() };
    for ledger_places in [0, 1].into_iter().chain(NOT_TO_BE_HAD) {
        for config in [none, vast] {
            assert_eq!(refused_new([0; 16], 1, config, ledger_places), InvalidSession);
            assert_eq!(refused_new([1; 16], 0, config, ledger_places), InvalidSession);
            assert_eq!(refused_new([1; 16], 1, config, ledger_places), InvalidConfig);
            assert_eq!(config.validate(), Err(InvalidConfig));
        }
        assert_eq!(refused_new([0; 16], 1, small(), ledger_places), InvalidSession);
        assert_eq!(refused_new([1; 16], 0, small(), ledger_places), InvalidSession);
    }
    assert_eq!(refused_new([1; 16], 1, small(), 0), Short);
    assert_eq!(small().validate(), Ok(small()));
}

#[test]
fn a_limit_may_be_at_its_most_and_not_above() {
    let most = OpaqueRelayConfig {
        maximum_pending: MAX_RUNTIME_PENDING,
        maximum_circuits: MAX_RUNTIME_CIRCUITS,
        maximum_circuits_per_peer: MAX_CIRCUITS,
        maximum_queue_bytes: MAX_CIRCUIT_QUEUE,
        maximum_inflight_actions: MAX_RUNTIME_INFLIGHT_ACTIONS,
        accept_timeout_seconds: MAX_OPEN_DEADLINE_SECONDS,
        ..OpaqueRelayConfig::default()
    };
    assert_eq!(most.validate(), Ok(most));
    let above = [
        OpaqueRelayConfig { maximum_pending: MAX_RUNTIME_PENDING + 1, ..most },
        OpaqueRelayConfig { maximum_circuits: MAX_RUNTIME_CIRCUITS + 1, ..most },
        OpaqueRelayConfig { maximum_circuits_per_peer: MAX_CIRCUITS + 1, ..most },
        OpaqueRelayConfig { maximum_queue_bytes: MAX_CIRCUIT_QUEUE + 1, ..most },
        OpaqueRelayConfig { maximum_inflight_actions: MAX_RUNTIME_INFLIGHT_ACTIONS + 1, ..most },
        OpaqueRelayConfig { accept_timeout_seconds: MAX_OPEN_DEADLINE_SECONDS + 1, ..most },
    ];
    for config in above {
        assert_eq!(config.validate(), Err(InvalidConfig));
    }
}

#[test]
fn memory_that_cannot_be_had_is_refused_with_22() {
    for places in NOT_TO_BE_HAD {
        assert_eq!(refused_new([1; 16], 1, small(), places), Short);
        assert_eq!(Tables::new(&small(), places), Err(Short));
        // limits that `validate` would refuse
        let limits = [
            OpaqueRelayConfig { maximum_pending: places, ..small() },
            OpaqueRelayConfig { maximum_circuits: places, ..small() },
            OpaqueRelayConfig { maximum_inflight_actions: places, ..small() },
        ];
        for config in limits {
            assert_eq!(Tables::new(&config, 1), Err(Short));
        }
    }
    assert_eq!(Tables::new(&small(), 0).map(|tables| tables.ledger.len()), Ok(0));
}

#[test]
fn the_default_is_the_rusts() {
    let expected = OpaqueRelayConfig {
        maximum_pending: 1_024,
        maximum_circuits: 4_096,
        maximum_circuits_per_peer: 32,
        maximum_queue_bytes: 65_536,
        maximum_inflight_actions: 65_536,
        maximum_inflight_actions_per_circuit: 128,
        maximum_inflight_actions_per_peer: 4_096,
        maximum_bytes_per_circuit: 16 * 1024 * 1024,
        accept_timeout_seconds: 10,
    };
    assert_eq!(OpaqueRelayConfig::default(), expected);
    let relay = OpaqueRelayRuntime::new([1; 16], 1, expected, START).expect("a relay of default size");
    assert_eq!((relay.status().trusted_time_high_water, relay.next_due()), (START, None));
}

#[test]
fn an_open_is_refused_by_what_the_host_says_of_it() {
    let mut relay = relay(small());
    let body = open_body();
    let packet = HnsrPacket::new(HnsrOpcode::Open, [9; 8], &body).expect("a packet");
    let mut answer = |admission| relay.handle(&admission, &peer(b"r"), &packet, START).map(|routes| routes.len());
    let ended = Grant { expires_at: START, ..grant(b"e") };
    let spent = Grant { max_total_bytes: 0, ..grant(b"e") };
    assert_eq!(answer(Admission::KeyInvalid), Err(ProtocolError::Invalid(Invalid::OpenParameters).into()));
    assert_eq!(answer(Admission::Refused), Err(ProtocolError::Admission.into()));
    assert_eq!(answer(Admission::Granted(ended)), Err(ProtocolError::Admission.into()));
    assert_eq!(answer(Admission::Granted(grant(b""))), Err(InvalidPeer));
    assert_eq!(answer(Admission::Granted(grant(&[7; MAXIMUM_PEER + 1]))), Err(InvalidPeer));
    assert_eq!(answer(Admission::Granted(grant(b"r"))), Err(Capacity));
    assert_eq!(answer(Admission::Granted(spent)), Err(ByteLimit));
    assert_eq!(answer(Admission::Granted(grant(b"e"))), Ok(1));
}

#[test]
fn a_full_ledger_refuses_only_a_new_reservation() {
    let mut relay = OpaqueRelayRuntime::new_with([1; 16], 1, small(), START, 1, OsRandom::default()).expect("a relay");
    let other = Grant { reservation_id: [6; 16], ..grant(b"e") };
    assert!(open(&mut relay, b"r", 1, grant(b"e")).is_ok());
    assert_eq!(open(&mut relay, b"r", 2, other), Err(LedgerFull));
    assert!(open(&mut relay, b"r", 2, grant(b"e")).is_ok());
}

#[test]
fn a_refused_call_has_no_words_and_may_move_the_clock() {
    let mut relay = relay(small());
    let id = circuit(&mut relay, b"r", b"e", 9);
    assert!(!relay.words().is_empty());
    assert_eq!(say(&mut relay, b"r", HnsrOpcode::Data, id + 1, b"x").unwrap_err(), UnknownCircuit);
    assert!(relay.words().is_empty() && relay.routes().is_empty());
    let unknown = HnsrPacket::new(HnsrOpcode::COUNT.into(), [1; 8], b"").expect("a packet");
    assert_eq!(relay.handle(&Admission::Refused, &peer(b"r"), &unknown, START + 5).unwrap_err(), UnexpectedOpcode);
    assert_eq!(relay.status().trusted_time_high_water, START + 5);
    assert_eq!(relay.observe_time(START), Err(ClockRollback));
    assert_eq!(relay.expire(START).unwrap_err(), ClockRollback);
    assert_eq!(relay.observe_time(START + 6), Ok(()));
}

#[test]
fn acknowledging_and_switching_go_by_the_generation() {
    let mut relay = relay(small());
    circuit(&mut relay, b"r", b"e", 9);
    let action = |generation, sequence| HnsrActionId { generation, sequence };
    assert_eq!(relay.acknowledge(action(2, 2), true).unwrap_err(), StaleGeneration);
    assert_eq!(relay.acknowledge(action(1, 1), true).unwrap_err(), UnknownAction);
    assert_eq!(relay.acknowledge(action(1, 2), true).map(|routes| routes.len()), Ok(0));
    assert_eq!(relay.replace_enabled(2, false).unwrap_err(), StaleGeneration);
    assert_eq!(relay.replace_enabled(1, true).map(|routes| routes.len()), Ok(0));
    assert_eq!(relay.replace_enabled(1, false).map(|routes| routes.len()), Ok(2));
    assert_eq!(say(&mut relay, b"r", HnsrOpcode::Data, 1, b"x").unwrap_err(), Disabled);
    assert_eq!(relay.status().generation, 2);
}
