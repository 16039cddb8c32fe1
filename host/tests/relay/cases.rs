//! The sixteen cases (CASE.1 to CASE.3).
use crate::fixture::{self, accept_body, grant, open, peer, Relay, START};
use lekchnam_host::{Admission, Grant, HnsrOpcode, HnsrPacket, HnsrRuntimeError, OpaqueRelayConfig};

const ANSWERS: [u32; 16] = [1, 0, 1, 18, 0, 0, 17, 1, 7, 11, 0, 0, 1, 15, 17, 0];

const REQUESTER: &[u8] = &[1];
const ENDPOINT: &[u8] = &[2];
const STRANGER: &[u8] = &[3];

/// What a case does: the packets in turn, each from a peer at a time; between two, whether the first is delivered.
struct Case {
    queue: usize,
    accepted_at: u64,
    packets: Vec<(&'static [u8], HnsrOpcode, Vec<u8>, u64)>,
    delivered: bool,
}

fn packets(packets: Vec<(&'static [u8], HnsrOpcode, Vec<u8>, u64)>) -> Case {
    Case { queue: OpaqueRelayConfig::default().maximum_queue_bytes, accepted_at: START, packets, delivered: false }
}

fn one(source: &'static [u8], opcode: HnsrOpcode, body: Vec<u8>) -> Case {
    packets(vec![(source, opcode, body, START)])
}

/// DATA of the requester, of these sizes.
fn data(sizes: &[usize]) -> Case {
    packets(sizes.iter().map(|size| (REQUESTER, HnsrOpcode::Data, vec![65; *size], START)).collect())
}

fn window(delta: u32) -> Case {
    one(ENDPOINT, HnsrOpcode::Window, delta.to_le_bytes().to_vec())
}

fn case(number: usize) -> Case {
    match number {
        1 => data(&[0]),
        2 => data(&[16_384]),
        3 => data(&[16_385]),
        4 => data(&[16_384, 3_617]),
        5 => data(&[16_384, 3_616]),
        6 => window(1_015_808),
        7 => window(1_015_809),
        8 => window(0),
        9 => packets(vec![(REQUESTER, HnsrOpcode::Data, vec![65], 99)]),
        10 => Case { accepted_at: 110, ..data(&[]) },
        11 => Case { accepted_at: 109, ..data(&[]) },
        12 => one(REQUESTER, HnsrOpcode::Error, vec![0xff, 0xff, 0]),
        13 => one(REQUESTER, HnsrOpcode::Close, vec![0, 0, 2, 0xc0, 0x80]),
        14 => one(STRANGER, HnsrOpcode::Data, vec![65]),
        15 => Case { queue: 16_384, ..data(&[16_384, 1]) },
        _ => Case { delivered: true, ..case(15) },
    }
}

/// Hands a packet on the circuit to the relay, and acknowledges its route where that is asked.
fn deliver(
    relay: &mut Relay,
    source: &[u8],
    packet: HnsrPacket<'_>,
    now: u64,
    acknowledged: bool,
) -> Result<(), HnsrRuntimeError> {
    let routes = relay.handle(&Admission::Refused, &peer(source), &packet, now)?;
    let action_id = routes.iter().next().expect("a route").action_id;
    if acknowledged {
        assert!(relay.acknowledge(action_id, true)?.is_empty());
    }
    Ok(())
}

/// The answer to the last call of a case.
fn run(case: Case) -> Result<(), HnsrRuntimeError> {
    let mut relay = fixture::relay(OpaqueRelayConfig { maximum_queue_bytes: case.queue, ..fixture::small() });
    let circuit = open(&mut relay, REQUESTER, 9, Grant { max_active_circuits: 1, ..grant(ENDPOINT) }).expect("an OPEN");
    let on_circuit = |opcode, body| HnsrPacket { opcode, context_id: circuit.to_be_bytes(), body };
    let accept = accept_body();
    let mut last = deliver(&mut relay, ENDPOINT, on_circuit(HnsrOpcode::Accept, &accept), case.accepted_at, false);
    for (source, opcode, body, now) in &case.packets {
        last = deliver(&mut relay, source, on_circuit(*opcode, body), *now, case.delivered);
    }
    last
}

#[test]
fn the_sixteen_cases() {
    for (place, expected) in ANSWERS.into_iter().enumerate() {
        let number = place + 1;
        let answer = run(case(number)).map_or_else(HnsrRuntimeError::number, |()| 0);
        assert_eq!(answer, expected, "case {number}");
    }
    println!("compared: the sixteen cases");
}
