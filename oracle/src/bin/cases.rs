//! The sixteen cases (CASE.1, CASE.2), by the Rust. Prints their table and fails where an answer differs.
use lekchnam_host::HnsrOpcode;
use lekchnam_host::limits::HEAD_WORDS;
use lekchnam_traces::words::words;
use lekchnam_traces::{Config, Grant};
use oracle::{Oracle, Outcome, Packet, default_config};

const REQUESTER: &[u8] = b"requester";
const ENDPOINT: &[u8] = b"endpoint";
const THIRD: &[u8] = b"third";
const CONTEXT: [u8; 8] = *b"context1";
const CIRCUIT: [u8; 8] = *b"circuit1";
/// What the OPEN offers and the ACCEPT takes.
const WINDOW: u32 = 32_768;

fn config(queue: Option<usize>) -> Config {
    let default = default_config();
    Config {
        maximum_pending: 2,
        maximum_circuits: 2,
        maximum_queue_bytes: queue.unwrap_or(default.maximum_queue_bytes),
        maximum_inflight_actions: 8,
        maximum_inflight_actions_per_circuit: 8,
        maximum_inflight_actions_per_peer: 8,
        ..default
    }
}

fn grant() -> Grant {
    Grant {
        endpoint: ENDPOINT.to_vec(),
        reservation_id: [2; 16],
        expires_at: 1_000,
        max_active_circuits: 1,
        max_bytes_per_circuit: 20_000,
        max_total_bytes: 30_000,
    }
}

/// A relay with one pending record.
fn relay(queue: Option<usize>) -> Oracle {
    let mut relay = Oracle::new([7; 16], 1, config(queue), 100).expect("a configuration within its bounds");
    let (ticket, reservation, key, profile, nonce) = ([1; 32], [2; 16], [3; 33], 1_u16.to_le_bytes(), [4; 16]);
    let body = [&ticket[..], &reservation, &key, &profile, &nonce, &WINDOW.to_le_bytes()].concat();
    let open = Packet {
        source: REQUESTER,
        opcode: HnsrOpcode::Open.into(),
        context: CONTEXT,
        body: &body,
        now: 100,
        key_valid: true,
        admission: Some(grant()),
        random: &CIRCUIT,
    };
    let routes = relay.handle(&open).expect("the OPEN is taken");
    assert_eq!(
        (routes[0].opcode.into(), routes[0].context, &routes[0].peer[..]),
        (HnsrOpcode::Incoming, CIRCUIT, ENDPOINT)
    );
    assert_eq!(words(&routes).len(), HEAD_WORDS + 16);
    relay
}

fn send(relay: &mut Oracle, source: &[u8], opcode: HnsrOpcode, body: &[u8], now: u64) -> Outcome {
    let opcode = opcode.into();
    relay.handle(&Packet { source, opcode, context: CIRCUIT, body, now, key_valid: true, admission: None, random: &[] })
}

fn accept(relay: &mut Oracle, now: u64) -> Outcome {
    let mut body = WINDOW.to_le_bytes().to_vec();
    body.extend([5; 16]);
    send(relay, ENDPOINT, HnsrOpcode::Accept, &body, now)
}

fn active(queue: Option<usize>) -> Oracle {
    let mut relay = relay(queue);
    accept(&mut relay, 100).unwrap();
    relay
}

fn data(relay: &mut Oracle, size: usize) -> Outcome {
    send(relay, REQUESTER, HnsrOpcode::Data, &vec![9; size], 100)
}

fn case(number: u32) -> Outcome {
    match number {
        1 => data(&mut active(None), 0),
        2 => data(&mut active(None), 16_384),
        3 => data(&mut active(None), 16_385),
        4 | 5 => {
            let mut r = active(None);
            data(&mut r, 16_384).unwrap();
            data(&mut r, if number == 4 { 3_617 } else { 3_616 })
        }
        6..=8 => {
            let delta: u32 = [1_015_808, 1_015_809, 0][number as usize - 6];
            send(&mut active(None), ENDPOINT, HnsrOpcode::Window, &delta.to_le_bytes(), 100)
        }
        9 => send(&mut active(None), REQUESTER, HnsrOpcode::Data, &[9], 99),
        10 => accept(&mut relay(None), 110),
        11 => accept(&mut relay(None), 109),
        12 => send(&mut active(None), REQUESTER, HnsrOpcode::Error, &[0xff, 0xff, 0], 100),
        13 => send(&mut active(None), REQUESTER, HnsrOpcode::Close, &[0, 0, 2, 0xc0, 0x80], 100),
        14 => send(&mut active(None), THIRD, HnsrOpcode::Data, &[9], 100),
        15 | 16 => {
            let mut r = active(Some(16_384));
            let first = data(&mut r, 16_384).unwrap();
            if number == 16 {
                r.acknowledge(first[0].generation, first[0].sequence, true).unwrap();
            }
            data(&mut r, 1)
        }
        _ => unreachable!(),
    }
}

fn main() {
    let table = [1, 0, 1, 18, 0, 0, 17, 1, 7, 11, 0, 0, 1, 15, 17, 0];
    println!("case answer");
    let mut wrong = 0;
    for number in 1..=16 {
        let outcome = case(number);
        let answer = outcome.as_ref().err().map_or(0, |r| r.number);
        println!("{number} {answer}");
        if let Err(refusal) = &outcome {
            eprintln!("  case {number}: {} ({})", refusal.text, refusal.cause);
        }
        wrong += u32::from(answer != table[number as usize - 1]);
    }
    if wrong > 0 {
        eprintln!("{wrong} differ from the table");
        std::process::exit(1);
    }
}
