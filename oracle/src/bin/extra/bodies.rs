//! Each body cut at every length, and each value at its edges.
use crate::script::*;
use lekchnam_host::HnsrOpcode;
use lekchnam_host::limits::{MAX_BODY_SIZE, MAX_DATA_SIZE, MAX_DETAIL_SIZE, MAX_WINDOW, MIN_WINDOW};
use lekchnam_traces::bytes::pattern;

const STRANGER: &[u8] = b"third";

pub fn script() -> Script {
    let mut script = Script::of_small("bodies");
    script.new_relay(small());
    opens(&mut script);
    accepts(&mut script);
    windows(&mut script);
    data(&mut script);
    closings(&mut script, HnsrOpcode::Close);
    closings(&mut script, HnsrOpcode::Error);
    script
}

/// A body with five bytes behind it.
fn long(body: &[u8]) -> Vec<u8> {
    [body, &[7; 5]].concat()
}

fn opens(script: &mut Script) {
    let good = open_body();
    let full = long(&good);
    for length in (0..=full.len()).filter(|length| *length != good.len()) {
        assert_eq!(script.open(REQUESTER, CONTEXT, &full[..length], &CIRCUIT), 1);
    }
    // one field at a time all zero, then the window beside its bounds
    for field in [0..32, 32..48, 81..83, 83..99, 99..103] {
        let mut body = good.clone();
        body[field].fill(0);
        assert_eq!(script.open(REQUESTER, CONTEXT, &body, &CIRCUIT), 1);
    }
    for window in [MIN_WINDOW - 1, MAX_WINDOW + 1, u32::MAX] {
        let body = [&good[..99], &window.to_le_bytes()].concat();
        assert_eq!(script.open(REQUESTER, CONTEXT, &body, &CIRCUIT), 1);
    }
    assert_eq!(script.open(REQUESTER, CONTEXT, &good, &CIRCUIT), 0);
}

fn accepts(script: &mut Script) {
    let good = accept_body(WINDOW, 5);
    let full = long(&good);
    for length in (0..=full.len()).filter(|length| *length != good.len()) {
        assert_eq!(script.packet(ENDPOINT, HnsrOpcode::Accept, CIRCUIT, &full[..length]), 1);
    }
    for (window, nonce, answer) in [
        (MIN_WINDOW - 1, 1, 1),
        (0, 1, 1),
        (MAX_WINDOW + 1, 1, 1),
        (MAX_WINDOW, 1, 10),
        (WINDOW + 1, 1, 10),
        (MIN_WINDOW, 0, 1),
    ] {
        assert_eq!(script.packet(ENDPOINT, HnsrOpcode::Accept, CIRCUIT, &accept_body(window, nonce)), answer);
    }
    assert_eq!(script.packet(ENDPOINT, HnsrOpcode::Accept, CIRCUIT, &good), 0);
}

fn windows(script: &mut Script) {
    for delta in [0, 1, MAX_WINDOW, MAX_WINDOW + 1, u32::MAX, MAX_WINDOW - WINDOW, MAX_WINDOW - WINDOW - 1] {
        let full = long(&delta.to_le_bytes());
        for length in 0..=full.len() {
            script.packet(REQUESTER, HnsrOpcode::Window, CIRCUIT, &full[..length]);
        }
    }
}

fn data(script: &mut Script) {
    for size in [0, 1, 2, 3, 4, 5, 255, 256, 257, MAX_DATA_SIZE - 1, MAX_DATA_SIZE, MAX_DATA_SIZE + 1, MAX_BODY_SIZE] {
        script.packet(REQUESTER, HnsrOpcode::Data, CIRCUIT, &pattern(size, 5));
        script.packet(ENDPOINT, HnsrOpcode::Data, CIRCUIT, &pattern(size, 6));
    }
}

/// By a third peer, so that nothing ends: 15 says that the body is good.
fn closings(script: &mut Script, opcode: HnsrOpcode) {
    let most = MAX_DETAIL_SIZE;
    for said in [0, 1, 2, most - 1, most, most + 1, 255] {
        for length in [0, 1, 2, 3, most - 1, most, most + 1, 255, 256] {
            let body = [&[1, 2, said as u8], &vec![b'a'; length][..]].concat();
            script.packet(STRANGER, opcode, CIRCUIT, &body);
        }
    }
    for length in 0..3 {
        script.packet(STRANGER, opcode, CIRCUIT, &[1, 2, 0][..length]);
    }
    for reason in [0_u16, 1, 17, 18, 255, 256, 65_535] {
        let body = [&reason.to_le_bytes()[..], &[0]].concat();
        script.packet(STRANGER, opcode, CIRCUIT, &body);
    }
}
