//! The archive's readers and writers against the Rust's own: answers, causes with their values and words, every field
//! of an accepted body, and every byte of a written one. The inputs are those of host/tests/bodies.rs.
use hns_encoding::DecodeError;
use hns_hnsr_protocol::{self as rust, HnsrOpcode, HnsrPacket, HnsrProtocolError};
use lekchnam_host::body::{self as archive, Invalid, ProtocolError};

#[path = "../../host/tests/support/inputs.rs"]
mod inputs;
#[path = "../../host/tests/support/random.rs"]
mod random;

use inputs::{Input, MESSAGES, Message, Packet, by_chance, inputs, packets};
use random::Random;

/// The accepted body's fields, or the cause and its words.
type Reading = Result<Vec<u8>, (ProtocolError, String)>;

fn refused(error: HnsrProtocolError) -> (ProtocolError, String) {
    let words = error.to_string();
    let cause = match error {
        HnsrProtocolError::Decode(DecodeError::UnexpectedEnd { offset, needed }) => {
            ProtocolError::UnexpectedEnd { offset, needed }
        }
        HnsrProtocolError::Decode(DecodeError::TrailingBytes { remaining }) => {
            ProtocolError::TrailingBytes { remaining }
        }
        HnsrProtocolError::Invalid(text) => {
            let named = Invalid::ALL.into_iter().find(|invalid| invalid.text() == text);
            ProtocolError::Invalid(named.unwrap_or_else(|| panic!("a text that the archive does not have: {text}")))
        }
        HnsrProtocolError::TooLarge { actual, maximum } => ProtocolError::TooLarge { actual, maximum },
        other => panic!("a cause that the archive does not have: {other}"),
    };
    (cause, words)
}

fn with_words(error: ProtocolError) -> (ProtocolError, String) {
    (error, error.to_string())
}

/// The reading of one of the two. Their names are the same, so this is written once; an OPEN's
/// decoder alone has other parameters.
macro_rules! reading {
    ($side:ident, $input:ident, $open:expr) => {{
        let bytes = &$input.bytes[..];
        match $input.message {
            Message::Open => $open.map(|body| {
                let (profile, window) = (body.profile.to_le_bytes(), body.initial_window.to_le_bytes());
                let ids = [&body.ticket_id[..], &body.reservation_id, &body.endpoint_key].concat();
                [&ids[..], &profile, &body.requester_nonce, &window].concat()
            }),
            Message::Incoming => $side::IncomingBody::decode(bytes).map(|body| {
                let (profile, window) = (body.profile.to_le_bytes(), body.initial_window.to_le_bytes());
                [&body.ticket_id[..], &body.open_request_id, &profile, &body.requester_nonce, &window].concat()
            }),
            Message::Accept => $side::AcceptBody::decode(bytes)
                .map(|body| [&body.accepted_window.to_le_bytes()[..], &body.endpoint_nonce].concat()),
            Message::Opened => $side::OpenedBody::decode(bytes)
                .map(|body| [&body.circuit_id[..], &body.accepted_window.to_le_bytes(), &body.endpoint_nonce].concat()),
            Message::Data => $side::DataBody::decode(bytes).map(|body| body.bytes.to_vec()),
            Message::Window => $side::WindowBody::decode(bytes).map(|body| body.credit_delta.to_le_bytes().to_vec()),
            Message::Close => $side::CloseBody::decode(bytes)
                .map(|body| [&body.reason.to_le_bytes()[..], body.detail.as_bytes()].concat()),
            Message::Error => $side::ErrorBody::decode(bytes)
                .map(|body| [&body.reason.to_le_bytes()[..], body.detail.as_bytes()].concat()),
        }
    }};
}

fn by_rust(input: &Input) -> Reading {
    k256::set_key_valid(input.key_valid);
    reading!(rust, input, rust::OpenBody::decode(&input.bytes)).map_err(refused)
}

fn by_archive(input: &Input) -> Reading {
    reading!(archive, input, archive::OpenBody::decode(&input.bytes, input.key_valid)).map_err(with_words)
}

/// Compares one input and says whether it is accepted.
fn compare(input: &Input) -> bool {
    let reading = by_rust(input);
    assert_eq!(by_archive(input), reading, "{input:02x?}");
    reading.is_ok()
}

/// What both writers make of one body, which the archive's reader has read, accepted or not.
macro_rules! written {
    ($body:ident $read:expr, $($field:ident),+ $(; $key:expr)?) => {{
        let archive::$body { $($field),+ } = $read;
        let by_rust = rust::$body { $($field),+ }.encode().map_err(refused);
        let by_archive = archive::$body { $($field),+ }.encode($($key)?).map(Vec::from).map_err(with_words);
        assert_eq!(by_archive, by_rust);
        by_rust.is_ok()
    }};
}

/// The text behind the reason and the length, where it is UTF-8: no other can be handed to either.
fn detail_written(bytes: &[u8]) -> bool {
    let Some((&[low, high, _], text)) = bytes.split_first_chunk() else { return false };
    let Ok(detail) = std::str::from_utf8(text) else { return false };
    let reason = u16::from_le_bytes([low, high]);
    let closed = rust::CloseBody { reason, detail: detail.to_owned() }.encode().map_err(refused);
    let failed = rust::ErrorBody { reason, detail: detail.to_owned() }.encode().map_err(refused);
    assert_eq!(archive::CloseBody { reason, detail }.encode().map_err(with_words), closed);
    assert_eq!(archive::ErrorBody { reason, detail }.encode().map_err(with_words), failed);
    closed.is_ok()
}

/// Compares the writers on the body of one input and says whether it is written.
fn compare_written(input: &Input) -> bool {
    let Input { message, bytes, key_valid } = input;
    k256::set_key_valid(*key_valid);
    match message {
        Message::Open => written!(OpenBody archive::OpenBody::read(bytes, *key_valid).body, ticket_id, reservation_id,
            endpoint_key, profile, requester_nonce, initial_window; *key_valid),
        Message::Incoming => written!(IncomingBody archive::IncomingBody::read(bytes).body, ticket_id, open_request_id,
            profile, requester_nonce, initial_window),
        Message::Accept => {
            written!(AcceptBody archive::AcceptBody::read(bytes).body, accepted_window, endpoint_nonce)
        }
        Message::Opened => {
            written!(OpenedBody archive::OpenedBody::read(bytes).body, circuit_id, accepted_window, endpoint_nonce)
        }
        Message::Window => written!(WindowBody archive::WindowBody::read(bytes).body, credit_delta),
        Message::Data => {
            let by_rust = rust::DataBody { bytes: bytes.clone() }.encode().map_err(refused);
            let by_archive = archive::DataBody { bytes }.encode().map(Vec::from).map_err(with_words);
            assert_eq!(by_archive, by_rust);
            by_rust.is_ok()
        }
        Message::Close | Message::Error => detail_written(bytes),
    }
}

#[test]
fn what_is_written_of_each_input() {
    for message in MESSAGES {
        let list = inputs(message);
        let written = list.iter().filter(|input| compare_written(input)).count();
        assert!(written > 0 && written < list.len());
        println!("compared with the Rust: {} bodies of {message:?}, {written} of them written", list.len());
    }
}

#[test]
fn what_is_written_by_chance() {
    const COUNT: usize = 500_000;
    let mut random = Random::new(5);
    let written = (0..COUNT).filter(|_| compare_written(&by_chance(&mut random))).count();
    println!("compared with the Rust: {COUNT} bodies by chance, {written} of them written");
}

#[test]
fn each_length_each_byte_and_each_limit() {
    for message in MESSAGES {
        let list = inputs(message);
        let accepted = list.iter().filter(|input| compare(input)).count();
        println!("compared with the Rust: {} inputs of {message:?}, {accepted} of them accepted", list.len());
    }
}

#[test]
fn bodies_by_chance() {
    const COUNT: usize = 1_000_000;
    let mut random = Random::new(3);
    let accepted = (0..COUNT).filter(|_| compare(&by_chance(&mut random))).count();
    println!("compared with the Rust: {COUNT} bodies by chance, {accepted} of them accepted");
}

/// The Rust has no opcode of 21 up, and no body of near 2^64 bytes.
#[test]
fn packets_of_every_opcode() {
    let mut count = 0;
    for Packet { opcode, context_id, body_length } in packets() {
        let Ok(known) = HnsrOpcode::try_from(opcode) else { continue };
        if body_length > 1 << 20 {
            continue;
        }
        let by_rust = HnsrPacket::new(known, context_id, vec![7; body_length]).map(drop).map_err(refused);
        let by_archive = archive::validate_packet(opcode, context_id, body_length).map_err(with_words);
        assert_eq!(by_archive, by_rust, "opcode {opcode}, context {context_id:02x?}, {body_length} bytes");
        count += 1;
    }
    println!("compared with the Rust: {count} packets");
}
