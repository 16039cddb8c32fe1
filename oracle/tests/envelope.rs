//! Packets as bytes, the library against the Rust: what is encoded, what is decoded, and the words of a refusal; and
//! the names and numbers of opcodes and reasons.
use hns_hnsr_protocol as rust;
use hns_hnsr_protocol::body::HnsrErrorCode as RustErrorCode;
use lekchnam_host::limits::{MAX_BODY_SIZE, MAX_PACKET_SIZE};
use lekchnam_host::{HnsrErrorCode, HnsrOpcode, HnsrPacket};

#[path = "../../host/tests/support/random.rs"]
mod random;

use random::Random;

/// A packet's opcode, context and body, or the words of the refusal.
type Decoded = Result<(u8, [u8; 8], Vec<u8>), String>;

fn decoded_by_rust(input: &[u8]) -> Decoded {
    let decoded = rust::HnsrPacket::decode(input);
    decoded.map(|packet| (packet.opcode as u8, packet.context_id, packet.body)).map_err(|error| error.to_string())
}

fn decoded(input: &[u8]) -> Decoded {
    let decoded = HnsrPacket::decode(input);
    decoded
        .map(|packet| (packet.opcode.into(), packet.context_id, packet.body.to_vec()))
        .map_err(|error| error.to_string())
}

/// Opcode, context and body, which need not be a good packet's: the context may be zero, the body too long.
fn by_chance(random: &mut Random) -> (u8, [u8; 8], Vec<u8>) {
    let opcode = random.below(usize::from(HnsrOpcode::COUNT)) as u8;
    let context_id = if random.below(8) == 0 { [0; 8] } else { [0; 8].map(|_: u8| random.byte()) };
    let body = match random.below(200) {
        0 => vec![random.byte(); MAX_BODY_SIZE - 1 + random.below(4)],
        1..100 => random.text(40),
        _ => (0..random.below(40)).map(|_| random.byte()).collect(),
    };
    (opcode, context_id, body)
}

#[test]
fn packets_by_chance_are_encoded_alike() {
    const COUNT: usize = 100_000;
    let mut random = Random::new(1);
    let mut encoded = 0;
    for _ in 0..COUNT {
        let (opcode, context_id, body) = by_chance(&mut random);
        let packet = HnsrPacket { opcode: opcode.into(), context_id, body: &body };
        let ours = packet.encode().map_err(|error| error.to_string());
        encoded += usize::from(ours.is_ok());
        let opcode = rust::HnsrOpcode::try_from(opcode).expect("a message's");
        let rusts = rust::HnsrPacket { opcode, context_id, body }.encode().map_err(|error| error.to_string());
        assert_eq!(ours, rusts);
    }
    assert!(encoded < COUNT);
    println!("compared with the Rust: {COUNT} packets encoded, {} of them refused", COUNT - encoded);
}

/// Good packets as bytes, whole, cut and damaged; bytes by chance; and such as are too many.
#[test]
fn bytes_by_chance_are_decoded_alike() {
    const COUNT: usize = 200_000;
    let mut random = Random::new(2);
    let mut accepted = 0;
    for round in 0..COUNT {
        let (opcode, context_id, body) = by_chance(&mut random);
        let mut input = [&[1, opcode, 0, 0], &context_id[..], &body].concat();
        match round % 4 {
            0 => {}
            1 => input.truncate(random.below(14)),
            2 => input = (0..random.below(30)).map(|_| random.byte() % 24).collect(),
            _ => (0..1 + random.below(3)).for_each(|_| input = random.damaged(&input)),
        }
        let ours = decoded(&input);
        accepted += usize::from(ours.is_ok());
        assert_eq!(ours, decoded_by_rust(&input), "{input:02x?}");
    }
    assert!((1..COUNT).contains(&accepted));
    println!("compared with the Rust: {COUNT} inputs decoded, {accepted} of them accepted");
}

/// Each value of each byte of a header, and each length about the least and the most.
#[test]
fn every_header_and_every_length() {
    let good = [&[1, 17, 0, 0], &b"circuit1invoice"[..]].concat();
    for at in 0..good.len() {
        for value in 0..=255 {
            let mut input = good.clone();
            input[at] = value;
            assert_eq!(decoded(&input), decoded_by_rust(&input), "{input:02x?}");
        }
    }
    let long = [&good[..], &vec![7; MAX_PACKET_SIZE]].concat();
    for length in (0..=good.len()).chain(MAX_PACKET_SIZE - 2..MAX_PACKET_SIZE + 3) {
        assert_eq!(decoded(&long[..length]), decoded_by_rust(&long[..length]), "{length} bytes");
    }
}

#[test]
fn opcodes_and_reasons_have_the_names_of_the_rust() {
    for number in 0..=255_u8 {
        match rust::HnsrOpcode::try_from(number) {
            Ok(named) => assert_eq!(format!("{:?}", HnsrOpcode::from(number)), format!("{named:?}")),
            Err(_) => assert!(matches!(HnsrOpcode::from(number), HnsrOpcode::Unknown(_))),
        }
    }
    for number in 0..=u16::MAX {
        let ours = HnsrErrorCode::try_from(number).map(|code| format!("{code:?}")).map_err(|error| error.to_string());
        let rusts = RustErrorCode::try_from(number).map(|code| format!("{code:?}")).map_err(|error| error.to_string());
        assert_eq!(ours, rusts, "{number}");
    }
}
