//! Packets as bytes, and over a byte stream.
use lekchnam_host::body::{Invalid, ProtocolError};
use lekchnam_host::limits::{FRAME_PREFIX_SIZE, HNSR_HEADER_SIZE, MAX_BODY_SIZE, MAX_FRAME_SIZE, MAX_PACKET_SIZE};
use lekchnam_host::stream::{append_packet, read_packet, write_packet, FrameDecoder};
use lekchnam_host::{EnvelopeError, HnsrOpcode, HnsrPacket, HnsrPacketBuf};
use std::io::{self, ErrorKind, Read, Write};

#[path = "support/random.rs"]
mod random;

use random::Random;

/// A packet of any message, its body bytes or text.
fn by_chance(random: &mut Random) -> HnsrPacketBuf {
    let opcode = HnsrOpcode::from(random.below(usize::from(HnsrOpcode::COUNT)) as u8);
    let most = random.pick(&[0, 1, 20, 20, 20, 300, 300, MAX_BODY_SIZE]);
    let body = match random.below(3) {
        0 => random.text(most),
        _ => (0..random.below(most + 1)).map(|_| random.byte()).collect(),
    };
    let mut context_id = [0; 8];
    context_id[random.below(8)] = 1 + random.byte() % 255;
    HnsrPacketBuf::new(opcode, context_id, body).expect("a good packet")
}

fn some_by_chance(random: &mut Random) -> Vec<HnsrPacketBuf> {
    (0..random.below(20)).map(|_| by_chance(random)).collect()
}

/// The packets, one behind the other.
fn frames(packets: &[HnsrPacketBuf]) -> Vec<u8> {
    let mut bytes = Vec::new();
    for packet in packets {
        append_packet(&mut bytes, &packet.as_packet()).expect("a good packet");
    }
    bytes
}

/// One packet, its size in front.
fn frame(packet: &HnsrPacketBuf) -> Vec<u8> {
    frames(std::slice::from_ref(packet))
}

/// All packets that are whole.
fn drained(decoder: &mut FrameDecoder) -> Result<Vec<HnsrPacketBuf>, EnvelopeError> {
    let mut packets = Vec::new();
    while let Some(packet) = decoder.next_packet()? {
        packets.push(packet.to_buf());
    }
    Ok(packets)
}

/// A short packet, one of the longest, and the one that may have a context of zero.
fn samples() -> Vec<HnsrPacketBuf> {
    let packet = |opcode, context, body| HnsrPacketBuf::new(opcode, context, body).expect("a good packet");
    vec![
        packet(HnsrOpcode::Data, *b"circuit1", b"invoice".to_vec()),
        packet(HnsrOpcode::FindNode, [0, 0, 0, 0, 0, 0, 0, 1], Vec::new()),
        packet(HnsrOpcode::SampleRoutes, [0; 8], vec![0]),
        packet(HnsrOpcode::Error, [0xff; 8], vec![0xff; MAX_BODY_SIZE]),
    ]
}

#[test]
fn a_packet_has_one_form_in_bytes() {
    let mut random = Random::new(1);
    for packet in samples().into_iter().chain((0..2_000).map(|_| by_chance(&mut random))) {
        let bytes = packet.as_packet().encode().expect("a good packet");
        assert_eq!((bytes.len(), &bytes[HNSR_HEADER_SIZE..]), (HNSR_HEADER_SIZE + packet.body.len(), &packet.body[..]));
        assert_eq!(HnsrPacket::decode(&bytes).map(HnsrPacket::to_buf), Ok(packet));
    }
}

/// What is decoded encodes to what it was: no other bytes mean the same.
#[test]
fn bytes_that_are_a_packet_are_the_only_ones() {
    let mut random = Random::new(2);
    let mut decoded = 0;
    for _ in 0..50_000 {
        let bytes = by_chance(&mut random).as_packet().encode().expect("a good packet");
        let damaged = random.damaged(&bytes[..bytes.len().min(40)]);
        if let Ok(packet) = HnsrPacket::decode(&damaged) {
            assert_eq!(packet.encode().expect("it was decoded"), damaged);
            decoded += 1;
        }
    }
    assert!((10_000..50_000).contains(&decoded), "{decoded} damaged packets are packets");
}

/// Each check comes before the next, as far as one input can fail both.
#[test]
fn what_is_no_packet_is_told_in_order() {
    let end = |offset, needed| EnvelopeError::Protocol(ProtocolError::UnexpectedEnd { offset, needed });
    let too_large = ProtocolError::TooLarge { actual: MAX_PACKET_SIZE + 1, maximum: MAX_PACKET_SIZE };
    let HnsrOpcode::Unknown(unknown) = HnsrOpcode::from(21) else { panic!("21 is no message's") };
    let refused: [(Vec<u8>, EnvelopeError, &str); 12] = [
        (vec![9; MAX_PACKET_SIZE + 1], too_large.into(), "HNSR field length 65536 exceeds maximum 65535"),
        (vec![], end(0, 1), "unexpected end of input at byte 0; needed 1 more byte(s)"),
        (vec![2], EnvelopeError::UnknownVersion, "invalid HNSR value: unknown HNSR version"),
        (vec![0, 99, 1, 1], EnvelopeError::UnknownVersion, "invalid HNSR value: unknown HNSR version"),
        (vec![1], end(1, 1), "unexpected end of input at byte 1; needed 1 more byte(s)"),
        (vec![1, 21], EnvelopeError::UnknownOpcode(unknown), "invalid HNSR value: unknown HNSR opcode"),
        (vec![1, 20], end(2, 2), "unexpected end of input at byte 2; needed 2 more byte(s)"),
        (vec![1, 20, 1], end(2, 1), "unexpected end of input at byte 2; needed 1 more byte(s)"),
        (vec![1, 20, 0, 1], EnvelopeError::ReservedFlags, "invalid HNSR value: reserved HNSR flags are set"),
        (vec![1, 20, 0, 0], end(4, 8), "unexpected end of input at byte 4; needed 8 more byte(s)"),
        (vec![1, 20, 0, 0, 0, 0, 0, 0, 0, 0, 0], end(4, 1), "unexpected end of input at byte 4; needed 1 more byte(s)"),
        (
            vec![1, 20, 0, 0, 0, 0, 0, 0, 0, 0, 0, 0],
            ProtocolError::Invalid(Invalid::ContextZero).into(),
            "invalid HNSR value: HNSR context ID is zero",
        ),
    ];
    for (input, error, text) in refused {
        assert_eq!(HnsrPacket::decode(&input), Err(error));
        assert_eq!(error.to_string(), text);
    }
    assert!(HnsrPacket::decode(&[1, 6, 0, 0, 0, 0, 0, 0, 0, 0, 0, 0]).is_ok());
}

#[test]
fn what_cannot_be_decoded_is_not_encoded() {
    let long = vec![7; MAX_BODY_SIZE + 1];
    let refused = [
        HnsrPacket { opcode: HnsrOpcode::from(21), context_id: [1; 8], body: b"" },
        HnsrPacket { opcode: HnsrOpcode::Data, context_id: [1; 8], body: &long },
        HnsrPacket { opcode: HnsrOpcode::Data, context_id: [0; 8], body: b"" },
    ];
    for packet in refused {
        let mut out = b"before".to_vec();
        let error = packet.encode_into(&mut out).expect_err("no packet");
        assert_eq!(append_packet(&mut out, &packet), Err(error));
        let failed = write_packet(&mut out, &packet).expect_err("no packet");
        assert_eq!((failed.kind(), failed.to_string()), (ErrorKind::InvalidInput, error.to_string()));
        assert_eq!(out, b"before");
    }
}

#[test]
fn packets_come_out_of_any_pieces_as_they_went_in() {
    let mut random = Random::new(3);
    let mut count = 0;
    for _ in 0..500 {
        let packets = some_by_chance(&mut random);
        let bytes = frames(&packets);
        let (mut decoder, mut read, mut rest) = (FrameDecoder::default(), Vec::new(), &bytes[..]);
        while !rest.is_empty() {
            let most = random.pick(&[1, 2, 3, 17, 1_000, 70_000]);
            let (piece, behind) = rest.split_at(random.below(most + 1).min(rest.len()));
            decoder.push(piece);
            rest = behind;
            // a host may be slow to take
            if random.below(3) > 0 {
                read.extend(drained(&mut decoder).expect("good packets"));
                assert!(decoder.waiting() < MAX_FRAME_SIZE);
            }
        }
        read.extend(drained(&mut decoder).expect("good packets"));
        assert!(read == packets && decoder.waiting() == 0);
        count += packets.len();
    }
    println!("compared: {count} packets with what came out of their pieces");
}

#[test]
fn a_part_of_a_packet_is_waited_for() {
    for packet in samples() {
        let bytes = frame(&packet);
        let mut decoder = FrameDecoder::default();
        for (at, byte) in bytes.iter().enumerate() {
            assert_eq!(decoder.next_packet(), Ok(None));
            assert_eq!(decoder.waiting(), at);
            decoder.push(&[*byte]);
        }
        assert_eq!(drained(&mut decoder), Ok(vec![packet]));
    }
}

/// A damaged packet is refused, waited for, or another packet, whose bytes are then just those.
#[test]
fn every_damage_of_one_byte() {
    let mut outcomes = [0; 3];
    for packet in &samples()[..3] {
        let bytes = frame(packet);
        for at in 0..bytes.len() {
            for value in (0..=255).filter(|value| *value != bytes[at]) {
                let mut damaged = bytes.clone();
                damaged[at] = value;
                let mut decoder = FrameDecoder::default();
                decoder.push(&damaged);
                match decoder.next_packet().map(|packet| packet.map(HnsrPacket::to_buf)) {
                    Err(_) => outcomes[0] += 1,
                    Ok(None) => outcomes[1] += 1,
                    Ok(Some(other)) => {
                        assert_ne!(other, *packet);
                        assert_eq!(frame(&other), damaged[..damaged.len() - decoder.waiting()]);
                        outcomes[2] += 1;
                    }
                }
            }
        }
    }
    assert!(outcomes.iter().all(|count| *count > 500), "refused, waited for, another: {outcomes:?}");
}

/// Whatever comes in, what comes out has the bytes that came in; and an error is the last answer, and stays.
#[test]
fn streams_by_chance() {
    let mut random = Random::new(4);
    let (mut packets, mut errors) = (0, 0);
    for round in 0..20_000 {
        let mut bytes: Vec<u8> = match round % 2 {
            0 => (0..random.below(200)).map(|_| random.byte()).collect(),
            _ => (0..random.below(5)).flat_map(|_| frame(&by_chance(&mut random))).take(2_000).collect(),
        };
        for _ in 0..random.below(4) {
            bytes = random.damaged(&bytes);
        }
        let (mut decoder, mut read, mut taken) = (FrameDecoder::default(), Vec::new(), 0);
        for piece in bytes.chunks(1 + random.below(100)) {
            decoder.push(piece);
            taken += piece.len();
            match drained(&mut decoder) {
                Ok(whole) => read.extend(frames(&whole)),
                Err(error) => {
                    // the packets in front of it were not kept by `drained`
                    let waiting = decoder.waiting();
                    decoder.push(&frame(&samples()[0]));
                    assert_eq!(decoder.next_packet(), Err(error));
                    assert_eq!(decoder.waiting(), waiting);
                    errors += 1;
                    break;
                }
            }
            assert_eq!(read[..], bytes[..taken - decoder.waiting()]);
        }
        packets += usize::from(!read.is_empty());
    }
    assert!(packets > 1_000 && errors > 1_000, "{packets} streams with packets, {errors} with errors");
}

/// A size that no packet has is refused before a byte of it has come; a wrong header before its body has.
#[test]
fn what_is_wrong_is_not_waited_for() {
    for size in 0..HNSR_HEADER_SIZE as u16 {
        let mut decoder = FrameDecoder::default();
        decoder.push(&size.to_le_bytes());
        let needed = HNSR_HEADER_SIZE - usize::from(size);
        assert_eq!(decoder.next_packet(), Err(ProtocolError::UnexpectedEnd { offset: 0, needed }.into()));
        let failed = read_packet(&mut &size.to_le_bytes()[..], &mut Vec::new()).expect_err("no such packet");
        assert_eq!(failed.kind(), ErrorKind::InvalidData);
    }
    let other = b"\xff\xffGET / HTTP/1";
    let mut decoder = FrameDecoder::default();
    decoder.push(other);
    assert_eq!(decoder.next_packet(), Err(EnvelopeError::UnknownVersion));
    let failed = read_packet(&mut &other[..], &mut Vec::new()).expect_err("another protocol");
    assert_eq!(failed.to_string(), EnvelopeError::UnknownVersion.to_string());
}

/// Reads in pieces by chance, and is interrupted by chance.
struct Pieces<'a>(&'a [u8], Random);

impl Read for Pieces<'_> {
    fn read(&mut self, room: &mut [u8]) -> io::Result<usize> {
        if self.1.below(3) == 0 {
            return Err(ErrorKind::Interrupted.into());
        }
        let count = room.len().min(self.0.len()).min(1 + self.1.below(5_000));
        self.0.read(&mut room[..count])
    }
}

#[test]
fn packets_are_read_as_they_were_written() {
    let mut random = Random::new(5);
    for seed in 0..300 {
        let packets = some_by_chance(&mut random);
        let mut written = Vec::new();
        for packet in &packets {
            write_packet(&mut written, &packet.as_packet()).expect("memory takes all");
        }
        assert!(written == frames(&packets));
        let (mut reader, mut buffer) = (Pieces(&written, Random::new(seed)), vec![7; 100]);
        for packet in &packets {
            assert!(read_packet(&mut reader, &mut buffer).expect("a packet") == Some(packet.as_packet()));
        }
        assert_eq!(read_packet(&mut reader, &mut buffer).expect("the end"), None);
    }
}

#[test]
fn a_stream_ends_in_front_of_a_packet_or_in_error() {
    let bytes = frame(&samples()[0]);
    for length in 0..bytes.len() {
        let read = read_packet(&mut &bytes[..length], &mut Vec::new()).map(|packet| packet.is_some());
        match length {
            0 => assert!(!read.expect("a clean end")),
            _ => assert_eq!(read.expect_err("inside a packet").kind(), ErrorKind::UnexpectedEof),
        }
    }
}

#[test]
fn a_reader_tells_why() {
    let mut bytes = frame(&samples()[0]);
    bytes[FRAME_PREFIX_SIZE] = 9;
    let failed = read_packet(&mut &bytes[..], &mut Vec::new()).expect_err("another version");
    let cause = failed.get_ref().and_then(|cause| cause.downcast_ref());
    assert_eq!((failed.kind(), cause), (ErrorKind::InvalidData, Some(&EnvelopeError::UnknownVersion)));

    struct Broken;
    impl Read for Broken {
        fn read(&mut self, _: &mut [u8]) -> io::Result<usize> {
            Err(ErrorKind::ConnectionReset.into())
        }
    }
    for begun in [&b""[..], &bytes[..1], &bytes[..9]] {
        let failed = read_packet(&mut begun.chain(Broken), &mut Vec::new()).expect_err("it is broken");
        assert_eq!(failed.kind(), ErrorKind::ConnectionReset);
    }
}

#[test]
fn a_packet_is_written_at_once() {
    struct Once(usize);
    impl Write for Once {
        fn write(&mut self, bytes: &[u8]) -> io::Result<usize> {
            self.0 += 1;
            Ok(bytes.len())
        }
        fn flush(&mut self) -> io::Result<()> {
            panic!("nobody asked for it")
        }
    }
    let mut writer = Once(0);
    for packet in samples() {
        write_packet(&mut writer, &packet.as_packet()).expect("it takes all");
    }
    assert_eq!(writer.0, samples().len());
}
