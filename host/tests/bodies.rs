//! Every reader of the archive against a second reading of the rules, written here, and every writer against its
//! reader.
use lekchnam_host::body::{
    validate_packet, AcceptBody, CloseBody, DataBody, ErrorBody, IncomingBody, Invalid, OpenBody, OpenedBody,
    ProtocolError, Read, ReasonDetail, WindowBody,
};
use lekchnam_host::limits::{
    HNSR_HEADER_SIZE, MAX_DATA_SIZE, MAX_DETAIL_SIZE, MAX_PACKET_SIZE, MAX_WINDOW, MIN_WINDOW,
};
use lekchnam_host::HnsrOpcode;
use std::fmt::Debug;

#[path = "support/inputs.rs"]
mod inputs;
#[path = "support/random.rs"]
mod random;

use inputs::{by_chance, inputs, packets, Field, Input, Message, Packet, MESSAGES};
use random::Random;

/// An answer, and all fields in a row as they stand on the wire. A detail and DATA follow where they are accepted.
#[derive(Debug, Eq, PartialEq)]
struct Reading {
    result: Result<(), ProtocolError>,
    fields: Vec<u8>,
}

/// A body ends early, or has bytes left, or has a wrong value: refused for the first of these that holds.
fn documented(input: &Input) -> Reading {
    let Input { message, bytes, .. } = input;
    let result = match message {
        Message::Data => data_size(bytes.len()),
        Message::Close | Message::Error => early_end(input).and_then(|()| detail(&bytes[2..])),
        _ => early_end(input).and_then(|()| trailing(input)).and_then(|()| values(input)),
    };
    let mut fields: Vec<u8> = message.places().flat_map(|(at, field)| part(bytes, at, field)).collect();
    if result.is_ok() {
        fields.extend(&bytes[message.size()..]);
    }
    Reading { result, fields }
}

/// A field's bytes, all zero where the input ends before it does.
fn part(bytes: &[u8], at: usize, field: Field) -> Vec<u8> {
    bytes.get(at..at + field.width()).map_or(vec![0; field.width()], <[u8]>::to_vec)
}

/// Where the first field starts that does not fit, and how many bytes it lacks: an OPEN of 102 bytes ends at 99, and
/// lacks 1.
fn early_end(input: &Input) -> Result<(), ProtocolError> {
    let length = input.bytes.len();
    match input.message.places().find(|(at, field)| at + field.width() > length) {
        Some((offset, field)) => Err(ProtocolError::UnexpectedEnd { offset, needed: offset + field.width() - length }),
        None => Ok(()),
    }
}

fn trailing(input: &Input) -> Result<(), ProtocolError> {
    match input.bytes.len() - input.message.size() {
        0 => Ok(()),
        remaining => Err(ProtocolError::TrailingBytes { remaining }),
    }
}

/// No id, nonce or profile is zero, and a window is 16,384 to 1,048,576. In an OPENED the circuit comes first.
fn values(input: &Input) -> Result<(), ProtocolError> {
    let wrong = |(at, field): &(usize, Field)| !allowed(*field, &part(&input.bytes, *at, *field), input.key_valid);
    let Some((at, _)) = input.message.places().find(wrong) else { return Ok(()) };
    Err(ProtocolError::Invalid(match input.message {
        Message::Open => Invalid::OpenParameters,
        Message::Incoming => Invalid::IncomingParameters,
        Message::Opened if at == 0 => Invalid::CircuitZero,
        Message::Accept | Message::Opened => Invalid::AcceptResponse,
        Message::Window => Invalid::WindowCredit,
        Message::Data | Message::Close | Message::Error => unreachable!("no value of fixed size"),
    }))
}

fn allowed(field: Field, bytes: &[u8], key_valid: bool) -> bool {
    let number = || bytes.iter().rev().fold(0_u64, |sum, byte| sum * 256 + u64::from(*byte));
    match field {
        Field::Id(_) | Field::Nonce | Field::Profile => bytes.iter().any(|byte| *byte != 0),
        Field::Key => key_valid,
        Field::Window => (u64::from(MIN_WINDOW)..=u64::from(MAX_WINDOW)).contains(&number()),
        Field::Delta => (1..=u64::from(MAX_WINDOW)).contains(&number()),
        Field::Reason | Field::Length => true,
    }
}

/// DATA is 1 to 16,384 bytes (cases 1 to 3).
fn data_size(length: usize) -> Result<(), ProtocolError> {
    match length {
        1..=MAX_DATA_SIZE => Ok(()),
        _ => Err(ProtocolError::Invalid(Invalid::DataSize)),
    }
}

/// The length is at most 128 and just the bytes that follow; then the detail is UTF-8.
fn detail(length_and_text: &[u8]) -> Result<(), ProtocolError> {
    let (length, text) = (usize::from(length_and_text[0]), &length_and_text[1..]);
    if length > MAX_DETAIL_SIZE || length != text.len() {
        return Err(ProtocolError::Invalid(Invalid::DiagnosticDetail));
    }
    if !rfc_3629(text) {
        return Err(ProtocolError::Invalid(Invalid::NotUtf8));
    }
    Ok(())
}

/// RFC 3629's table of bytes, row by row.
fn rfc_3629(mut text: &[u8]) -> bool {
    const TAIL: std::ops::RangeInclusive<u8> = 0x80..=0xbf;
    loop {
        text = match text {
            [] => return true,
            [0x00..=0x7f, rest @ ..] => rest,
            [0xc2..=0xdf, b, rest @ ..] if TAIL.contains(b) => rest,
            [0xe0, 0xa0..=0xbf, c, rest @ ..] if TAIL.contains(c) => rest,
            [0xed, 0x80..=0x9f, c, rest @ ..] if TAIL.contains(c) => rest,
            [0xe1..=0xec | 0xee | 0xef, b, c, rest @ ..] if TAIL.contains(b) && TAIL.contains(c) => rest,
            [0xf0, 0x90..=0xbf, c, d, rest @ ..] if TAIL.contains(c) && TAIL.contains(d) => rest,
            [0xf4, 0x80..=0x8f, c, d, rest @ ..] if TAIL.contains(c) && TAIL.contains(d) => rest,
            [0xf1..=0xf3, b, c, d, rest @ ..] if [b, c, d].into_iter().all(|byte| TAIL.contains(byte)) => rest,
            _ => return false,
        };
    }
}

/// What the archive answers.
fn answered(input: &Input) -> Reading {
    let bytes = &input.bytes[..];
    match input.message {
        Message::Open => {
            let key_valid = input.key_valid;
            fixed(OpenBody::read(bytes, key_valid), OpenBody::decode(bytes, key_valid))
        }
        Message::Incoming => fixed(IncomingBody::read(bytes), IncomingBody::decode(bytes)),
        Message::Accept => fixed(AcceptBody::read(bytes), AcceptBody::decode(bytes)),
        Message::Opened => fixed(OpenedBody::read(bytes), OpenedBody::decode(bytes)),
        Message::Window => fixed(WindowBody::read(bytes), WindowBody::decode(bytes)),
        Message::Data => match DataBody::decode(bytes) {
            Ok(body) => Reading { result: Ok(()), fields: body.bytes.to_vec() },
            Err(error) => Reading { result: Err(error), fields: Vec::new() },
        },
        Message::Close => {
            let decoded = CloseBody::decode(bytes).map(|body| (body.reason, body.detail));
            with_detail(CloseBody::read(bytes), decoded)
        }
        Message::Error => {
            let decoded = ErrorBody::decode(bytes).map(|body| (body.reason, body.detail));
            with_detail(ErrorBody::read(bytes), decoded)
        }
    }
}

/// One reading from two: the body is given out exactly where it is accepted.
fn fixed<Body: Wire>(read: Read<Body>, decoded: Result<Body, ProtocolError>) -> Reading {
    assert_eq!(read.accepted(), decoded);
    Reading { result: read.result, fields: read.body.wire() }
}

fn with_detail(read: Read<ReasonDetail>, decoded: Result<(u16, &str), ProtocolError>) -> Reading {
    assert_eq!(read.accepted().map(|body| body.reason), decoded.map(|(reason, _)| reason));
    let length = u8::try_from(read.body.detail_length).expect("one byte on the wire");
    let mut fields = [&read.body.reason.to_le_bytes()[..], &[length]].concat();
    if let Ok((_, detail)) = decoded {
        fields.extend(detail.as_bytes());
    }
    Reading { result: read.result, fields }
}

/// A body as it stands on the wire, and by the archive's reader and writer.
trait Wire: Copy + Eq + Debug {
    fn wire(&self) -> Vec<u8>;
    fn decoded(input: &[u8], key_valid: bool) -> Result<Self, ProtocolError>;
    fn encoded(&self, key_valid: bool) -> Result<Vec<u8>, ProtocolError>;
}

impl Wire for OpenBody {
    fn wire(&self) -> Vec<u8> {
        let (profile, window) = (self.profile.to_le_bytes(), self.initial_window.to_le_bytes());
        let ids = [&self.ticket_id[..], &self.reservation_id, &self.endpoint_key].concat();
        [&ids[..], &profile, &self.requester_nonce, &window].concat()
    }

    fn decoded(input: &[u8], key_valid: bool) -> Result<Self, ProtocolError> {
        Self::decode(input, key_valid)
    }

    fn encoded(&self, key_valid: bool) -> Result<Vec<u8>, ProtocolError> {
        self.encode(key_valid).map(Vec::from)
    }
}

impl Wire for IncomingBody {
    fn wire(&self) -> Vec<u8> {
        let (profile, window) = (self.profile.to_le_bytes(), self.initial_window.to_le_bytes());
        [&self.ticket_id[..], &self.open_request_id, &profile, &self.requester_nonce, &window].concat()
    }

    fn decoded(input: &[u8], _: bool) -> Result<Self, ProtocolError> {
        Self::decode(input)
    }

    fn encoded(&self, _: bool) -> Result<Vec<u8>, ProtocolError> {
        self.encode().map(Vec::from)
    }
}

impl Wire for AcceptBody {
    fn wire(&self) -> Vec<u8> {
        [&self.accepted_window.to_le_bytes()[..], &self.endpoint_nonce].concat()
    }

    fn decoded(input: &[u8], _: bool) -> Result<Self, ProtocolError> {
        Self::decode(input)
    }

    fn encoded(&self, _: bool) -> Result<Vec<u8>, ProtocolError> {
        self.encode().map(Vec::from)
    }
}

impl Wire for OpenedBody {
    fn wire(&self) -> Vec<u8> {
        [&self.circuit_id[..], &self.accepted_window.to_le_bytes(), &self.endpoint_nonce].concat()
    }

    fn decoded(input: &[u8], _: bool) -> Result<Self, ProtocolError> {
        Self::decode(input)
    }

    fn encoded(&self, _: bool) -> Result<Vec<u8>, ProtocolError> {
        self.encode().map(Vec::from)
    }
}

impl Wire for WindowBody {
    fn wire(&self) -> Vec<u8> {
        self.credit_delta.to_le_bytes().to_vec()
    }

    fn decoded(input: &[u8], _: bool) -> Result<Self, ProtocolError> {
        Self::decode(input)
    }

    fn encoded(&self, _: bool) -> Result<Vec<u8>, ProtocolError> {
        self.encode().map(Vec::from)
    }
}

/// Compares one input and says whether it is accepted.
fn compare(input: &Input) -> bool {
    let reading = documented(input);
    assert_eq!(answered(input), reading, "{input:02x?}");
    reading.result.is_ok()
}

#[test]
fn each_length_each_byte_and_each_limit() {
    for message in MESSAGES {
        let list = inputs(message);
        let accepted = list.iter().filter(|input| compare(input)).count();
        assert!(accepted > 0 && accepted < list.len());
        println!("compared: {} inputs of {message:?}, {accepted} of them accepted", list.len());
    }
}

#[test]
fn bodies_by_chance() {
    const COUNT: usize = 1_000_000;
    let mut random = Random::new(2);
    let accepted = (0..COUNT).filter(|_| compare(&by_chance(&mut random))).count();
    assert!(accepted > COUNT / 5 && accepted < COUNT * 4 / 5, "{accepted} accepted");
    println!("compared: {COUNT} bodies by chance, {accepted} of them accepted");
}

/// Writes the body that an input has, refused or not, and says whether it is written. It is exactly where the reader
/// accepts the layout written out here, as that layout, and else for the reader's reason.
fn rewrite(input: &Input) -> bool {
    let Input { message, bytes, key_valid } = input;
    match message {
        Message::Open => rewritten(OpenBody::read(bytes, *key_valid).body, *key_valid),
        Message::Incoming => rewritten(IncomingBody::read(bytes).body, *key_valid),
        Message::Accept => rewritten(AcceptBody::read(bytes).body, *key_valid),
        Message::Opened => rewritten(OpenedBody::read(bytes).body, *key_valid),
        Message::Window => rewritten(WindowBody::read(bytes).body, *key_valid),
        Message::Data => {
            let written = DataBody { bytes }.encode();
            assert_eq!(written, data_size(bytes.len()).map(|()| &bytes[..]));
            written.is_ok()
        }
        Message::Close | Message::Error => rewritten_detail(bytes),
    }
}

fn rewritten<Body: Wire>(body: Body, key_valid: bool) -> bool {
    let wire = body.wire();
    let written = body.encoded(key_valid);
    let read = Body::decoded(&wire, key_valid);
    assert_eq!(written, read.map(|_| wire), "{body:02x?}");
    assert!(read.is_err() || read == Ok(body), "{body:02x?}");
    read.is_ok()
}

/// The text behind the two fields, in a CLOSE and in an ERROR.
fn rewritten_detail(bytes: &[u8]) -> bool {
    let Some((&[low, high, _], text)) = bytes.split_first_chunk() else { return false };
    let Ok(detail) = std::str::from_utf8(text) else { return false };
    let reason = u16::from_le_bytes([low, high]);
    let expected = match u8::try_from(detail.len()) {
        Ok(length) if detail.len() <= MAX_DETAIL_SIZE => Ok([&[low, high, length], text].concat()),
        _ => Err(ProtocolError::TooLarge { actual: detail.len(), maximum: MAX_DETAIL_SIZE }),
    };
    let (close, error) = (CloseBody { reason, detail }, ErrorBody { reason, detail });
    assert_eq!((&close.encode(), &error.encode()), (&expected, &expected));
    if let Ok(written) = &expected {
        assert_eq!((CloseBody::decode(written), ErrorBody::decode(written)), (Ok(close), Ok(error)));
    }
    expected.is_ok()
}

#[test]
fn what_is_written_is_read_and_what_is_refused_is_refused_alike() {
    for message in MESSAGES {
        let list = inputs(message);
        let written = list.iter().filter(|input| rewrite(input)).count();
        assert!(written > 0 && written < list.len());
        println!("compared: {} bodies of {message:?} with its writer, {written} of them written", list.len());
    }
}

#[test]
fn bodies_written_by_chance() {
    const COUNT: usize = 500_000;
    let mut random = Random::new(4);
    let written = (0..COUNT).filter(|_| rewrite(&by_chance(&mut random))).count();
    assert!(written > COUNT / 4 && written < COUNT * 19 / 20, "{written} written");
    println!("compared: {COUNT} bodies by chance with their writers, {written} of them written");
}

/// Each value that a writer refuses, in a body that is good otherwise.
#[test]
fn a_writer_names_what_is_wrong() {
    let open = OpenBody {
        ticket_id: [1; 32],
        reservation_id: [2; 16],
        endpoint_key: [3; 33],
        profile: 1,
        requester_nonce: [4; 16],
        initial_window: MIN_WINDOW,
    };
    let wrong = [
        OpenBody { ticket_id: [0; 32], ..open },
        OpenBody { reservation_id: [0; 16], ..open },
        OpenBody { profile: 0, ..open },
        OpenBody { requester_nonce: [0; 16], ..open },
        OpenBody { initial_window: MIN_WINDOW - 1, ..open },
        OpenBody { initial_window: MAX_WINDOW + 1, ..open },
    ];
    assert!(open.encode(true).is_ok() && OpenBody { initial_window: MAX_WINDOW, ..open }.encode(true).is_ok());
    for body in [wrong.map(|body| body.encode(true)).as_slice(), &[open.encode(false)]].concat() {
        assert_eq!(body, Err(ProtocolError::Invalid(Invalid::OpenParameters)));
    }
    let opened = OpenedBody { circuit_id: [0; 8], accepted_window: 0, endpoint_nonce: [0; 16] };
    assert_eq!(opened.encode(), Err(ProtocolError::Invalid(Invalid::CircuitZero)));
    let accept = OpenedBody { circuit_id: [1; 8], ..opened };
    assert_eq!(accept.encode(), Err(ProtocolError::Invalid(Invalid::AcceptResponse)));
    let detail = "a".repeat(MAX_DETAIL_SIZE + 1);
    let too_large = ProtocolError::TooLarge { actual: MAX_DETAIL_SIZE + 1, maximum: MAX_DETAIL_SIZE };
    assert_eq!(CloseBody { reason: 0, detail: &detail }.encode(), Err(too_large));
    assert_eq!(DataBody { bytes: &[] }.encode(), Err(ProtocolError::Invalid(Invalid::DataSize)));
}

/// The rule is the Rust's `HnsrPacket::validate`: a header of 12 bytes, at most 65,535 in all, and the size before the
/// context.
#[test]
fn packets_of_every_opcode() {
    let list = packets();
    for packet in &list {
        let Packet { opcode, context_id, body_length } = *packet;
        let actual = body_length.saturating_add(HNSR_HEADER_SIZE);
        let documented = if actual > MAX_PACKET_SIZE {
            Err(ProtocolError::TooLarge { actual, maximum: MAX_PACKET_SIZE })
        } else if context_id == [0; 8] && HnsrOpcode::from(opcode) != HnsrOpcode::SampleRoutes {
            Err(ProtocolError::Invalid(Invalid::ContextZero))
        } else {
            Ok(())
        };
        assert_eq!(validate_packet(opcode, context_id, body_length), documented, "{packet:?}");
    }
    println!("compared: {} packets", list.len());
}

#[test]
fn a_refusal_has_the_words_of_the_rust() {
    let words = |error: ProtocolError| error.to_string();
    assert_eq!(
        words(ProtocolError::UnexpectedEnd { offset: 99, needed: 1 }),
        "unexpected end of input at byte 99; needed 1 more byte(s)"
    );
    assert_eq!(words(ProtocolError::TrailingBytes { remaining: 3 }), "3 trailing byte(s) remain");
    assert_eq!(
        words(ProtocolError::TooLarge { actual: MAX_PACKET_SIZE + 1, maximum: MAX_PACKET_SIZE }),
        "HNSR field length 65536 exceeds maximum 65535"
    );
    assert_eq!(words(ProtocolError::Invalid(Invalid::NotUtf8)), "invalid HNSR value: HNSR detail is not UTF-8");
}
