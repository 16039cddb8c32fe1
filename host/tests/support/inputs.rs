//! The inputs that the readers are compared on, here and against the Rust: each length, each byte changed in turn,
//! each limit, and bodies made and damaged by chance.
use crate::random::Random;
use lekchnam_host::limits::{
    HNSR_HEADER_SIZE, MAX_BODY_SIZE, MAX_DATA_SIZE, MAX_DETAIL_SIZE, MAX_PACKET_SIZE, MAX_WINDOW, MIN_WINDOW,
};

#[derive(Clone, Copy, Debug, Eq, PartialEq)]
pub enum Message {
    Open,
    Incoming,
    Accept,
    Opened,
    Data,
    Window,
    Close,
    Error,
}

pub const MESSAGES: [Message; 8] = [
    Message::Open,
    Message::Incoming,
    Message::Accept,
    Message::Opened,
    Message::Data,
    Message::Window,
    Message::Close,
    Message::Error,
];

/// What a field holds, with its width where that varies.
#[derive(Clone, Copy, Debug, Eq, PartialEq)]
pub enum Field {
    /// A ticket, a reservation, a request or a circuit.
    Id(usize),
    Key,
    Profile,
    Nonce,
    Window,
    Delta,
    Reason,
    Length,
}

impl Field {
    pub fn width(self) -> usize {
        match self {
            Self::Id(width) => width,
            Self::Key => 33,
            Self::Profile | Self::Reason => 2,
            Self::Nonce => 16,
            Self::Window | Self::Delta => 4,
            Self::Length => 1,
        }
    }

    /// Values at and around its limits.
    fn edges(self) -> Vec<Vec<u8>> {
        match self {
            Self::Window => [numbers(&[0, 1, 1 << 30, u32::MAX]), around(MIN_WINDOW), around(MAX_WINDOW)].concat(),
            Self::Delta => [numbers(&[0, 1, 2, 1 << 24, u32::MAX]), around(MAX_WINDOW)].concat(),
            Self::Reason => [0_u16, 1, 17, 18, 255, 256, 65_535].map(|n| n.to_le_bytes().to_vec()).to_vec(),
            Self::Length => Vec::new(),
            Self::Id(_) | Self::Key | Self::Profile | Self::Nonce => lone_bytes(self.width()),
        }
    }
}

fn numbers(list: &[u32]) -> Vec<Vec<u8>> {
    list.iter().map(|n| n.to_le_bytes().to_vec()).collect()
}

fn around(limit: u32) -> Vec<Vec<u8>> {
    numbers(&[limit - 1, limit, limit + 1])
}

/// All zero, all ones, and all zero but one byte.
fn lone_bytes(width: usize) -> Vec<Vec<u8>> {
    let mut list = vec![vec![0; width], vec![255; width]];
    for at in 0..width {
        for value in [1, 0x80, 255] {
            let mut bytes = vec![0; width];
            bytes[at] = value;
            list.push(bytes);
        }
    }
    list
}

impl Message {
    /// The fields in front of what has no fixed length.
    pub fn fields(self) -> &'static [Field] {
        use Field::*;
        match self {
            Self::Open => &[Id(32), Id(16), Key, Profile, Nonce, Window],
            Self::Incoming => &[Id(32), Id(8), Profile, Nonce, Window],
            Self::Accept => &[Window, Nonce],
            Self::Opened => &[Id(8), Window, Nonce],
            Self::Data => &[],
            Self::Window => &[Delta],
            Self::Close | Self::Error => &[Reason, Length],
        }
    }

    pub fn size(self) -> usize {
        self.fields().iter().map(|field| field.width()).sum()
    }

    /// A body that is accepted. In one of fixed size no two bytes are alike but those of a window.
    fn good(self) -> Vec<u8> {
        match self {
            Self::Data => b"data".to_vec(),
            Self::Close | Self::Error => detailed(0x0201, "A\u{391}\u{2262}\u{233b4}.".as_bytes()),
            _ => {
                let mut body: Vec<u8> = (1..=self.size() as u8).collect();
                for (at, field) in self.places() {
                    if matches!(field, Field::Window | Field::Delta) {
                        body[at..at + 4].copy_from_slice(&658_188_u32.to_le_bytes());
                    }
                }
                body
            }
        }
    }

    /// Where each field starts.
    pub fn places(self) -> impl Iterator<Item = (usize, Field)> {
        self.fields().iter().scan(0, |at, field| {
            let start = *at;
            *at += field.width();
            Some((start, *field))
        })
    }
}

/// A CLOSE or an ERROR with this detail. A length that passes a byte is cut to one.
fn detailed(reason: u16, detail: &[u8]) -> Vec<u8> {
    let mut body = reason.to_le_bytes().to_vec();
    body.push(detail.len() as u8);
    body.extend(detail);
    body
}

#[derive(Clone, Debug)]
pub struct Input {
    pub message: Message,
    pub bytes: Vec<u8>,
    /// The host's word on the key of an OPEN.
    pub key_valid: bool,
}

/// All inputs of one message that do not come by chance.
pub fn inputs(message: Message) -> Vec<Input> {
    let bodies = match message {
        Message::Data => data_bodies(),
        Message::Close | Message::Error => detail_bodies(message),
        _ => fixed_bodies(message),
    };
    let flags: &[bool] = if message == Message::Open { &[true, false] } else { &[true] };
    let with = |bytes: Vec<u8>| flags.iter().map(move |flag| Input { message, bytes: bytes.clone(), key_valid: *flag });
    bodies.into_iter().flat_map(with).collect()
}

fn fixed_bodies(message: Message) -> Vec<Vec<u8>> {
    let good = message.good();
    let mut list = lengths(&good);
    list.extend(lengths(&vec![0; good.len()]));
    list.extend(lengths(&vec![255; good.len()]));
    list.extend(changed(&good));
    for (at, field) in message.places() {
        list.extend(field.edges().iter().map(|value| replaced(&good, at, value)));
    }
    list.extend(zeroed(message, &good));
    list
}

/// Cut at each place, and up to three bytes too long.
fn lengths(good: &[u8]) -> Vec<Vec<u8>> {
    let long = [good, &[7, 0, 9]].concat();
    (0..=long.len()).map(|length| long[..length].to_vec()).collect()
}

/// Each byte set to each other value, each byte dropped, and a byte put in at each place.
fn changed(good: &[u8]) -> Vec<Vec<u8>> {
    let mut list = Vec::new();
    for at in 0..good.len() {
        let others = (1..=255).map(|difference| replaced(good, at, &[good[at] ^ difference]));
        list.extend(others);
        list.push([&good[..at], &good[at + 1..]].concat());
    }
    for at in 0..=good.len() {
        list.push([&good[..at], &[0x41], &good[at..]].concat());
    }
    list
}

fn replaced(good: &[u8], at: usize, value: &[u8]) -> Vec<u8> {
    let mut body = good.to_vec();
    body[at..at + value.len()].copy_from_slice(value);
    body
}

/// Every choice of fields made zero, also one byte too short and too long: which refusal comes first.
fn zeroed(message: Message, good: &[u8]) -> Vec<Vec<u8>> {
    let mut list = Vec::new();
    for choice in 0..1_u32 << message.fields().len() {
        let mut body = good.to_vec();
        for (index, (at, field)) in message.places().enumerate() {
            if choice >> index & 1 == 1 {
                body[at..at + field.width()].fill(0);
            }
        }
        list.push(body[..body.len() - 1].to_vec());
        list.push([&body[..], &[0]].concat());
        list.push(body);
    }
    list
}

fn data_bodies() -> Vec<Vec<u8>> {
    let sizes =
        [0, 1, 2, 255, 256, MAX_DATA_SIZE - 1, MAX_DATA_SIZE, MAX_DATA_SIZE + 1, MAX_BODY_SIZE, MAX_PACKET_SIZE + 1];
    sizes.map(|size| (0..size).map(|at| (at * 7) as u8).collect()).to_vec()
}

fn detail_bodies(message: Message) -> Vec<Vec<u8>> {
    let good = message.good();
    let mut list = lengths(&good);
    list.extend(changed(&good));
    list.extend(Field::Reason.edges().iter().map(|reason| replaced(&good, 0, reason)));
    // every length byte before every count of bytes, good text and not
    for count in 0..=140 {
        for length in 0..=255 {
            for filler in [b'a', 0xff] {
                list.push([&[9, 0, length], &vec![filler; count][..]].concat());
            }
        }
    }
    list.extend(details().iter().map(|detail| detailed(3, detail)));
    list
}

/// Details of one and two bytes, all there are; around each edge of RFC 3629, alone and at the end of
/// the most bytes and of one more.
fn details() -> Vec<Vec<u8>> {
    let mut list: Vec<Vec<u8>> = (0..=255).map(|a| vec![a]).collect();
    list.extend((0..=65_535_u16).map(|pair| pair.to_be_bytes().to_vec()));
    for sample in samples() {
        for length in [sample.len(), MAX_DETAIL_SIZE - 1, MAX_DETAIL_SIZE, MAX_DETAIL_SIZE + 1] {
            list.push([&vec![b'a'; length - sample.len()][..], &sample].concat());
        }
        list.push([&sample, &b"a"[..]].concat());
    }
    list
}

/// Characters of three and four bytes with each byte at and beside its bounds, and each cut short.
fn samples() -> Vec<Vec<u8>> {
    let second = [0x7f, 0x80, 0x8f, 0x90, 0x9f, 0xa0, 0xbf, 0xc0];
    let later = [0x7f, 0x80, 0xbf, 0xc0];
    let mut list = Vec::new();
    for lead in [0xdf, 0xe0, 0xe1, 0xec, 0xed, 0xee, 0xef, 0xf0, 0xf1, 0xf3, 0xf4, 0xf5] {
        for b in second {
            for c in later {
                list.push(vec![lead, b, c]);
                list.extend(later.map(|d| vec![lead, b, c, d]));
            }
        }
    }
    list
}

/// A body by chance: a good one with other bytes in its fields, damaged up to three times, or nothing but chance.
pub fn by_chance(random: &mut Random) -> Input {
    let message = random.pick(&MESSAGES);
    let mut bytes = match random.below(8) {
        0 => (0..random.below(150)).map(|_| random.byte()).collect(),
        _ => good_by_chance(message, random),
    };
    for _ in 0..random.pick(&[0, 0, 1, 1, 2, 3]) {
        bytes = random.damaged(&bytes);
    }
    Input { message, bytes, key_valid: random.below(8) > 0 }
}

fn good_by_chance(message: Message, random: &mut Random) -> Vec<u8> {
    match message {
        Message::Data => vec![random.byte(); 1 + random.below(300)],
        Message::Close | Message::Error => {
            let most = random.below(MAX_DETAIL_SIZE + 1);
            let detail = random.text(most);
            detailed(random.below(65_536) as u16, &detail)
        }
        _ => {
            let mut body: Vec<u8> = (0..message.size()).map(|_| random.byte()).collect();
            for (at, field) in message.places() {
                let window = match field {
                    Field::Window => MIN_WINDOW + random.below((MAX_WINDOW - MIN_WINDOW) as usize + 1) as u32,
                    Field::Delta => 1 + random.below(MAX_WINDOW as usize) as u32,
                    _ => continue,
                };
                body[at..at + 4].copy_from_slice(&window.to_le_bytes());
            }
            body
        }
    }
}

#[derive(Clone, Copy, Debug)]
pub struct Packet {
    pub opcode: u8,
    pub context_id: [u8; 8],
    pub body_length: usize,
}

/// Every opcode, with contexts of no byte, of one and of eight that are not zero, and lengths around the limits.
pub fn packets() -> Vec<Packet> {
    let lengths = [
        [0, 1, usize::MAX].as_slice(),
        &[MAX_BODY_SIZE - 1, MAX_BODY_SIZE, MAX_BODY_SIZE + 1, MAX_PACKET_SIZE, MAX_PACKET_SIZE + 1],
        &[usize::MAX - HNSR_HEADER_SIZE, usize::MAX - HNSR_HEADER_SIZE + 1],
    ]
    .concat();
    let contexts = lone_bytes(8);
    let mut list = Vec::new();
    for opcode in 0..=255 {
        for context in &contexts {
            let context_id = context[..].try_into().expect("eight bytes");
            list.extend(lengths.iter().map(|body_length| Packet { opcode, context_id, body_length: *body_length }));
        }
    }
    list
}
