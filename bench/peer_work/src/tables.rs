//! The tables that are counted.
use lekchnam_host::MAXIMUM_PEER;
use lekchnam_host::lent::{RelayCircuit, RelayPending, StoredPeer};
use lekchnam_peer_work::{Way, by_hand};
use std::hint::black_box;

/// How many places each table has.
#[derive(Clone, Copy, Debug)]
pub struct Size {
    pub pending: usize,
    pub circuits: usize,
}

impl Size {
    /// The default configuration's, and small ones that stay in the cache.
    pub const ALL: [Self; 2] = [Self { pending: 1_024, circuits: 4_096 }, Self { pending: 64, circuits: 64 }];
}

/// How much of each table is in use. The marks are spread evenly; all else is zero.
#[derive(Clone, Copy, Debug)]
pub struct Share {
    pub label: &'static str,
    percent: usize,
}

impl Share {
    pub const ALL: [Self; 3] = [
        Self { label: "10 %", percent: 10 },
        Self { label: "half", percent: 50 },
        Self { label: "full", percent: 100 },
    ];

    fn uses(self, place: usize) -> bool {
        (place + 1) * self.percent / 100 > place * self.percent / 100
    }
}

/// What names the records have. Each side of each record has a number of its own, but where all are the same.
#[derive(Clone, Copy, Debug)]
pub enum Names {
    /// 16 bytes, the number at the end.
    Numbered,
    /// 128 bytes, the number in front.
    DifferFirst,
    /// 128 bytes, the number at the end.
    DifferLast,
    /// So many bytes.
    Same(usize),
}

impl Names {
    pub const ALL: [Self; 5] =
        [Self::Numbered, Self::DifferFirst, Self::DifferLast, Self::Same(16), Self::Same(MAXIMUM_PEER)];

    pub fn label(self) -> &'static str {
        match self {
            Self::Numbered => "16 bytes, the last differ",
            Self::DifferFirst => "128 bytes, the first differ",
            Self::DifferLast => "128 bytes, the last differ",
            Self::Same(16) => "16 bytes, all the same",
            Self::Same(_) => "128 bytes, all the same",
        }
    }

    /// The byte that changes with each number is the last of the name, or the first.
    fn name(self, number: u32) -> StoredPeer {
        let name = |len: usize| {
            let mut bytes = [0; MAXIMUM_PEER];
            bytes[..len].fill(b'n');
            StoredPeer { len, bytes }
        };
        match self {
            Self::Numbered => numbered_at(name(16), 12, number.to_be_bytes()),
            Self::DifferFirst => numbered_at(name(MAXIMUM_PEER), 0, number.to_le_bytes()),
            Self::DifferLast => numbered_at(name(MAXIMUM_PEER), MAXIMUM_PEER - 4, number.to_be_bytes()),
            Self::Same(len) => name(len),
        }
    }
}

fn numbered_at(mut name: StoredPeer, place: usize, number: [u8; 4]) -> StoredPeer {
    name.bytes[place..place + 4].copy_from_slice(&number);
    name
}

/// Two tables, and the peer whose work is counted.
pub struct Tables {
    pending: Vec<RelayPending>,
    circuits: Vec<RelayCircuit>,
    peer: StoredPeer,
}

impl Tables {
    /// The peer is the endpoint of the last circuit, and of no other record but where all names are the same.
    pub fn new(size: Size, names: Names, share: Share) -> Self {
        let mut number = 0;
        let mut next = || {
            number += 1;
            names.name(number)
        };
        let pending = (0..size.pending).map(|place| match share.uses(place) {
            true => RelayPending { used: true, requester: next(), endpoint: next(), ..RelayPending::default() },
            false => RelayPending::default(),
        });
        let pending = pending.collect();
        let circuits = (0..size.circuits).map(|place| match share.uses(place) {
            true => RelayCircuit { used: true, requester: next(), endpoint: next(), ..RelayCircuit::default() },
            false => RelayCircuit::default(),
        });
        let circuits = circuits.collect();
        Self { pending, circuits, peer: names.name(number) }
    }

    pub fn count(&self, way: Way) -> usize {
        way.count(black_box(&self.pending), black_box(&self.circuits), black_box(&self.peer))
    }

    /// All ways count what a count by hand does.
    pub fn compare(&self) {
        let expected = by_hand(&self.pending, &self.circuits, &self.peer);
        assert!(expected > 0, "the peer has some work");
        for way in Way::ALL {
            assert_eq!(self.count(way), expected, "{way:?}");
        }
    }
}
