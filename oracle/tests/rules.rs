//! Whether the rules hold together: that the rule of details is UTF-8, and that the sizes of output are enough.
use hns_hnsr_protocol as rust;
use lekchnam_host::limits::*;
use oracle::generate::{invalid_details, valid_details};

/// TEXT.2 and TEXT.3: the rule of details.
fn rule(bytes: &[u8]) -> bool {
    let mut at = 0;
    while at < bytes.len() {
        let lead = bytes[at];
        let length = match lead {
            0x00..=0x7f => 1,
            0xc2..=0xdf => 2,
            0xe0..=0xef => 3,
            0xf0..=0xf4 => 4,
            _ => 0,
        };
        if length == 0 || bytes.len() - at < length {
            return false;
        }
        for k in 1..length {
            let (low, high) = match (k, lead) {
                (1, 0xe0) => (0xa0, 0xbf),
                (1, 0xed) => (0x80, 0x9f),
                (1, 0xf0) => (0x90, 0xbf),
                (1, 0xf4) => (0x80, 0x8f),
                _ => (0x80, 0xbf),
            };
            if !(low..=high).contains(&bytes[at + k]) {
                return false;
            }
        }
        at += length;
    }
    true
}

#[test]
fn details_are_what_from_utf8_takes() {
    for n in 0..1_u32 << 24 {
        let b = n.to_le_bytes();
        for length in 1..=3 {
            if length == 3 || b[length..3].iter().all(|x| *x == 0) {
                assert_eq!(rule(&b[..length]), std::str::from_utf8(&b[..length]).is_ok(), "{:?}", &b[..length]);
            }
        }
        for lead in [0xe1, 0xef, 0xf0, 0xf1, 0xf3, 0xf4, 0xf5] {
            let four = [lead, b[0], b[1], b[2]];
            assert_eq!(rule(&four), std::str::from_utf8(&four).is_ok(), "{four:?}");
        }
    }
    for detail in valid_details() {
        assert!(rule(&detail));
    }
    for detail in invalid_details() {
        assert!(!rule(&detail));
    }
}

#[test]
fn output_sizes() {
    // 4,136 words for handle; 96 for a record
    assert_eq!((HANDLE_WORDS, 40 + 16_384 / 4), (4_136, 4_136));
    let texts = [
        "outer peer disconnected",
        "reservation revoked",
        "endpoint acceptance expired",
        "relay ticket expired",
        "opaque relay disabled",
        "endpoint write failed",
        "outer write failed",
    ];
    let most = texts.iter().map(|t| 2 * (40 + (3 + t.len()).div_ceil(4))).max();
    assert_eq!((CLOSING_WORDS, most), (96, Some(96)));
}

/// Those that the Rust tells; of names it has none, and is asked.
#[test]
fn the_limits_are_the_rusts() {
    assert_eq!((MAX_PACKET_SIZE, MAX_DATA_SIZE), (rust::MAX_PACKET_SIZE, rust::MAX_DATA_SIZE));
    assert_eq!((MIN_WINDOW, MAX_WINDOW), (rust::MIN_WINDOW, rust::MAX_WINDOW));
    assert_eq!((MAX_CIRCUITS, MAX_CIRCUIT_QUEUE), (rust::MAX_CIRCUITS, rust::MAX_CIRCUIT_QUEUE));
    assert!(rust::HnsrPeerId::new(vec![1; MAXIMUM_PEER]).is_ok());
    assert!(rust::HnsrPeerId::new(vec![1; MAXIMUM_PEER + 1]).is_err());
}
