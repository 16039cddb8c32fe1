//! The archive's UTF-8 check against the standard library's.
use lekchnam_host::body::is_utf8;

#[path = "support/random.rs"]
mod random;

use random::Random;

/// Both sides of each bound between the classes of lead bytes.
const LEADS: [u8; 20] = [
    0x00, 0x7f, 0x80, 0xbf, 0xc0, 0xc1, 0xc2, 0xdf, 0xe0, 0xe1, 0xec, 0xed, 0xee, 0xef, 0xf0, 0xf1, 0xf3, 0xf4, 0xf5,
    0xff,
];

fn compare(text: &[u8]) {
    let standard = std::str::from_utf8(text).is_ok();
    assert_eq!(is_utf8(text), standard, "{text:02x?}");
}

#[test]
fn all_of_at_most_three_bytes() {
    compare(&[]);
    for a in 0..=255 {
        compare(&[a]);
        for b in 0..=255 {
            compare(&[a, b]);
            for c in 0..=255 {
                compare(&[a, b, c]);
            }
        }
    }
    println!("compared: {} strings of 0 to 3 bytes, all there are", 1 + (1 << 8) + (1 << 16) + (1 << 24));
}

#[test]
fn all_of_four_bytes_behind_each_class_of_lead() {
    for lead in LEADS {
        for rest in 0..1_u32 << 24 {
            let [b, c, d, _] = rest.to_le_bytes();
            compare(&[lead, b, c, d]);
        }
    }
    println!("compared: {} strings of 4 bytes, all there are behind {} leads", LEADS.len() << 24, LEADS.len());
}

#[test]
fn longer_texts_and_damaged_copies() {
    const TEXTS: usize = 200_000;
    const COPIES: usize = 4;
    let mut random = Random::new(1);
    let mut refused = 0;
    for _ in 0..TEXTS {
        let most = 5 + random.below(200);
        let text = random.text(most);
        compare(&text);
        for _ in 0..COPIES {
            let copy = random.damaged(&text);
            compare(&copy);
            refused += usize::from(!is_utf8(&copy));
        }
    }
    assert!(refused > TEXTS, "the damage is too mild: {refused} refused");
    println!("compared: {TEXTS} longer texts and {} damaged copies, {refused} of them refused", TEXTS * COPIES);
}
