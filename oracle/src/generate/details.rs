//! CLOSE and ERROR: details around every edge of RFC 3629, and their bodies.
use super::Generator;
use lekchnam_host::limits::MAX_DETAIL_SIZE;

const VALID: [&str; 23] = [
    "",
    "bye",
    "\0",
    "\u{7f}",
    "\u{80}",
    "\u{7ff}",
    "\u{800}",
    "\u{fff}",
    "\u{1000}",
    "\u{cfff}",
    "\u{d7ff}",
    "\u{e000}",
    "\u{ffff}",
    "\u{10000}",
    "\u{3ffff}",
    "\u{40000}",
    "\u{fffff}",
    "\u{100000}",
    "\u{10ffff}",
    // RFC 3629, section 7
    "A\u{2262}\u{391}.",
    "\u{d55c}\u{ad6d}\u{c5b4}",
    "\u{65e5}\u{672c}\u{8a9e}",
    "\u{feff}\u{233b4}",
];

#[rustfmt::skip]
const INVALID: [&[u8]; 41] = [
    &[0x80], &[0xbf], &[0xc0, 0x80], &[0xc1, 0xbf], &[0xc2], &[0xc2, 0x7f], &[0xc2, 0xc0], &[0xdf], &[0xdf, 0xc0],
    &[0xe0, 0x80, 0x80], &[0xe0, 0x9f, 0xbf], &[0xe0, 0xa0], &[0xe0, 0xa0, 0x7f], &[0xe0, 0xc0, 0x80], &[0xe1, 0x80],
    &[0xe1, 0x7f, 0x80], &[0xe1, 0x80, 0xc0], &[0xed, 0xa0, 0x80], &[0xed, 0xbf, 0xbf], &[0xed, 0x7f, 0x80],
    &[0xef, 0xbf], &[0xef, 0xc0, 0x80],
    &[0xf0, 0x80, 0x80, 0x80], &[0xf0, 0x8f, 0xbf, 0xbf], &[0xf0, 0x90, 0x80], &[0xf0, 0xc0, 0x80, 0x80],
    &[0xf1, 0x80, 0x80, 0x41], &[0xf1, 0x80, 0xc0, 0x80], &[0xf4, 0x90, 0x80, 0x80], &[0xf4, 0x7f, 0x80, 0x80],
    &[0xf5, 0x80, 0x80, 0x80], &[0xf7, 0xbf, 0xbf, 0xbf], &[0xf8, 0x88, 0x80, 0x80, 0x80], &[0xfe], &[0xff],
    &[b'o', b'k', 0xe2, 0x82], &[0xf4, 0x8f, 0xbf], &[0xf1], &[0xf1, 0x80], &[0xe1], &[b'a', 0x80, b'b'],
];

pub fn valid_details() -> Vec<Vec<u8>> {
    let mut list: Vec<Vec<u8>> = VALID.iter().map(|text| text.as_bytes().to_vec()).collect();
    list.push(vec![b'a'; MAX_DETAIL_SIZE - 1]);
    list.push(vec![b'a'; MAX_DETAIL_SIZE]);
    list.push([vec![b'a'; MAX_DETAIL_SIZE - 4], "\u{10ffff}".as_bytes().to_vec()].concat());
    list
}

pub fn invalid_details() -> Vec<Vec<u8>> {
    INVALID.iter().map(|bytes| bytes.to_vec()).collect()
}

impl Generator {
    pub(super) fn reason_body(&mut self, wrong: bool) -> Vec<u8> {
        let reason = if self.rng.chance(60) { self.rng.range(0, 18) as u16 } else { self.rng.draw() as u16 };
        let mut detail = self.rng.pick(&valid_details()).clone();
        if self.rng.chance(30) {
            let other = self.rng.pick(&valid_details()).clone();
            if detail.len() + other.len() <= MAX_DETAIL_SIZE {
                detail.extend(other);
            }
        }
        let mut length = None;
        let mut cut = false;
        if wrong {
            match self.rng.below(10) {
                0..=4 => detail = self.not_utf8(detail),
                5 => detail = vec![b'a'; *self.rng.pick(&[MAX_DETAIL_SIZE + 1, MAX_DETAIL_SIZE + 2, 200, 255])],
                6 => length = Some(self.rng.byte()),
                7 => length = Some((detail.len() as u8).wrapping_add(1)),
                8 => cut = true,
                _ => detail = (0..self.rng.below(20)).map(|_| self.rng.byte()).collect(),
            }
        }
        let mut body = reason.to_le_bytes().to_vec();
        body.push(length.unwrap_or(detail.len() as u8));
        body.extend(detail);
        if cut {
            self.cut(&mut body);
        }
        body
    }

    fn not_utf8(&mut self, mut detail: Vec<u8>) -> Vec<u8> {
        let bad = *self.rng.pick(&INVALID);
        if detail.len() + bad.len() > MAX_DETAIL_SIZE {
            detail.clear();
        }
        detail.extend(bad);
        if self.rng.chance(40) && detail.len() < MAX_DETAIL_SIZE {
            detail.push(b'z');
        }
        detail
    }
}
