//! Chance with a fixed seed (SplitMix64), and damage done by it.

pub struct Random(u64);

impl Random {
    pub fn new(seed: u64) -> Self {
        Self(seed)
    }

    fn next(&mut self) -> u64 {
        self.0 = self.0.wrapping_add(0x9e37_79b9_7f4a_7c15);
        let mut z = self.0;
        z = (z ^ (z >> 30)).wrapping_mul(0xbf58_476d_1ce4_e5b9);
        z = (z ^ (z >> 27)).wrapping_mul(0x94d0_49bb_1331_11eb);
        z ^ (z >> 31)
    }

    /// A number from 0 to `count` - 1.
    pub fn below(&mut self, count: usize) -> usize {
        (self.next() % count as u64) as usize
    }

    pub fn pick<T: Copy>(&mut self, list: &[T]) -> T {
        list[self.below(list.len())]
    }

    pub fn byte(&mut self) -> u8 {
        self.next() as u8
    }

    /// UTF-8 of at most `most` bytes, with characters of every length.
    pub fn text(&mut self, most: usize) -> Vec<u8> {
        let mut text = String::new();
        loop {
            let limit = self.pick(&[0x80, 0x80, 0x800, 0x1_0000, 0x11_0000]);
            // None is a surrogate
            if let Some(character) = char::from_u32(self.below(limit) as u32) {
                if text.len() + character.len_utf8() > most {
                    return text.into_bytes();
                }
                text.push(character);
            }
        }
    }

    /// A copy in which one byte is flipped, dropped or inserted, or which is cut short.
    pub fn damaged(&mut self, bytes: &[u8]) -> Vec<u8> {
        let mut copy = bytes.to_vec();
        let at = self.below(copy.len() + 1);
        match self.below(4) {
            0 if at < copy.len() => copy[at] ^= 1 << self.below(8),
            1 if at < copy.len() => drop(copy.remove(at)),
            2 => copy.truncate(at),
            _ => copy.insert(at, self.byte()),
        }
        copy
    }
}
