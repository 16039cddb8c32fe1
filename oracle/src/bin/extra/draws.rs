//! The rule of draws: zeros before each taken id, then zeros, then a free id, cut at four places.
use crate::script::{CONTEXT, REQUESTER, Script, open_body, small};

const TAKEN: [u8; 8] = [9; 8];
const FREE: [u8; 8] = [8; 8];
const ZERO: [u8; 8] = [0; 8];

pub fn script() -> Script {
    let mut script = Script::of_small("draws");
    for zeros in 0..=9 {
        for repeats in 0..=9 {
            let draws = draws(zeros, repeats);
            for cut in [0, 1, 8, 9] {
                script.new_relay(small());
                assert_eq!(script.open(b"other", CONTEXT, &open_body(), &TAKEN), 0);
                script.open(REQUESTER, CONTEXT, &open_body(), &draws[..draws.len().saturating_sub(cut)]);
            }
        }
    }
    script
}

fn draws(zeros: usize, repeats: usize) -> Vec<u8> {
    let before = |id: [u8; 8]| [vec![ZERO; zeros], vec![id]].concat();
    [before(TAKEN).repeat(repeats), before(FREE)].concat().concat()
}
