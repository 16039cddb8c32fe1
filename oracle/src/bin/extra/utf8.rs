//! Details around every edge of RFC 3629. No circuit is there, so 14 says that the body is good.
use crate::script::{REQUESTER, Script, small};
use lekchnam_host::HnsrOpcode;

const SAMPLES: [&str; 4] =
    ["A\u{2262}\u{391}.", "\u{d55c}\u{ad6d}\u{c5b4}", "\u{65e5}\u{672c}\u{8a9e}", "\u{feff}\u{233b4}"];
const SECOND: [u8; 10] = [0x00, 0x7f, 0x80, 0x8f, 0x90, 0x9f, 0xa0, 0xbf, 0xc0, 0xff];
const REST: [u8; 4] = [0x7f, 0x80, 0xbf, 0xc0];

pub fn script() -> Script {
    let mut script = Script::of_small("utf8: no circuit is there, so 14 says that the body is good");
    script.new_relay(small());
    for (index, detail) in details().iter().enumerate() {
        let opcode = if index % 2 == 0 { HnsrOpcode::Close } else { HnsrOpcode::Error };
        let body = [&[9, 0, detail.len() as u8], &detail[..]].concat();
        script.packet(REQUESTER, opcode, *b"nowhere!", &body);
    }
    script
}

fn details() -> Vec<Vec<u8>> {
    let mut list: Vec<Vec<u8>> = SAMPLES.iter().map(|text| text.as_bytes().to_vec()).collect();
    for lead in 0..=255_u8 {
        list.push(vec![lead]);
        for second in SECOND {
            list.push(vec![lead, second]);
            if beside_a_bound(lead) {
                list.extend(longer(lead, second));
            }
        }
    }
    list
}

/// Leads on both sides of each bound.
fn beside_a_bound(lead: u8) -> bool {
    matches!(lead, 0x7f | 0x80 | 0xc1 | 0xc2 | 0xdf..=0xe1 | 0xec..=0xf1 | 0xf3..=0xf5 | 0xf8 | 0xff)
}

fn longer(lead: u8, second: u8) -> Vec<Vec<u8>> {
    let mut list = Vec::new();
    for third in REST {
        list.push(vec![lead, second, third]);
        list.extend(REST.map(|fourth| vec![lead, second, third, fourth]));
    }
    list
}
