//! Output words (OUT).
use lekchnam_host::limits::PEER_WORDS;

/// A packet on its way to a peer, and its number.
#[derive(Clone, Debug, Eq, PartialEq)]
pub struct Route {
    pub peer: Vec<u8>,
    pub generation: u64,
    pub sequence: u64,
    pub opcode: u8,
    pub context: [u8; 8],
    pub body: Vec<u8>,
}

fn pack(out: &mut Vec<u32>, bytes: &[u8], count: usize) {
    for index in 0..count {
        let byte = |lane: usize| bytes.get(index * 4 + lane).copied().unwrap_or(0);
        out.push(u32::from_le_bytes([byte(0), byte(1), byte(2), byte(3)]));
    }
}

fn push_number(out: &mut Vec<u32>, number: u64) {
    out.extend([(number >> 32) as u32, number as u32]);
}

pub fn words(routes: &[Route]) -> Vec<u32> {
    let mut out = Vec::new();
    for route in routes {
        out.push(1 << 28 | route.peer.len() as u32);
        push_number(&mut out, route.generation);
        push_number(&mut out, route.sequence);
        pack(&mut out, &route.peer, PEER_WORDS);
        out.push(2 << 28 | u32::from(route.opcode) << 16 | route.body.len() as u32);
        pack(&mut out, &route.context, 2);
        pack(&mut out, &route.body, route.body.len().div_ceil(4));
    }
    out
}
