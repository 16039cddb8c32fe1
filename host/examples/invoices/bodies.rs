//! The bodies that the two parties write.
use lekchnam_host::body::{AcceptBody, CloseBody, OpenBody};

const TICKET: [u8; 32] = [1; 32];
pub const RESERVATION: [u8; 16] = [2; 16];
const KEY: [u8; 33] = [3; 33];
const PROFILE: u16 = 1;
const NONCE: [u8; 16] = [4; 16];
const WINDOW: u32 = 65_536;

pub fn open() -> [u8; OpenBody::SIZE] {
    let body = OpenBody {
        ticket_id: TICKET,
        reservation_id: RESERVATION,
        endpoint_key: KEY,
        profile: PROFILE,
        requester_nonce: NONCE,
        initial_window: WINDOW,
    };
    body.encode(true).expect("good values")
}

pub fn accept() -> [u8; AcceptBody::SIZE] {
    AcceptBody { accepted_window: WINDOW, endpoint_nonce: NONCE }.encode().expect("good values")
}

/// A CLOSE's: the reason, and its detail in words.
pub fn close(reason: u16, detail: &str) -> Vec<u8> {
    CloseBody { reason, detail }.encode().expect("a short detail")
}

pub fn invoice(number: u64) -> Vec<u8> {
    let items: String = (1..=number).map(|item| format!("item {item}: 12.50\n")).collect();
    format!("Invoice {number}\n{items}total: {}.{:02}\n", number * 1_250 / 100, number * 1_250 % 100).into_bytes()
}
