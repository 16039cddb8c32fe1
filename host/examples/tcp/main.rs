//! A relay and two peers over TCP, in one process: ten transfers of 10 MB from a supplier to a merchant, each on a
//! circuit of its own, all at once.
//!
//! Midway the supplier's connection is killed. The supplier comes back, and each transfer goes on from where the
//! merchant has got to. Every byte is checked, and at the end every count of the relay must be zero; anything else ends
//! this with exit code 1. An argument says after how many MB the connection is killed.
//!
//! `relay.rs` and `connection.rs` are the host, to copy from; `peer.rs` has the two peers.
mod connection;
mod peer;
mod relay;

use peer::{Merchant, Peer, Supplier};
use relay::Figures;
use std::error::Error;
use std::fmt::Display;
use std::net::{Ipv4Addr, Shutdown, SocketAddr, TcpListener, TcpStream};
use std::process::exit;
use std::sync::atomic::AtomicBool;
use std::sync::{Arc, Mutex};
use std::thread;
use std::time::{Duration, Instant};

pub type Result<T> = std::result::Result<T, Box<dyn Error + Send + Sync>>;

const MB: u64 = 1_000_000;
/// What takes longer hangs.
const LIMIT: Duration = Duration::from_secs(120);
/// The refusals that may be: there was no room (10, 17), or it came late (11, 13, 14, 20).
const EXPECTED: [u32; 6] = [10, 11, 13, 14, 17, 20];

fn main() {
    let started = Instant::now();
    let page = Arc::new(Mutex::new(None));
    let watched = page.clone();
    thread::spawn(move || {
        thread::sleep(LIMIT);
        fail(format!("not done after {LIMIT:?}: {watched:#?}"))
    });
    let kill_at = std::env::args().nth(1).map_or(Ok(50), |argument| argument.parse());
    let kill_at = kill_at.unwrap_or_else(|wrong| fail(wrong)) * MB;
    let arrived = run(kill_at, &page);
    let figures = page.lock().expect("nobody panics that has it").take().expect("the relay ran");
    check(&figures);
    let refused: Vec<_> = figures.refused.iter().map(|(number, times)| format!("{number} {times} times")).collect();
    println!("{} packets were held and offered again; refusals: {}", figures.holds, refused.join(", "));
    println!(
        "{} MB through {} circuits, a peer killed after {} MB, every byte right, all counts zero, in {:.1} s",
        arrived / MB,
        figures.status.opened_circuits,
        kill_at / MB,
        started.elapsed().as_secs_f64()
    );
}

/// The relay, from its start until its last connection has ended; how many bytes arrived.
fn run(kill_at: u64, page: &Mutex<Option<Figures>>) -> u64 {
    let listener = sure(TcpListener::bind((Ipv4Addr::LOCALHOST, 0)));
    let (address, stopped) = (sure(listener.local_addr()), AtomicBool::new(false));
    thread::scope(|scope| {
        scope.spawn(|| sure(relay::run(&listener, &stopped, page)));
        let arrived = transfer(address, kill_at);
        sure(connection::stop(&stopped, address));
        arrived
    })
}

/// The two peers, the merchant connected first, and the break between the supplier's two connections.
fn transfer(address: SocketAddr, kill_at: u64) -> u64 {
    let connect = || sure(TcpStream::connect(address));
    let (merchants, first) = (connect(), connect());
    let (mut arrived, mut killed) = (0, false);
    let mut merchant = Merchant::new(|total| {
        arrived = total;
        if arrived >= kill_at && !killed {
            killed = true;
            sure(first.shutdown(Shutdown::Both));
        }
    });
    let mut supplier = Supplier::new();
    thread::scope(|scope| {
        scope.spawn(|| ensure(sure(merchant.run(&merchants)), "the merchant's connection broke"));
        ensure(!sure(supplier.run(&first)), "the supplier was not killed");
        ensure(sure(supplier.run(&connect())), "the supplier's second connection broke");
    });
    arrived
}

fn check(figures: &Figures) {
    let status = &figures.status;
    let counts = [status.pending_circuits, status.active_circuits, status.queued_bytes, status.queued_actions];
    ensure(counts == [0; 4] && figures.held == 0, format!("counts that are not zero: {figures:#?}"));
    let expected = figures.refused.keys().all(|number| EXPECTED.contains(number));
    ensure(expected, format!("a refusal that must not be: {figures:#?}"));
}

fn sure<T, E: Display>(result: std::result::Result<T, E>) -> T {
    result.unwrap_or_else(|wrong| fail(wrong))
}

fn ensure(holds: bool, wrong: impl Display) {
    if !holds {
        fail(wrong);
    }
}

/// Ends the process, with all its threads.
fn fail(wrong: impl Display) -> ! {
    eprintln!("WRONG: {wrong}");
    exit(1)
}
