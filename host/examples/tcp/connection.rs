//! Connections: each has a thread that reads and one that writes, and both tell the relay's thread by events.
//!
//! The reader hands over one packet and waits for the word to go on: while the relay has no room for that packet, its
//! connection is not read, and TCP makes the sender wait. The writer writes what it is given, and tells of each route
//! whether it was written.
use crate::Result;
use lekchnam_host::stream::{read_packet, write_packet};
use lekchnam_host::{HnsrActionId, HnsrPacketBuf, HnsrPeerId};
use std::io::BufReader;
use std::net::{Shutdown, SocketAddr, TcpListener, TcpStream};
use std::sync::atomic::{AtomicBool, Ordering};
use std::sync::mpsc::{channel, Receiver, Sender};
use std::sync::Arc;
use std::thread::Scope;
use std::time::Duration;

/// How long a peer may read nothing of what is written to it.
const PATIENCE: Duration = Duration::from_secs(30);

pub enum Event {
    Connected(HnsrPeerId, Connection),
    Packet(HnsrPeerId, HnsrPacketBuf),
    /// A route was written, or could not be.
    Written(HnsrActionId, bool),
    Gone(HnsrPeerId),
}

/// A packet to write.
pub enum Job {
    /// A route of the relay, which is to hear what became of it.
    Route(HnsrActionId, HnsrPacketBuf),
    /// A packet of the host's own.
    Notice(HnsrPacketBuf),
    /// The host's own answer to the peer's last packet: the next one is read when this is written.
    Reply(HnsrPacketBuf),
}

/// The way to a connection's threads. Dropped, it ends them, the writer after all that it was given.
pub struct Connection {
    pub go_on: Sender<()>,
    pub jobs: Sender<Job>,
}

/// A connection has a name of its own, so a new one inherits nothing.
pub fn name(number: usize) -> HnsrPeerId {
    HnsrPeerId::new(format!("connection {number}")).expect("it has fewer than 128 bytes")
}

/// Takes connections until it is stopped.
pub fn accept<'scope>(
    scope: &'scope Scope<'scope, '_>,
    listener: &TcpListener,
    stopped: &AtomicBool,
    events: &Sender<Event>,
) {
    for (number, stream) in listener.incoming().flatten().enumerate() {
        if stopped.load(Ordering::SeqCst) {
            return;
        }
        if stream.set_nodelay(true).and(stream.set_write_timeout(Some(PATIENCE))).is_err() {
            continue;
        }
        let (name, stream) = (name(number), Arc::new(stream));
        let (go_on, word) = channel();
        let (jobs, todo) = channel();
        let replied = go_on.clone();
        let _ = events.send(Event::Connected(name, Connection { go_on, jobs }));
        let (input, told) = (stream.clone(), events.clone());
        scope.spawn(move || read(name, &input, &word, &told));
        let told = events.clone();
        scope.spawn(move || write(&stream, todo, &replied, &told));
    }
}

/// Stops `accept`, which waits for a connection: so one is made.
pub fn stop(stopped: &AtomicBool, address: SocketAddr) -> Result<()> {
    stopped.store(true, Ordering::SeqCst);
    TcpStream::connect(address)?;
    Ok(())
}

fn read(name: HnsrPeerId, stream: &TcpStream, word: &Receiver<()>, events: &Sender<Event>) {
    let (mut input, mut room) = (BufReader::new(stream), Vec::new());
    while let Ok(Some(packet)) = read_packet(&mut input, &mut room) {
        let _ = events.send(Event::Packet(name, packet.to_buf()));
        if word.recv().is_err() {
            break;
        }
    }
    let _ = events.send(Event::Gone(name));
}

fn write(mut stream: &TcpStream, jobs: Receiver<Job>, replied: &Sender<()>, events: &Sender<Event>) {
    let mut written = true;
    for job in jobs {
        let (Job::Route(_, packet) | Job::Notice(packet) | Job::Reply(packet)) = &job;
        // After a failure nothing more is written, but every route is told of.
        if written && write_packet(&mut stream, &packet.as_packet()).is_err() {
            written = false;
            let _ = stream.shutdown(Shutdown::Both); // the reader may be waiting for a packet
        }
        match job {
            Job::Route(action_id, _) => drop(events.send(Event::Written(action_id, written))),
            Job::Reply(_) => drop(replied.send(())),
            Job::Notice(_) => {}
        }
    }
    let _ = stream.shutdown(Shutdown::Both); // and so here: the peer may say nothing more
}
