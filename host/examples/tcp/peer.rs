//! The two peers: the supplier sends, the merchant receives, checks every byte, and says where to go on after a break.
//!
//! A peer reads and acts on one thread and has another one write, by a queue without a bound: so it goes on reading
//! while its writing is stopped. The queue stays short all the same, since windows bound the DATA in it, and the DATA
//! that came bounds the WINDOWs.
use crate::Result;
use lekchnam_host::body::{AcceptBody, CloseBody, IncomingBody, OpenBody, OpenedBody, WindowBody};
use lekchnam_host::limits::{MAX_CIRCUIT_QUEUE, MAX_DATA_SIZE};
use lekchnam_host::stream::{read_packet, write_packet};
use lekchnam_host::{HnsrErrorCode, HnsrOpcode, HnsrPacket, HnsrPacketBuf};
use std::collections::{BTreeMap, BTreeSet, HashMap};
use std::io::BufReader;
use std::mem;
use std::net::{Shutdown, TcpStream};
use std::sync::mpsc::{channel, Sender};
use std::thread;

type Id = [u8; 8];

/// How many transfers there are, each on a circuit of its own, and how many bytes each has.
const TRANSFERS: u16 = 10;
const LENGTH: u64 = 10_000_000;
/// A transfer that the merchant does not know. It leaves the OPEN alone, and the relay ends it when its time is over.
const UNKNOWN: u16 = TRANSFERS + 1;
/// As much as the relay queues for a circuit: with more, a sender that keeps to its window could run into the queue.
const WINDOW: u32 = MAX_CIRCUIT_QUEUE as u32;
pub const RESERVATION: [u8; 16] = [2; 16];
pub const KEY: [u8; 33] = [3; 33];

/// The bytes of a transfer from an offset on: words that each say which transfer and which word of it they are. All
/// offsets and sizes here are multiples of 8.
fn bytes(transfer: u16, at: u64, size: u64) -> Vec<u8> {
    let words: Vec<_> =
        (at / 8..(at + size) / 8).map(|word| (u64::from(transfer) << 48 | word).to_le_bytes()).collect();
    words.concat()
}

/// Takes what a peer has to say.
pub struct Output(Sender<HnsrPacketBuf>);

impl Output {
    fn say(&self, opcode: HnsrOpcode, context_id: Id, body: impl Into<Vec<u8>>) {
        // Fails where writing has failed. Then reading ends as well.
        let _ = self.0.send(HnsrPacketBuf { opcode, context_id, body: body.into() });
    }

    fn close(&self, circuit: Id, reason: HnsrErrorCode, detail: &str) -> Result<()> {
        self.say(HnsrOpcode::Close, circuit, CloseBody { reason: reason.into(), detail }.encode()?);
        Ok(())
    }
}

pub trait Peer {
    /// What it says unasked.
    fn start(&mut self, _: &Output) -> Result<()> {
        Ok(())
    }

    fn take(&mut self, packet: &HnsrPacket<'_>, output: &Output) -> Result<()>;

    fn done(&self) -> bool;

    /// Runs until all is done, or until the connection breaks: then false.
    fn run(&mut self, mut stream: &TcpStream) -> Result<bool> {
        stream.set_nodelay(true)?;
        let (sender, packets) = channel::<HnsrPacketBuf>();
        let (output, mut input, mut room) = (Output(sender), BufReader::new(stream), Vec::new());
        thread::scope(|scope| {
            scope.spawn(move || {
                let _ = packets.iter().try_for_each(|packet| write_packet(&mut stream, &packet.as_packet()));
                let _ = stream.shutdown(Shutdown::Write);
            });
            self.start(&output)?;
            while !self.done() {
                match read_packet(&mut input, &mut room) {
                    Ok(Some(packet)) => self.take(&packet, &output)?,
                    _ => return Ok(false),
                }
            }
            // When all is written the relay reads the stream's end, and ends its side in the same way.
            drop(output);
            while let Ok(Some(_)) = read_packet(&mut input, &mut room) {}
            Ok(true)
        })
    }
}

fn unexpected(packet: &HnsrPacket<'_>) -> Result<()> {
    let detail = CloseBody::decode(packet.body).map_or("", |close| close.detail);
    Err(format!("an unexpected {:?} {detail}", packet.opcode).into())
}

/// Sends the transfers that are left.
pub struct Supplier {
    left: BTreeSet<u16>,
    circuits: HashMap<Id, Sending>,
}

struct Sending {
    transfer: u16,
    credit: u64,
    at: u64,
}

impl Sending {
    /// Sends what there is credit for.
    fn send(&mut self, circuit: Id, output: &Output) {
        while self.credit > 0 && self.at < LENGTH {
            let size = self.credit.min(LENGTH - self.at).min(MAX_DATA_SIZE as u64);
            output.say(HnsrOpcode::Data, circuit, bytes(self.transfer, self.at, size));
            self.credit -= size;
            self.at += size;
        }
    }
}

impl Supplier {
    pub fn new() -> Self {
        Self { left: (1..=UNKNOWN).collect(), circuits: HashMap::new() }
    }
}

/// Asks for a circuit for a transfer, whose number is the context of the OPEN and its profile.
fn open(transfer: u16, output: &Output) -> Result<()> {
    let open = OpenBody {
        ticket_id: [1; 32],
        reservation_id: RESERVATION,
        endpoint_key: KEY,
        profile: transfer,
        requester_nonce: [4; 16],
        initial_window: WINDOW,
    };
    output.say(HnsrOpcode::Open, u64::from(transfer).to_be_bytes(), open.encode(true)?);
    Ok(())
}

impl Peer for Supplier {
    fn start(&mut self, output: &Output) -> Result<()> {
        self.circuits.clear();
        self.left.iter().try_for_each(|transfer| open(*transfer, output))
    }

    fn take(&mut self, packet: &HnsrPacket<'_>, output: &Output) -> Result<()> {
        let circuit = packet.context_id;
        let reason = CloseBody::decode(packet.body).ok().map(|close| close.reason);
        // An OPENED or an ERROR comes by the context of its OPEN.
        let transfer = u64::from_be_bytes(packet.context_id) as u16;
        match (packet.opcode, self.circuits.get_mut(&circuit)) {
            (HnsrOpcode::Opened, _) => {
                let opened = OpenedBody::decode(packet.body)?;
                // Nothing to send before the merchant has said from where on.
                let sending = Sending { transfer, credit: opened.accepted_window.into(), at: LENGTH };
                self.circuits.insert(opened.circuit_id, sending);
            }
            (HnsrOpcode::Data, Some(sending)) => {
                sending.at = u64::from_le_bytes(packet.body.try_into()?);
                sending.send(circuit, output);
            }
            (HnsrOpcode::Window, Some(sending)) => {
                sending.credit += u64::from(WindowBody::decode(packet.body)?.credit_delta);
                sending.send(circuit, output);
            }
            (HnsrOpcode::Close, Some(sending)) if reason == Some(HnsrErrorCode::Normal.into()) => {
                self.left.remove(&sending.transfer);
            }
            (HnsrOpcode::Error, _) if reason == Some(HnsrErrorCode::Timeout.into()) => {
                if transfer != UNKNOWN {
                    return open(transfer, output);
                }
                self.left.remove(&transfer);
            }
            _ => return unexpected(packet),
        }
        Ok(())
    }

    fn done(&self) -> bool {
        self.left.is_empty()
    }
}

/// Receives the transfers, and tells `watch` how many bytes have come in all.
pub struct Merchant<Watch> {
    transfers: BTreeMap<u16, Receiving>,
    /// OPENs that it leaves alone.
    ignored: BTreeSet<Id>,
    arrived: u64,
    watch: Watch,
}

#[derive(Default)]
struct Receiving {
    circuit: Option<Id>,
    arrived: u64,
    /// Bytes that came on this circuit and that no WINDOW has given back yet.
    consumed: u32,
}

impl Receiving {
    /// The receiver closes, as it knows that nothing is under way any more.
    fn close_if_complete(&mut self, circuit: Id, output: &Output) -> Result<()> {
        if self.arrived == LENGTH {
            self.circuit = None;
            output.close(circuit, HnsrErrorCode::Normal, "all received")?;
        }
        Ok(())
    }
}

impl<Watch: FnMut(u64)> Merchant<Watch> {
    pub fn new(watch: Watch) -> Self {
        let transfers = (1..=TRANSFERS).map(|transfer| (transfer, Receiving::default())).collect();
        Self { transfers, ignored: BTreeSet::new(), arrived: 0, watch }
    }

    /// Takes a circuit for a transfer, and says from where on it is wanted.
    fn accept(&mut self, circuit: Id, transfer: u16, output: &Output) -> Result<()> {
        let Some(receiving) = self.transfers.get_mut(&transfer) else {
            self.ignored.insert(circuit);
            return Ok(());
        };
        // The supplier may be back before the relay knows that it was gone: then the old circuit still lives there.
        if let Some(old) = receiving.circuit.replace(circuit) {
            output.close(old, HnsrErrorCode::EndpointGone, "taken up on another circuit")?;
        }
        receiving.consumed = 0;
        let accept = AcceptBody { accepted_window: WINDOW, endpoint_nonce: [5; 16] };
        output.say(HnsrOpcode::Accept, circuit, accept.encode()?);
        output.say(HnsrOpcode::Data, circuit, receiving.arrived.to_le_bytes());
        receiving.close_if_complete(circuit, output)
    }

    fn receive(&mut self, circuit: Id, data: &[u8], output: &Output) -> Result<()> {
        let mut transfers = self.transfers.iter_mut();
        let Some((&transfer, receiving)) = transfers.find(|(_, receiving)| receiving.circuit == Some(circuit)) else {
            return Ok(()); // of an old circuit
        };
        let size = data.len() as u64;
        if data != bytes(transfer, receiving.arrived, size) {
            return Err(format!("transfer {transfer}: wrong bytes behind byte {}", receiving.arrived).into());
        }
        receiving.arrived += size;
        receiving.consumed += size as u32;
        self.arrived += size;
        (self.watch)(self.arrived);
        if receiving.consumed >= WINDOW / 2 {
            let window = WindowBody { credit_delta: mem::take(&mut receiving.consumed) };
            output.say(HnsrOpcode::Window, circuit, window.encode()?);
        }
        receiving.close_if_complete(circuit, output)
    }

    /// The supplier is gone, or the time of an OPEN is over. What has arrived stays.
    fn closed(&mut self, circuit: Id) {
        self.ignored.remove(&circuit);
        for receiving in self.transfers.values_mut() {
            receiving.circuit.take_if(|open| *open == circuit);
        }
    }
}

impl<Watch: FnMut(u64)> Peer for Merchant<Watch> {
    fn take(&mut self, packet: &HnsrPacket<'_>, output: &Output) -> Result<()> {
        let circuit = packet.context_id;
        match packet.opcode {
            HnsrOpcode::Incoming => self.accept(circuit, IncomingBody::decode(packet.body)?.profile, output)?,
            HnsrOpcode::Data => self.receive(circuit, packet.body, output)?,
            HnsrOpcode::Close => self.closed(circuit),
            _ => return unexpected(packet),
        }
        Ok(())
    }

    fn done(&self) -> bool {
        self.ignored.is_empty() && self.transfers.values().all(|receiving| receiving.arrived == LENGTH)
    }
}
