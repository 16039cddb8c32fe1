//! The proved library, by the host's `OpaqueRelayRuntime`.
use super::{ActionId, GENERATION, Message, NOW, Name, Route, SESSION, Seen, Side};
use lekchnam_host::lent::{self, Tables};
use lekchnam_host::{
    Admission, HnsrActionId, HnsrPacket, HnsrPeerId, HnsrRuntimeError, OpaqueRelayRuntime, RandomSource, Routes,
};
use lekchnam_traces::{Config, Grant};
use std::hint::black_box;

/// The draws that the Rust takes too: eight bytes for an OPEN.
struct Draws;

impl RandomSource for Draws {
    fn supply(&mut self, room: &mut [u8]) -> usize {
        getrandom::fill(&mut room[..8]).map_or(0, |()| 8)
    }
}

pub struct Library(OpaqueRelayRuntime<Draws>);

pub struct Packet {
    source: HnsrPeerId,
    opcode: u8,
    context: [u8; 8],
    body: Vec<u8>,
    grant: Option<Grant>,
}

fn read(routes: Routes<'_>, seen: &mut Seen) {
    for queued in routes {
        let packet = queued.route.packet;
        seen.route(Route {
            id: ActionId { generation: queued.action_id.generation, sequence: queued.action_id.sequence },
            destination: queued.route.destination.as_bytes(),
            opcode: packet.opcode.into(),
            context: packet.context_id,
            body: packet.body,
        });
    }
}

impl Library {
    fn answer(&mut self, packet: &Packet) -> Result<Routes<'_>, HnsrRuntimeError> {
        let message = HnsrPacket { opcode: packet.opcode.into(), context_id: packet.context, body: &packet.body };
        let admission = packet.grant.as_ref().map_or(Admission::Refused, |grant| Admission::Granted(grant.lent()));
        self.0.handle(&admission, &packet.source, &message, NOW)
    }
}

impl Side for Library {
    type Packet = Packet;
    type Peer = HnsrPeerId;

    fn new(config: Config) -> Self {
        let relay = OpaqueRelayRuntime::new_with(SESSION, GENERATION, config, NOW, config.ledger_places(), Draws);
        Self(relay.expect("a good configuration"))
    }

    fn renew(config: Config) -> Option<impl FnMut()> {
        let mut tables = Tables::new(&config, config.ledger_places()).expect("memory");
        Some(move || {
            black_box(lent::new(&mut tables, SESSION, GENERATION, config, NOW)).expect("a good configuration");
        })
    }

    fn packet(message: &Message) -> Packet {
        Packet {
            source: Self::peer(&message.source),
            opcode: message.opcode.into(),
            context: message.context,
            body: message.body.clone(),
            grant: message.grant.clone(),
        }
    }

    fn peer(name: &Name) -> HnsrPeerId {
        HnsrPeerId::new(*name).expect("16 bytes")
    }

    fn handle(&mut self, packet: &Packet, seen: &mut Seen) {
        read(self.answer(packet).expect("taken"), seen);
    }

    fn refused(&mut self, packet: &Packet, seen: &mut Seen) {
        seen.refusal(self.answer(packet).expect_err("refused"));
    }

    fn acknowledge(&mut self, id: ActionId, seen: &mut Seen) {
        let id = HnsrActionId { generation: id.generation, sequence: id.sequence };
        read(self.0.acknowledge(id, true).expect("taken"), seen);
    }

    fn disconnect(&mut self, peer: &HnsrPeerId, seen: &mut Seen) {
        read(self.0.disconnect(peer).expect("taken"), seen);
    }

    fn expire(&mut self, now: u64, seen: &mut Seen) {
        read(self.0.expire(now).expect("taken"), seen);
    }

    fn switch_off(&mut self, seen: &mut Seen) {
        read(self.0.replace_enabled(GENERATION, false).expect("taken"), seen);
    }

    fn status(&self, seen: &mut Seen) {
        seen.note(&black_box(self.0.status()));
    }
}
