//! The Rust as written: hns-hnsr-protocol's `OpaqueRelayRuntime` over the standard library's `HashMap`.
use super::{ActionId, GENERATION, Message, NOW, Name, Route, SESSION, Seen, Side};
use hns_hnsr_protocol::{
    ConfirmedReservation, HnsrActionId, HnsrOpcode, HnsrPacket, HnsrPeerId, HnsrRuntimeError, OpaqueRelayRuntime,
    QueuedHnsrRoute, RelayService,
};
use lekchnam_traces::Config;
use std::hint::black_box;

pub struct Rust(OpaqueRelayRuntime);

pub struct Packet {
    source: HnsrPeerId,
    message: HnsrPacket,
    service: RelayService,
}

fn read(routes: Vec<QueuedHnsrRoute>, seen: &mut Seen) {
    for queued in &routes {
        let packet = &queued.route.packet;
        seen.route(Route {
            id: ActionId { generation: queued.action_id.generation, sequence: queued.action_id.sequence },
            destination: queued.route.destination.as_bytes(),
            opcode: packet.opcode as u8,
            context: packet.context_id,
            body: &packet.body,
        });
    }
}

impl Rust {
    fn answer(&mut self, packet: &Packet) -> Result<Vec<QueuedHnsrRoute>, HnsrRuntimeError> {
        self.0.handle(&packet.service, &packet.source, &packet.message, NOW)
    }
}

impl Side for Rust {
    type Packet = Packet;
    type Peer = HnsrPeerId;

    fn new(config: Config) -> Self {
        Self(OpaqueRelayRuntime::new(SESSION, GENERATION, config.into(), NOW).expect("a good configuration"))
    }

    fn renew(_: Config) -> Option<impl FnMut()> {
        None::<fn()>
    }

    fn packet(message: &Message) -> Packet {
        let opcode = HnsrOpcode::try_from(u8::from(message.opcode)).expect("an opcode of the relay");
        Packet {
            source: Self::peer(&message.source),
            message: HnsrPacket::new(opcode, message.context, message.body.clone()).expect("a good packet"),
            service: RelayService { admission: message.grant.as_ref().map(ConfirmedReservation::from) },
        }
    }

    fn peer(name: &Name) -> HnsrPeerId {
        HnsrPeerId::new(*name).expect("16 bytes")
    }

    fn handle(&mut self, packet: &Packet, seen: &mut Seen) {
        read(self.answer(packet).expect("taken"), seen);
    }

    fn refused(&mut self, packet: &Packet, seen: &mut Seen) {
        seen.refusal(self.answer(packet).expect_err("refused"));
    }

    fn acknowledge(&mut self, id: ActionId, seen: &mut Seen) {
        let id = HnsrActionId { generation: id.generation, sequence: id.sequence };
        read(self.0.acknowledge(id, true).expect("taken"), seen);
    }

    fn disconnect(&mut self, peer: &HnsrPeerId, seen: &mut Seen) {
        read(self.0.disconnect(peer), seen);
    }

    fn expire(&mut self, now: u64, seen: &mut Seen) {
        read(self.0.expire(now).expect("taken"), seen);
    }

    fn switch_off(&mut self, seen: &mut Seen) {
        read(self.0.replace_enabled(GENERATION, false).expect("taken"), seen);
    }

    fn status(&self, seen: &mut Seen) {
        seen.note(&black_box(self.0.status()));
    }
}
