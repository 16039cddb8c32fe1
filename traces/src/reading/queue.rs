//! A message becomes a route and an outstanding action.
use super::table::{count, put};
use super::{Outcome, Refused, Route, World, named, refuse, same, short};
use lekchnam_host::HnsrOpcode;
use lekchnam_host::body::{Invalid, ProtocolError};
use lekchnam_host::lent::{InflightAction, StoredPeer};

/// QUEUE.2: the kind by the opcode.
#[derive(Clone, Copy)]
pub enum Kind {
    Incoming = 0,
    Opened = 1,
    Data = 2,
    Control = 3,
    Close = 4,
}

impl Kind {
    pub fn stored(number: u8) -> Self {
        [Self::Incoming, Self::Opened, Self::Data, Self::Control]
            .get(usize::from(number))
            .copied()
            .unwrap_or(Self::Close)
    }
}

pub struct Message {
    pub destination: StoredPeer,
    pub circuit: u64,
    pub opcode: HnsrOpcode,
    pub context: u64,
    pub body: Vec<u8>,
    pub kind: Kind,
    /// Of Data.
    pub to_endpoint: bool,
}

impl World {
    /// QUEUE.5: in all, about the circuit and toward the peer. ACCEPT does not count those that it drops (ACCEPT.6).
    pub(super) fn action_room(&self, circuit: u64, peer: &StoredPeer, dropped: Option<u64>) -> Result<(), Refused> {
        let (config, tables) = (&self.runtime.config, &self.tables);
        let stays = |action: &InflightAction| dropped != Some(action.circuit_id);
        let all = count(tables, stays);
        let about = count(tables, |action| stays(action) && action.circuit_id == circuit);
        let toward = count(tables, |action| stays(action) && same(&action.destination, peer));
        let full = all >= config.maximum_inflight_actions
            || about >= config.maximum_inflight_actions_per_circuit
            || toward >= config.maximum_inflight_actions_per_peer;
        refuse(full, Refused::Capacity)
    }

    /// STATUS.5, STATUS.6: what `status` tells of a peer and a circuit, how many more actions the same three limits
    /// leave; or its 22, and then its 4.
    pub fn action_capacity(&self, peer: &[u8], circuit: u64) -> Result<usize, Refused> {
        let (config, tables) = (&self.runtime.config, &self.tables);
        refuse(short(config, tables), Refused::Short)?;
        let peer = named(peer)?;
        let left = |most: usize, counts: &dyn Fn(&InflightAction) -> bool| most.saturating_sub(count(tables, counts));
        let in_all = left(config.maximum_inflight_actions, &|_| true);
        let about = left(config.maximum_inflight_actions_per_circuit, &|action| action.circuit_id == circuit);
        let toward = left(config.maximum_inflight_actions_per_peer, &|action| same(&action.destination, &peer));
        Ok(in_all.min(about).min(toward))
    }

    /// 1, 10, 6 (QUEUE.6): no context, no room, no number.
    pub(super) fn queue(&mut self, message: Message) -> Outcome {
        refuse(message.context == 0, ProtocolError::Invalid(Invalid::ContextZero).into())?;
        self.action_room(message.circuit, &message.destination, None)?;
        let (generation, sequence) = (self.runtime.generation, self.runtime.next_action_sequence);
        refuse(sequence == u64::MAX, Refused::GenerationExhausted)?;
        let is_data = matches!(message.kind, Kind::Data);
        let action = InflightAction {
            used: true,
            generation,
            sequence,
            circuit_id: message.circuit,
            destination: message.destination,
            kind: message.kind as u8,
            to_endpoint: message.to_endpoint,
            bytes: if is_data { message.body.len() } else { 0 },
        };
        put(
            &mut self.tables,
            |other: &InflightAction| (other.generation, other.sequence) == (generation, sequence),
            action,
        );
        self.runtime.next_action_sequence += 1;
        Ok(vec![Route {
            peer: message.destination.as_bytes().to_vec(),
            generation,
            sequence,
            opcode: message.opcode.into(),
            context: message.context.to_be_bytes(),
            body: message.body,
        }])
    }

    /// QUEUE.8: what cannot be queued is left out.
    pub(super) fn tell(&mut self, message: Message) -> Vec<Route> {
        self.queue(message).unwrap_or_default()
    }
}
