//! A case made on the library, over copies of what it lends: each table and the output in a
//! block of memory of just its size.
use super::Case;
use crate::reading::World;
use crate::{Call, Grant};
use lekchnam_host::lent::{self, Packet, RelayPacket, RelayTicket};
use lekchnam_host::{HnsrActionId, HnsrRuntimeError};

/// What the library leaves.
#[derive(Clone, Debug, Eq, PartialEq)]
pub struct Left {
    /// How many output words it says that it wrote.
    pub answer: Result<usize, HnsrRuntimeError>,
    pub world: World,
    pub out: Vec<u32>,
}

impl Left {
    /// The number (ANS.5).
    pub fn number(&self) -> u8 {
        self.answer.err().map_or(0, |refused| refused.number() as u8)
    }

    /// The words that it wrote.
    pub fn words(&self) -> &[u32] {
        &self.out[..self.answer.unwrap_or(0)]
    }
}

impl Case {
    pub fn made(&self) -> Left {
        let (mut world, mut out) = (self.world.clone(), self.out.clone());
        let answer = made(&self.call, &mut world, &mut out);
        Left { answer, world, out }
    }
}

fn made(call: &Call, world: &mut World, out: &mut [u32]) -> Result<usize, HnsrRuntimeError> {
    let World { runtime, tables } = world;
    match call {
        Call::New { session, generation, config, now } => {
            *runtime = lent::new(tables, *session, *generation, *config, *now)?;
            Ok(0)
        }
        Call::Handle { source, opcode, context, body, now, key_valid, admission, random } => {
            let head = RelayPacket {
                opcode: *opcode,
                context_id: u64::from_be_bytes(*context),
                now: *now,
                key_valid: *key_valid,
                admitted: admission.is_some(),
                ticket: admission.as_ref().map_or_else(RelayTicket::default, Grant::ticket),
            };
            let endpoint = admission.as_ref().map_or(&[][..], |grant| &grant.endpoint);
            lent::handle(tables, out, runtime, &Packet { head, source, body, endpoint, random })
        }
        Call::Acknowledge { generation, sequence, delivered } => {
            let action_id = HnsrActionId { generation: *generation, sequence: *sequence };
            lent::acknowledge(tables, out, runtime, action_id, *delivered)
        }
        Call::Disconnect { peer } => lent::disconnect(tables, out, runtime, peer),
        Call::Revoke { reservation } => lent::revoke_reservation(tables, out, runtime, (*reservation).into()),
        Call::Expire { now } => lent::expire(tables, out, runtime, *now),
        Call::Observe { now } => lent::observe_time(runtime, *now).map(|()| 0),
        Call::Replace { expected, enabled } => lent::replace_enabled(tables, out, runtime, *expected, *enabled),
        Call::Poke { .. } => unreachable!("not a call of the library"),
    }
}
