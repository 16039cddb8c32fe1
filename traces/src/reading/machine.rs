//! The reading as what runs a trace.
use super::World;
use crate::file::Places;
use crate::replay::Machine;
use crate::words::words;
use crate::{Answer, Call, Class, State};
use lekchnam_host::lent::{Runtime, RuntimeCounters, Tables};
use lekchnam_host::{HnsrRuntimeError, OpaqueRelayConfig};

pub struct Reading {
    places: Places,
    world: Option<World>,
}

impl Reading {
    pub fn new(places: Places) -> Self {
        Self { places, world: None }
    }

    fn run(&mut self, call: &Call) -> Result<Vec<u32>, HnsrRuntimeError> {
        let Call::New { config, .. } = call else {
            let world = self.world.as_mut().expect("a taken new first");
            let room = world.tables.most_words();
            return Ok(words(&world.call(call, room)?));
        };
        let mut world = unstarted(config, self.places.ledger);
        world.call(call, 0)?;
        self.world = Some(world);
        Ok(Vec::new())
    }
}

/// Tables for these limits, and a runtime that means nothing.
fn unstarted(config: &OpaqueRelayConfig, ledger_places: usize) -> World {
    let tables = config.validate().and_then(|config| Tables::new(&config, ledger_places)).unwrap_or_default();
    let runtime = Runtime {
        session: [0; 16],
        generation: 0,
        enabled: false,
        trusted_time_high_water: 0,
        config: *config,
        next_action_sequence: 0,
        counters: RuntimeCounters::default(),
    };
    World { runtime, tables }
}

impl Machine for Reading {
    fn call(&mut self, _: Class, call: &Call) -> Answer {
        let answer = self.run(call);
        let told = |world: &World| world.told().expect("the tables have the places that they need");
        Answer::of(answer, self.world.as_ref().map(told))
    }

    fn state(&self) -> Option<State> {
        self.world.as_ref().map(|world| State::stored(&world.runtime, &world.tables))
    }

    fn action_capacity(&self, peer: &[u8], circuit: [u8; 8]) -> Option<usize> {
        self.world.as_ref()?.action_capacity(peer, u64::from_be_bytes(circuit)).ok()
    }
}
