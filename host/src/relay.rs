//! A relay that owns its tables, its output words and its random source.
use crate::admission::Admission;
use crate::config::OpaqueRelayConfig;
use crate::error::HnsrRuntimeError;
use crate::lent::{self, InflightAction, Packet, RelayPacket, Runtime, Tables};
use crate::owned::{HnsrPacketBuf, HnsrRouteBuf, Outgoing};
use crate::packet::{HnsrOpcode, HnsrPacket};
use crate::peer::HnsrPeerId;
use crate::random::{OsRandom, RandomSource, RANDOM_BYTES};
use crate::reason::HnsrErrorCode;
use crate::route::{HnsrActionId, Routes};
use crate::side::{Cause, CircuitSide, Standing};
use crate::status::HnsrRuntimeStatus;
use crate::view::{Action, ActionKind};
use std::fmt::{self, Debug, Formatter};

/// Why `status` and `next_due` cannot fail. They are refused with 22 where a table has fewer places than its limit.
/// `from_parts`, which makes every relay, has asked `status` of these tables; from then on no table changes its length,
/// and no call changes a limit. The other refusal of `status` is 4, for a name that is none, and `ANYBODY` is a name.
const PLACES_ARE_ENOUGH: &str = "the tables have the places that they need";

/// Whom `status` asks about, whose own numbers are the same for everybody: any good name, and any circuit.
const ANYBODY: (&[u8], u64) = (b"anybody", 0);

/// What a side hears from the host, for whose notice the relay had no room.
const UNTOLD: (HnsrErrorCode, &str) = (HnsrErrorCode::Capacity, "circuit ended, no room for its notice");

/// A relay of circuits between two peers. It does not read their DATA, and it owns no socket and no clock.
///
/// A host has four things to do. It hands packets to [`handle`](Self::handle). It sends every route that any call hands
/// out ([`outgoing`](Self::outgoing)), in order, and calls [`acknowledge`](Self::acknowledge) with its number once,
/// delivered or not: till then the route keeps its place. It calls [`disconnect`](Self::disconnect) where a connection
/// ends, and [`expire`](Self::expire) when [`next_due`](Self::next_due) has come. What it does with a refusal,
/// [`advice`](Self::advice) says, and [`why`](Self::why) which row of the rules it was. docs/HOSTING.md has all that a
/// host author must know, and `host/examples/tcp` is such a host.
///
/// Memory is taken once, by `new`: for tables of as many places as the configuration allows, and for output words that
/// are enough for every call. So no call is ever refused for want of places or words (22). Memory is touched where
/// records and words come to stand: a new relay of any size uses hardly any, and a call looks through the places in
/// use ([`Places`](lent::Places)), not through all.
pub struct OpaqueRelayRuntime<Random = OsRandom> {
    runtime: Runtime,
    tables: Tables,
    out: Vec<u32>,
    /// How many words of `out` are the last call's.
    words: usize,
    /// Who was not told of what the last call ended.
    untold: Vec<CircuitSide>,
    /// The CLOSE or the ERROR that ended it, if such a one did.
    unsaid: Option<HnsrPacketBuf>,
    random: Random,
}

impl OpaqueRelayRuntime {
    /// A new relay, switched on, that draws ids from the operating system and has
    /// [`OpaqueRelayConfig::ledger_places`] in its ledger.
    ///
    /// `session` names the process that the relay is in: any sixteen bytes that are not all zero, other ones at each
    /// start. The relay keeps it for the host and does not look at it again. `generation` is 1 or more. It is a part of
    /// every [`HnsrActionId`], and [`replace_enabled`](Self::replace_enabled) raises it: a word on a route of an
    /// earlier generation is refused with 5. A host that makes a relay anew in one process, and may still hold numbers
    /// of the one before, starts it with a generation that is higher than the last one's.
    pub fn new(
        session: [u8; 16],
        generation: u64,
        config: OpaqueRelayConfig,
        trusted_now: u64,
    ) -> Result<Self, HnsrRuntimeError> {
        Self::new_with(session, generation, config, trusted_now, config.ledger_places(), OsRandom::default())
    }
}

impl<Random: RandomSource> OpaqueRelayRuntime<Random> {
    /// A new relay, switched on. The ledger needs a place for each reservation that OPENs go by and that has not ended.
    ///
    /// Refused with 3, 2 and 22, in this order: 22 ([`Short`](HnsrRuntimeError::Short)) where the
    /// ledger has no place, or where the memory for the tables and the output words cannot be had.
    /// Before a 3 or a 2 no memory is taken.
    ///
    /// ```
    /// use lekchnam_host::{HnsrRuntimeError, OpaqueRelayConfig, OpaqueRelayRuntime, OsRandom};
    ///
    /// let new = |generation, ledger_places| {
    ///     let (config, random) = (OpaqueRelayConfig::default(), OsRandom::default());
    ///     OpaqueRelayRuntime::new_with([1; 16], generation, config, 100, ledger_places, random).map(|_| ())
    /// };
    /// assert_eq!(new(1, 5_000), Ok(()));
    /// assert_eq!(new(1, usize::MAX), Err(HnsrRuntimeError::Short));
    /// assert_eq!(new(0, usize::MAX), Err(HnsrRuntimeError::InvalidSession));
    /// ```
    pub fn new_with(
        session: [u8; 16],
        generation: u64,
        config: OpaqueRelayConfig,
        trusted_now: u64,
        ledger_places: usize,
        random: Random,
    ) -> Result<Self, HnsrRuntimeError> {
        let new = |tables: &mut Tables| lent::new(tables, session, generation, config, trusted_now);
        // over no tables it answers 3, 2, or the 22 that says that nothing but tables is wanting
        match new(&mut Tables::default()) {
            Err(refused) if refused != HnsrRuntimeError::Short => return Err(refused),
            _ => {}
        }
        let mut tables = Tables::new(&config, ledger_places)?;
        let runtime = new(&mut tables)?;
        Self::from_parts(runtime, tables, random)
    }

    /// A relay that goes on from stored parts, whatever they hold; 22 where a table is shorter than the
    /// configuration allows, or where the memory for the output words cannot be had.
    ///
    /// The numbers of places in use are stored with the tables. A host that has lost them sets [`Tables::places`] to
    /// [`Places::EVERY`](lent::Places::EVERY), and the marks alone decide.
    pub fn from_parts(runtime: Runtime, tables: Tables, random: Random) -> Result<Self, HnsrRuntimeError> {
        lent::status(&tables, &runtime, ANYBODY.0, ANYBODY.1)?;
        let out = lent::unused(tables.most_words())?;
        Ok(Self { runtime, tables, out, words: 0, untold: Vec::new(), unsaid: None, random })
    }

    /// Takes a packet of the peer `source`. Of an OPEN the host says whether it is admitted; of any other packet the
    /// relay does not look at `admission`.
    ///
    /// `source` is the connection that the packet came by. A peer is a side of at most 32 circuits and waiting OPENs
    /// ([`MAX_CIRCUITS`](crate::limits::MAX_CIRCUITS)); one that needs more comes by several connections, each with a
    /// name of its own. `now` is in seconds and never less than before, else 7: a
    /// [`MonotonicClock`](crate::MonotonicClock) has such. Whatever is refused behind the clock's test, the relay's
    /// clock has moved to it.
    ///
    /// DATA passes also past its circuit's `expires_at`: it is [`expire`](Self::expire) that ends the circuit. Before
    /// that an OPEN of anybody may drop the ledger record of a reservation that is over, and such DATA is refused with
    /// 11.
    ///
    /// A refused packet has sent nothing. **A refused DATA is offered again, or its circuit is ended**
    /// ([`end_circuit`](Self::end_circuit)). A host that skips it and takes the next one leaves a hole in the stream.
    /// [`advice`](Self::advice) says which of the two.
    pub fn handle(
        &mut self,
        admission: &Admission<'_>,
        source: &HnsrPeerId,
        packet: &HnsrPacket<'_>,
        now: u64,
    ) -> Result<Routes<'_>, HnsrRuntimeError> {
        let mut bytes;
        let random: &[u8] = match packet.opcode {
            HnsrOpcode::Open => {
                bytes = [0; RANDOM_BYTES];
                let supplied = self.random.supply(&mut bytes).min(RANDOM_BYTES);
                &bytes[..supplied]
            }
            _ => &[],
        };
        let cause = match packet.opcode {
            HnsrOpcode::Close | HnsrOpcode::Error => Some(Cause::Said(source, *packet)),
            _ => None,
        };
        let packet = handed(admission, source, packet, now, random);
        self.call(cause, |tables, out, runtime| lent::handle(tables, out, runtime, &packet))
    }

    /// Takes the word that a route was delivered, or was not: then what it was for ends, and the routes that come out
    /// tell so.
    ///
    /// Each route is acknowledged once, in any order: `true` when the connection has taken its last byte, `false` when
    /// it cannot, or its peer is not there. The place of one that is forgotten comes back with the end of its
    /// circuit; that of a CLOSE or an ERROR, whose circuit has ended, only where its peer is disconnected (again) or
    /// the relay is switched. [`actions`](Self::actions) shows all, [`oldest_action`](Self::oldest_action) the oldest.
    ///
    /// 5 and 20 are normal: the route's circuit, peer or generation ended before its word came, and its place is free
    /// already.
    pub fn acknowledge(&mut self, action_id: HnsrActionId, delivered: bool) -> Result<Routes<'_>, HnsrRuntimeError> {
        let cause = if delivered { None } else { self.lost(action_id) };
        self.call(cause, |tables, out, runtime| lent::acknowledge(tables, out, runtime, action_id, delivered))
    }

    /// Ends all that a peer is a side of, and frees the places of the routes toward it. Refused, with 4, is only a name
    /// of no bytes, which no peer has: a route may have it where stored tables do.
    ///
    /// Of each circuit both sides get a route, the peer that is gone too: acknowledge these with `false`, or they keep
    /// their places.
    pub fn disconnect(&mut self, peer: &HnsrPeerId) -> Result<Routes<'_>, HnsrRuntimeError> {
        self.call(Some(Cause::Gone(peer)), |tables, out, runtime| {
            lent::disconnect(tables, out, runtime, peer.as_bytes())
        })
    }

    /// Ends all that goes by a reservation, and forgets what it has used: an OPEN may then come under the same id with
    /// another expiry. Its one refusal is 22, and the relay has places and words enough.
    pub fn revoke_reservation(&mut self, reservation_id: [u8; 16]) -> Result<Routes<'_>, HnsrRuntimeError> {
        let id = reservation_id.into();
        self.call(Some(Cause::Revoked(id)), |tables, out, runtime| lent::revoke_reservation(tables, out, runtime, id))
    }

    /// Moves the clock and ends all whose time is over: OPENs that nobody accepted, circuits whose reservation ended.
    /// Reservations that ended go from the ledger, and nobody is told. Nothing ends by itself.
    /// [`next_due`](Self::next_due) says when there is something to end.
    pub fn expire(&mut self, now: u64) -> Result<Routes<'_>, HnsrRuntimeError> {
        self.call(Some(Cause::Expired(now)), |tables, out, runtime| lent::expire(tables, out, runtime, now))
    }

    /// Moves the clock.
    pub fn observe_time(&mut self, trusted_now: u64) -> Result<(), HnsrRuntimeError> {
        self.call(None, |_, _, runtime| lent::observe_time(runtime, trusted_now).map(|()| 0)).map(|_| ())
    }

    /// Switches the relay on or off. A change raises the generation and frees the places of all routes; off ends all.
    ///
    /// `expected_generation` is what the host takes the generation for: 5 where it is another, so that of two hosts'
    /// parts that switch at once one hears that it came late.
    pub fn replace_enabled(&mut self, expected_generation: u64, enabled: bool) -> Result<Routes<'_>, HnsrRuntimeError> {
        self.call(Some(Cause::Switched), |tables, out, runtime| {
            lent::replace_enabled(tables, out, runtime, expected_generation, enabled)
        })
    }

    /// Makes a call, which ends records by this cause if it ends some: its routes, if it is taken.
    fn call(
        &mut self,
        cause: Option<Cause<'_>>,
        call: impl FnOnce(&mut Tables, &mut [u32], &mut Runtime) -> Result<usize, HnsrRuntimeError>,
    ) -> Result<Routes<'_>, HnsrRuntimeError> {
        let standing = cause.map(|cause| Standing::before(&self.tables, &self.runtime, cause));
        let answer = call(&mut self.tables, &mut self.out, &mut self.runtime);
        self.words = answer.unwrap_or(0);
        self.untold = standing.map_or_else(Vec::new, |standing| standing.untold(&self.tables, self.routes()));
        self.unsaid = match cause {
            Some(Cause::Said(_, packet)) if !self.untold.is_empty() => Some(packet.to_buf()),
            _ => None,
        };
        answer.map(|_| self.routes())
    }

    /// What a route that was not delivered ends.
    fn lost(&self, action_id: HnsrActionId) -> Option<Cause<'static>> {
        let HnsrActionId { generation, sequence } = action_id;
        let is =
            |action: &&InflightAction| action.used && (action.generation, action.sequence) == (generation, sequence);
        let lost = self.tables.in_use().inflight.iter().find(is)?;
        let incoming = Action::from(lost).kind == ActionKind::Incoming;
        Some(if incoming { Cause::LostIncoming(lost.circuit_id) } else { Cause::Lost(lost.circuit_id) })
    }

    /// Nothing is to be sent because of the last call.
    pub(crate) fn nothing_outgoing(&mut self) {
        self.words = 0;
        self.untold.clear();
        self.unsaid = None;
    }
}

impl<Random> OpaqueRelayRuntime<Random> {
    /// What the relay tells of itself. How much room it has toward a peer: [`action_capacity`](Self::action_capacity).
    pub fn status(&self) -> HnsrRuntimeStatus {
        lent::status(&self.tables, &self.runtime, ANYBODY.0, ANYBODY.1).expect(PLACES_ARE_ENOUGH).status
    }

    /// How many more routes fit toward a peer and about a circuit, before one of the three limits on unacknowledged
    /// routes is reached: the relay's, the circuit's or the peer's. The peer and the circuit may be unknown to the
    /// relay, and it may be switched off: the number tells what the limits leave, and nothing else.
    ///
    /// It is what the next DATA or WINDOW to that peer by that circuit finds. At 0, and only there, such a packet is
    /// refused with 10 ([`Capacity`](HnsrRuntimeError::Capacity)), if nothing refuses it before. One that is taken
    /// lowers the number by one, and its acknowledge gives that back. Bytes, credit and queue are other limits, and may
    /// refuse where the number is large.
    ///
    /// A notice of the relay's own goes by the same count when it is queued. But the end of a circuit frees the
    /// circuit's routes before that, and an ACCEPT those of its OPEN before it asks for room: for these the number is a
    /// lower bound. For the INCOMING of an OPEN ask about the endpoint and a circuit that has no route, such as
    /// `[0; 8]`.
    ///
    /// Which of the limits is the least is not told. Of a packet that was refused [`why`](Self::why) tells which was
    /// reached ([`Row::Actions`](crate::Row::Actions), [`ActionLimit`](crate::ActionLimit)).
    ///
    /// Refused, with 4, is only a name of no bytes, which no peer has.
    ///
    /// ```
    /// use lekchnam_host::{
    ///     Admission, Grant, HnsrOpcode, HnsrPacket, HnsrPeerId, HnsrRuntimeError, OpaqueRelayConfig,
    ///     OpaqueRelayRuntime,
    /// };
    ///
    /// let (supplier, merchant) = (HnsrPeerId::new("supplier")?, HnsrPeerId::new("merchant")?);
    /// let config = OpaqueRelayConfig {
    ///     maximum_inflight_actions: 8,
    ///     maximum_inflight_actions_per_circuit: 2,
    ///     maximum_inflight_actions_per_peer: 6,
    ///     ..OpaqueRelayConfig::default()
    /// };
    /// let mut relay = OpaqueRelayRuntime::new([1; 16], 1, config, 100)?;
    /// # let window = 65_536_u32.to_le_bytes();
    /// # let body = [&[1; 32][..], &[2; 16], &[3; 33], &[1, 0], &[4; 16], &window].concat();
    /// # let open = HnsrPacket::new(HnsrOpcode::Open, *b"request1", &body)?;
    /// # let grant = Grant {
    /// #     endpoint: merchant.as_bytes(),
    /// #     reservation_id: [2; 16],
    /// #     expires_at: 3_700,
    /// #     max_active_circuits: 1,
    /// #     max_bytes_per_circuit: 1 << 20,
    /// #     max_total_bytes: 1 << 20,
    /// # };
    /// # let routes = relay.handle(&Admission::Granted(grant), &supplier, &open, 100)?;
    /// # let circuit = routes.iter().next().expect("one route").route.packet.context_id;
    /// # let body = [&window[..], &[5; 16]].concat();
    /// # let accept = HnsrPacket::new(HnsrOpcode::Accept, circuit, &body)?;
    /// # let opened = relay.handle(&Admission::Refused, &merchant, &accept, 101)?.to_vec();
    /// # assert!(relay.acknowledge(opened[0].action_id, true)?.is_empty());
    /// // A circuit is open, and nothing is under way. Two invoices fit, and a third does not.
    /// assert_eq!(relay.action_capacity(&merchant, circuit), Ok(2));
    /// let invoice = HnsrPacket::new(HnsrOpcode::Data, circuit, b"invoice")?;
    /// let first = relay.handle(&Admission::Refused, &supplier, &invoice, 101)?.to_vec();
    /// assert_eq!(relay.action_capacity(&merchant, circuit), Ok(1));
    /// assert_eq!(relay.handle(&Admission::Refused, &supplier, &invoice, 101)?.len(), 1);
    /// assert_eq!(relay.action_capacity(&merchant, circuit), Ok(0));
    /// let refused = relay.handle(&Admission::Refused, &supplier, &invoice, 101).unwrap_err();
    /// assert_eq!(refused, HnsrRuntimeError::Capacity);
    ///
    /// assert!(relay.acknowledge(first[0].action_id, true)?.is_empty());
    /// assert_eq!(relay.action_capacity(&merchant, circuit), Ok(1));
    /// // Toward anybody, by a circuit that has no route yet.
    /// assert_eq!(relay.action_capacity(&HnsrPeerId::new("nobody yet")?, [0; 8]), Ok(2));
    /// # Ok::<(), HnsrRuntimeError>(())
    /// ```
    pub fn action_capacity(&self, peer: &HnsrPeerId, circuit_id: [u8; 8]) -> Result<usize, HnsrRuntimeError> {
        let circuit_id = u64::from_be_bytes(circuit_id);
        lent::status(&self.tables, &self.runtime, peer.as_bytes(), circuit_id).map(|told| told.action_capacity)
    }

    /// When [`expire`](Self::expire) has work: the first of all deadlines of pending records, ends of circuits and ends
    /// of the reservations in the ledger. `None` where there is no such record; unacknowledged routes do not count.
    ///
    /// A host sleeps until then, or until a packet comes, and calls `expire`. Before that time `expire` moves the clock
    /// and does nothing else. After an `expire` that was taken this is `None`, or later than the time that it was
    /// given, so a host that sleeps until it does not spin.
    ///
    /// A reservation is due also where its circuits have all ended: with the `expire` at its end it goes from
    /// [`reservations`](Self::reservations). One whose end has passed already is due at once.
    ///
    /// Stored tables may have a pending record whose ticket ends before its deadline, which no OPEN makes. `expire`
    /// ends it by its ticket; here its deadline counts alone (DUE.6).
    pub fn next_due(&self) -> Option<u64> {
        lent::next_due(&self.tables, &self.runtime).expect(PLACES_ARE_ENOUGH)
    }

    /// The routes of the last call; none if it was refused.
    pub fn routes(&self) -> Routes<'_> {
        Routes::new(self.words())
    }

    /// The sides of what the last call ended that no route tells of it, be the call taken or refused.
    ///
    /// The relay ends a circuit also where too many routes are unacknowledged for a notice, and leaves the notice out
    /// without a word. The host tells these sides, by [`outgoing`](Self::outgoing) or by [`CircuitSide::close`]. A peer
    /// that has just disconnected is not among them.
    pub fn untold(&self) -> &[CircuitSide] {
        &self.untold
    }

    /// All that is to be sent because of the last call, in this order: its routes, and a notice for each side that
    /// [`untold`](Self::untold) has. That is the CLOSE or the ERROR of the other side, where one ended it, and else a
    /// CLOSE of the host's own, whose reason is [`Capacity`](HnsrErrorCode::Capacity). A refused call has no routes,
    /// but may have ended something.
    ///
    /// To be asked once after each call: it does not take anything out. After [`end_circuit`](Self::end_circuit), which
    /// hands all of it out itself, there is nothing.
    ///
    /// ```
    /// use lekchnam_host::{HnsrActionId, OpaqueRelayRuntime, Outgoing};
    ///
    /// /// A route was written, or could not be. Refused with 5 or 20, what it was about had ended before.
    /// fn written(relay: &mut OpaqueRelayRuntime, action_id: HnsrActionId, delivered: bool) -> Vec<Outgoing> {
    ///     let refused = relay.acknowledge(action_id, delivered).err();
    ///     if let Some(refused) = refused {
    ///         println!("route {action_id}: {refused}: {}", refused.advice(None));
    ///     }
    ///     relay.outgoing()
    /// }
    /// ```
    #[must_use = "this is to be sent, and each route is to be acknowledged"]
    pub fn outgoing(&self) -> Vec<Outgoing> {
        let notice = |side: &CircuitSide| match &self.unsaid {
            Some(said) => {
                let packet = HnsrPacketBuf { context_id: side.context_id, ..said.clone() };
                Some(HnsrRouteBuf { destination: side.peer, packet })
            }
            None => side.close(UNTOLD.0.into(), UNTOLD.1).ok(),
        };
        let notices = self.untold.iter().filter_map(notice);
        let routes = self.routes().to_vec().into_iter().map(Outgoing::from);
        routes.chain(notices.map(Outgoing::from)).collect()
    }

    /// The output words of the last call; none if it was refused.
    pub fn words(&self) -> &[u32] {
        &self.out[..self.words]
    }

    /// The random source. Where an OPEN is refused with 8, it may tell whether it failed ([`OsRandom::failure`]).
    pub fn random(&self) -> &Random {
        &self.random
    }

    /// What is to be stored beside the tables.
    pub fn runtime(&self) -> &Runtime {
        &self.runtime
    }

    /// The tables; [`in_use`](Tables::in_use) leaves out the places that hold no record whatever their mark.
    pub fn tables(&self) -> &Tables {
        &self.tables
    }

    /// The parts to be stored, for [`from_parts`](Self::from_parts): the runtime, and the tables
    /// with the numbers of places in use.
    pub fn into_parts(self) -> (Runtime, Tables) {
        (self.runtime, self.tables)
    }
}

/// What a call of `handle` hands over.
pub(crate) fn handed<'a>(
    admission: &Admission<'a>,
    source: &'a HnsrPeerId,
    packet: &HnsrPacket<'a>,
    now: u64,
    random: &'a [u8],
) -> Packet<'a> {
    let (key_valid, grant) = admission.parts();
    let granted = grant.unwrap_or_default();
    let head = RelayPacket {
        opcode: packet.opcode.into(),
        context_id: u64::from_be_bytes(packet.context_id),
        now,
        key_valid,
        admitted: grant.is_some(),
        ticket: granted.ticket(),
    };
    Packet { head, source: source.as_bytes(), body: packet.body, endpoint: granted.endpoint, random }
}

impl<Random> Debug for OpaqueRelayRuntime<Random> {
    fn fmt(&self, f: &mut Formatter<'_>) -> fmt::Result {
        f.debug_struct("OpaqueRelayRuntime").field("runtime", &self.runtime).finish_non_exhaustive()
    }
}
