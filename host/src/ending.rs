//! A call that ends one circuit.
use crate::admission::Admission;
use crate::body::CloseBody;
use crate::error::HnsrRuntimeError;
use crate::lent::Tables;
use crate::owned::{HnsrRouteBuf, Outgoing, QueuedHnsrRouteBuf};
use crate::packet::{HnsrOpcode, HnsrPacket};
use crate::random::RandomSource;
use crate::relay::OpaqueRelayRuntime;
use crate::side::{CircuitSide, Record};
use crate::why::names;

/// What [`end_circuit`](OpaqueRelayRuntime::end_circuit) has for the two sides: each hears once.
#[must_use = "both sides are to be told, and the counted route is to be acknowledged"]
#[derive(Clone, Debug, Eq, PartialEq)]
pub struct EndedCircuit {
    /// A route of the relay: to be sent, and to be acknowledged by its number. None where there was no room for it;
    /// then its packet is among the others.
    pub counted: Option<QueuedHnsrRouteBuf>,
    /// To be sent. The relay does not count these, and there is nothing to acknowledge.
    pub uncounted: Vec<HnsrRouteBuf>,
}

/// All that is to be sent, the counted route first.
impl IntoIterator for EndedCircuit {
    type Item = Outgoing;
    type IntoIter = std::vec::IntoIter<Outgoing>;

    fn into_iter(self) -> Self::IntoIter {
        let counted = self.counted.into_iter().map(Outgoing::from);
        counted.chain(self.uncounted.into_iter().map(Outgoing::from)).collect::<Vec<_>>().into_iter()
    }
}

impl<Random: RandomSource> OpaqueRelayRuntime<Random> {
    /// Ends one circuit, or one OPEN that waits, by its circuit id, and has a CLOSE for both sides. The requester of an
    /// OPEN that waits hears under its own context, all others under the circuit id.
    ///
    /// The relay is handed a CLOSE in the name of one side, so the other hears by a route, which counts until it is
    /// acknowledged. The side in whose name it was hears by a packet that does not count. Where there is no room for
    /// the route (10), or no number (6), the circuit ends all the same, and both hear by packets that do not count.
    /// Routes of the circuit that were not acknowledged have gone with it: their acknowledge is refused with 20, which
    /// is to be forgotten.
    ///
    /// [`outgoing`](Self::outgoing) is empty afterwards: what is handed out here is all of it.
    ///
    /// Refused, and nothing ended ([`HnsrRuntimeError::advice`] is not for this call): 1 where the detail is longer
    /// than [`MAX_DETAIL_SIZE`](crate::limits::MAX_DETAIL_SIZE); 14 where nothing has this id, and nothing is to be
    /// done; 7 and 9 as [`handle`](Self::handle) is; 11 where the CLOSE of neither side would name this and nothing
    /// else: then another OPEN that waits has this id for its context, or for its id the context of this one. End that
    /// one first, or a side's connection.
    ///
    /// ```
    /// use lekchnam_host::body::CloseBody;
    /// use lekchnam_host::{
    ///     Admission, Grant, HnsrOpcode, HnsrPacket, HnsrPeerId, HnsrRuntimeError, OpaqueRelayConfig,
    ///     OpaqueRelayRuntime,
    /// };
    ///
    /// let (supplier, merchant) = (HnsrPeerId::new("supplier")?, HnsrPeerId::new("merchant")?);
    /// let mut relay = OpaqueRelayRuntime::new([1; 16], 1, OpaqueRelayConfig::default(), 100)?;
    /// # let window = 65_536_u32.to_le_bytes();
    /// # let body = [&[1; 32][..], &[2; 16], &[3; 33], &[1, 0], &[4; 16], &window].concat();
    /// # let open = HnsrPacket::new(HnsrOpcode::Open, *b"request1", &body)?;
    /// # let grant = Grant {
    /// #     endpoint: merchant.as_bytes(),
    /// #     reservation_id: [2; 16],
    /// #     expires_at: 3_700,
    /// #     max_active_circuits: 1,
    /// #     max_bytes_per_circuit: 1 << 20,
    /// #     max_total_bytes: 1 << 20,
    /// # };
    /// // The supplier's OPEN, under `request1`, waits for the merchant.
    /// let routes = relay.handle(&Admission::Granted(grant), &supplier, &open, 100)?;
    /// let circuit = routes.iter().next().expect("one route").route.packet.context_id;
    ///
    /// let ended = relay.end_circuit(circuit, 11, "closing down", 101)?;
    /// let queued = ended.counted.expect("there was room");
    /// assert_eq!((queued.route.destination, queued.route.packet.context_id), (supplier, *b"request1"));
    /// assert_eq!(CloseBody::decode(&queued.route.packet.body)?.detail, "closing down");
    /// let [to_merchant] = &ended.uncounted[..] else { panic!("one packet") };
    /// assert_eq!((to_merchant.destination, to_merchant.packet.context_id), (merchant, circuit));
    ///
    /// assert!(relay.acknowledge(queued.action_id, true)?.is_empty());
    /// assert_eq!(relay.status().queued_actions, 0);
    /// assert_eq!(relay.end_circuit(circuit, 11, "", 101), Err(HnsrRuntimeError::UnknownCircuit));
    /// # Ok::<(), HnsrRuntimeError>(())
    /// ```
    pub fn end_circuit(
        &mut self,
        circuit_id: [u8; 8],
        reason: u16,
        detail: &str,
        now: u64,
    ) -> Result<EndedCircuit, HnsrRuntimeError> {
        self.nothing_outgoing();
        let body = CloseBody { reason, detail }.encode()?;
        let id = u64::from_be_bytes(circuit_id);
        let record = Record::those(self.tables(), |one| one.circuit_id == id, |one| one.circuit_id == id).next();
        let record = record.ok_or(HnsrRuntimeError::UnknownCircuit)?;
        let speaks = speaks(&record, self.tables()).ok_or(HnsrRuntimeError::InvalidAdmission)?;
        let packet = HnsrPacket { opcode: HnsrOpcode::Close, context_id: speaks.context_id, body: &body };
        let routed = self.handle(&Admission::Refused, &speaks.peer, &packet, now).map(|routes| routes.to_vec().pop());
        let counted = match routed {
            Ok(counted) => counted,
            Err(refused) if record.stands(self.tables()) => return Err(refused),
            Err(_) => None,
        };
        self.nothing_outgoing();
        let heard = counted.as_ref().map(|queued| (queued.route.destination, queued.route.packet.context_id));
        let others = [record.requester, record.endpoint].into_iter();
        let others = others.filter(|side| Some((side.peer, side.context_id)) != heard && side.hears());
        Ok(EndedCircuit {
            uncounted: others.map(|side| side.close(reason, detail)).collect::<Result<_, _>>()?,
            counted,
        })
    }
}

/// The side whose CLOSE names this record and no other: the endpoint if it can be.
fn speaks(record: &Record, tables: &Tables) -> Option<CircuitSide> {
    let own = usize::from(record.waits());
    let named = |side: &CircuitSide| {
        let context = u64::from_be_bytes(side.context_id);
        tables.in_use().pending.iter().filter(|pending| names(pending, side.peer.as_bytes(), context)).count()
    };
    [record.endpoint, record.requester].into_iter().find(|side| side.hears() && named(side) == own)
}
