//! Which row a refusal was: the number says less.
mod asked;
mod row;

use crate::admission::Admission;
use crate::error::{Advice, HnsrRuntimeError};
use crate::lent::{Packet, Runtime, Tables};
use crate::packet::HnsrPacket;
use crate::peer::HnsrPeerId;
use crate::relay::{handed, OpaqueRelayRuntime};
use asked::Asked;

pub(crate) use asked::names;
pub use row::{ActionLimit, Row};

/// As [`OpaqueRelayRuntime::why`], over lent tables: asked straight after [`lent::handle`](crate::lent::handle) was
/// refused, with what it left.
pub fn why(tables: &Tables, runtime: &Runtime, packet: &Packet<'_>, refused: HnsrRuntimeError) -> Option<Row> {
    Asked::new(tables, runtime, packet).row(refused)
}

impl<Random> OpaqueRelayRuntime<Random> {
    /// Which row refused a packet: asked straight after [`handle`](Self::handle) was refused, with the same arguments.
    /// None where no row fits, since other calls came between or the arguments are others.
    ///
    /// The rows are asked again over the tables as they are now; this changes nothing. It is not proved, but held to
    /// the calls by tests.
    ///
    /// ```
    /// use lekchnam_host::{
    ///     Admission, Advice, Grant, HnsrOpcode, HnsrPacket, HnsrPeerId, HnsrRuntimeError, OpaqueRelayConfig,
    ///     OpaqueRelayRuntime, Row,
    /// };
    ///
    /// let (supplier, merchant) = (HnsrPeerId::new("supplier")?, HnsrPeerId::new("merchant")?);
    /// let config = OpaqueRelayConfig { maximum_queue_bytes: 10, ..OpaqueRelayConfig::default() };
    /// let mut relay = OpaqueRelayRuntime::new([1; 16], 1, config, 100)?;
    /// # let window = 65_536_u32.to_le_bytes();
    /// # let body = [&[1; 32][..], &[2; 16], &[3; 33], &[1, 0], &[4; 16], &window].concat();
    /// # let open = HnsrPacket::new(HnsrOpcode::Open, *b"request1", &body)?;
    /// # let grant = Grant {
    /// #     endpoint: merchant.as_bytes(),
    /// #     reservation_id: [2; 16],
    /// #     expires_at: 3_700,
    /// #     max_active_circuits: 1,
    /// #     max_bytes_per_circuit: 1 << 20,
    /// #     max_total_bytes: 1 << 20,
    /// # };
    /// # let routes = relay.handle(&Admission::Granted(grant), &supplier, &open, 100)?;
    /// # let circuit = routes.iter().next().expect("one route").route.packet.context_id;
    /// # let body = [&window[..], &[5; 16]].concat();
    /// # relay.handle(&Admission::Refused, &merchant, &HnsrPacket::new(HnsrOpcode::Accept, circuit, &body)?, 101)?;
    /// // A circuit is open, and its queue toward the merchant has 10 bytes.
    /// let first = HnsrPacket::new(HnsrOpcode::Data, circuit, b"invoice 1")?;
    /// let second = HnsrPacket::new(HnsrOpcode::Data, circuit, b"invoice 2")?;
    /// let routes = relay.handle(&Admission::Refused, &supplier, &first, 101)?;
    /// let number = routes.iter().next().expect("one route").action_id;
    ///
    /// let refused = relay.handle(&Admission::Refused, &supplier, &second, 101).unwrap_err();
    /// assert_eq!(refused, HnsrRuntimeError::FlowControl);
    /// let row = relay.why(refused, &Admission::Refused, &supplier, &second, 101).expect("a row");
    /// assert_eq!(row, Row::Queue { left: 1, asked: 9 });
    /// assert_eq!(row.advice(), Advice::OfferAgain);
    ///
    /// relay.acknowledge(number, true)?;
    /// assert!(relay.handle(&Admission::Refused, &supplier, &second, 101).is_ok());
    /// # Ok::<(), HnsrRuntimeError>(())
    /// ```
    pub fn why(
        &self,
        refused: HnsrRuntimeError,
        admission: &Admission<'_>,
        source: &HnsrPeerId,
        packet: &HnsrPacket<'_>,
        now: u64,
    ) -> Option<Row> {
        why(self.tables(), self.runtime(), &handed(admission, source, packet, now, &[]), refused)
    }

    /// What to do with a packet that [`handle`](Self::handle) refused: asked straight after it, with the same
    /// arguments. The row's advice where [`why`](Self::why) finds one, else the number's.
    pub fn advice(
        &self,
        refused: HnsrRuntimeError,
        admission: &Admission<'_>,
        source: &HnsrPeerId,
        packet: &HnsrPacket<'_>,
        now: u64,
    ) -> Advice {
        self.why(refused, admission, source, packet, now)
            .map_or_else(|| refused.advice(Some(packet.opcode)), Row::advice)
    }
}
