//! What stands in the tables, in the types of the calls: ids as bytes, names as peers. Only records are seen, that is
//! places in use with their mark set, from the lowest place on.
use crate::admission::GrantBuf;
use crate::lent::{InflightAction, RelayCircuit, RelayPending, ReservationUsage, Tables};
use crate::peer::HnsrPeerId;
use crate::relay::OpaqueRelayRuntime;
use crate::route::HnsrActionId;

/// An OPEN that waits for its ACCEPT.
#[derive(Clone, Copy, Debug, Eq, PartialEq)]
pub struct PendingCircuit {
    /// The id that the circuit is to have.
    pub circuit_id: [u8; 8],
    /// Who asks.
    pub requester: HnsrPeerId,
    /// The context of the OPEN.
    pub requester_context: [u8; 8],
    /// Who is asked, and the ticket that it goes by.
    pub grant: GrantBuf,
    /// The window that the requester offers.
    pub initial_window: u32,
    /// Until when the ACCEPT may come.
    pub deadline: u64,
}

impl From<&RelayPending> for PendingCircuit {
    fn from(record: &RelayPending) -> Self {
        Self {
            circuit_id: record.circuit_id.to_be_bytes(),
            requester: HnsrPeerId::found(&record.requester),
            requester_context: record.requester_context.to_be_bytes(),
            grant: GrantBuf::found(&record.endpoint, &record.ticket),
            initial_window: record.initial_window,
            deadline: record.deadline,
        }
    }
}

/// A circuit.
#[derive(Clone, Copy, Debug, Eq, PartialEq)]
pub struct Circuit {
    /// Its id.
    pub circuit_id: [u8; 8],
    /// The side that asked for it.
    pub requester: HnsrPeerId,
    /// The side that took it.
    pub endpoint: HnsrPeerId,
    /// The reservation that it goes by.
    pub reservation_id: [u8; 16],
    /// When it ends.
    pub expires_at: u64,
    /// How many bytes it may pass.
    pub maximum_bytes: u64,
    /// How many bytes all circuits of its reservation may pass.
    pub maximum_total_bytes: u64,
    /// How much the requester may send now.
    pub requester_credit: u32,
    /// How much the endpoint may send now.
    pub endpoint_credit: u32,
    /// How many bytes it has passed.
    pub forwarded_bytes: u64,
    /// Bytes toward the requester that are not acknowledged.
    pub queued_to_requester: usize,
    /// Bytes toward the endpoint that are not acknowledged.
    pub queued_to_endpoint: usize,
}

impl From<&RelayCircuit> for Circuit {
    fn from(record: &RelayCircuit) -> Self {
        Self {
            circuit_id: record.circuit_id.to_be_bytes(),
            requester: HnsrPeerId::found(&record.requester),
            endpoint: HnsrPeerId::found(&record.endpoint),
            reservation_id: record.reservation_id.into(),
            expires_at: record.expires_at,
            maximum_bytes: record.maximum_bytes,
            maximum_total_bytes: record.maximum_total_bytes,
            requester_credit: record.requester_credit,
            endpoint_credit: record.endpoint_credit,
            forwarded_bytes: record.forwarded_bytes,
            queued_to_requester: record.queued_to_requester,
            queued_to_endpoint: record.queued_to_endpoint,
        }
    }
}

/// A reservation that OPENs went by. Its record stays in the ledger until the next admitted OPEN or
/// [`expire`](OpaqueRelayRuntime::expire) at or after its end, or until it is revoked. Until then its end counts for
/// [`next_due`](OpaqueRelayRuntime::next_due), also where it has no circuit.
#[derive(Clone, Copy, Debug, Eq, PartialEq)]
pub struct Reservation {
    /// Its id.
    pub reservation_id: [u8; 16],
    /// How many bytes its circuits have passed.
    pub bytes: u64,
    /// When it ends. While the record stays, an OPEN by a grant under this id with another end is refused with 18.
    pub expires_at: u64,
}

impl From<&ReservationUsage> for Reservation {
    fn from(record: &ReservationUsage) -> Self {
        Self { reservation_id: record.reservation_id.into(), bytes: record.bytes, expires_at: record.expires_at }
    }
}

/// A route that is not acknowledged.
#[derive(Clone, Copy, Debug, Eq, PartialEq)]
pub struct Action {
    /// Its number, by which it is acknowledged.
    pub action_id: HnsrActionId,
    /// The circuit that it is about, or the id that a pending one is to have.
    pub circuit_id: [u8; 8],
    /// Where it goes.
    pub destination: HnsrPeerId,
    /// What it is.
    pub kind: ActionKind,
}

/// What an unacknowledged route is.
#[derive(Clone, Copy, Debug, Eq, Hash, PartialEq)]
pub enum ActionKind {
    /// An INCOMING.
    Incoming,
    /// An OPENED.
    Opened,
    /// A DATA.
    Data {
        /// Whether it goes to the endpoint; else to the requester.
        to_endpoint: bool,
        /// How many bytes it has.
        bytes: usize,
    },
    /// A WINDOW.
    Control,
    /// A CLOSE or an ERROR.
    Close,
}

impl From<&InflightAction> for Action {
    fn from(record: &InflightAction) -> Self {
        Self {
            action_id: HnsrActionId { generation: record.generation, sequence: record.sequence },
            circuit_id: record.circuit_id.to_be_bytes(),
            destination: HnsrPeerId::found(&record.destination),
            kind: match record.kind {
                0 => ActionKind::Incoming,
                1 => ActionKind::Opened,
                2 => ActionKind::Data { to_endpoint: record.to_endpoint, bytes: record.bytes },
                3 => ActionKind::Control,
                _ => ActionKind::Close,
            },
        }
    }
}

impl Tables {
    /// The OPENs that wait. The field of this name has every place, used or not.
    pub fn pending(&self) -> impl Iterator<Item = PendingCircuit> + '_ {
        self.in_use().pending.iter().filter(|record| record.used).map(PendingCircuit::from)
    }

    /// The circuits. The field of this name has every place, used or not.
    pub fn circuits(&self) -> impl Iterator<Item = Circuit> + '_ {
        self.in_use().circuits.iter().filter(|record| record.used).map(Circuit::from)
    }

    /// The reservations in the ledger.
    pub fn reservations(&self) -> impl Iterator<Item = Reservation> + '_ {
        self.in_use().ledger.iter().filter(|record| record.used).map(Reservation::from)
    }

    /// The routes that are not acknowledged, in no order; [`oldest_action`](Self::oldest_action) is the first of them.
    pub fn actions(&self) -> impl Iterator<Item = Action> + '_ {
        self.in_use().inflight.iter().filter(|record| record.used).map(Action::from)
    }

    /// The route that has waited longest for its acknowledgement.
    pub fn oldest_action(&self) -> Option<Action> {
        self.actions().min_by_key(|action| action.action_id)
    }
}

/// What stands in the relay's tables.
///
/// ```
/// use lekchnam_host::{HnsrRuntimeError, OpaqueRelayConfig, OpaqueRelayRuntime};
///
/// /// What a host logs where acknowledgements do not come.
/// fn stuck(relay: &OpaqueRelayRuntime) -> Option<String> {
///     let oldest = relay.oldest_action()?;
///     Some(format!("route {} to {} is not acknowledged", oldest.action_id, oldest.destination))
/// }
///
/// let relay = OpaqueRelayRuntime::new([1; 16], 1, OpaqueRelayConfig::default(), 100)?;
/// assert_eq!((stuck(&relay), relay.circuits().count()), (None, 0));
/// # Ok::<(), HnsrRuntimeError>(())
/// ```
impl<Random> OpaqueRelayRuntime<Random> {
    /// The OPENs that wait.
    pub fn pending(&self) -> impl Iterator<Item = PendingCircuit> + '_ {
        self.tables().pending()
    }

    /// The circuits.
    pub fn circuits(&self) -> impl Iterator<Item = Circuit> + '_ {
        self.tables().circuits()
    }

    /// The reservations in the ledger.
    pub fn reservations(&self) -> impl Iterator<Item = Reservation> + '_ {
        self.tables().reservations()
    }

    /// The routes that are not acknowledged, in no order; [`oldest_action`](Self::oldest_action) is the first of them.
    pub fn actions(&self) -> impl Iterator<Item = Action> + '_ {
        self.tables().actions()
    }

    /// The route that has waited longest for its acknowledgement.
    pub fn oldest_action(&self) -> Option<Action> {
        self.tables().oldest_action()
    }
}
