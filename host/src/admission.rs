//! What the host says of an OPEN.
use crate::error::HnsrRuntimeError;
use crate::lent::{RelayTicket, StoredPeer};
use crate::peer::HnsrPeerId;

/// What the host says of an OPEN: it reads the body ([`OpenBody::read`](crate::body::OpenBody::read)),
/// looks at the endpoint's key and asks its own book of reservations. Of any other packet the relay does
/// not look at it, and `Refused` will do.
#[derive(Clone, Copy, Debug, Eq, PartialEq)]
pub enum Admission<'a> {
    /// The endpoint's key is not a point of the curve. The OPEN is refused with 1 by its body, which is wrong: the
    /// advice is to end the connection ([`EndConnection`](crate::Advice::EndConnection)).
    KeyInvalid,
    /// The key is valid, and no reservation fits the OPEN. It is refused with 1 by admission: the advice is to turn it
    /// down ([`TurnDown`](crate::Advice::TurnDown)).
    Refused,
    /// The key is valid, and the OPEN goes by this grant.
    Granted(Grant<'a>),
}

impl<'a> Admission<'a> {
    /// Whether the key is valid, and the grant.
    pub(crate) fn parts(&self) -> (bool, Option<Grant<'a>>) {
        match self {
            Self::KeyInvalid => (false, None),
            Self::Refused => (true, None),
            Self::Granted(grant) => (true, Some(*grant)),
        }
    }
}

impl<'a> From<Grant<'a>> for Admission<'a> {
    fn from(grant: Grant<'a>) -> Self {
        Self::Granted(grant)
    }
}

impl<'a> From<&'a GrantBuf> for Admission<'a> {
    fn from(grant: &'a GrantBuf) -> Self {
        Self::Granted(grant.as_grant())
    }
}

/// Who is called, and by which ticket. [`GrantBuf`] is easier to keep.
#[derive(Clone, Copy, Debug, Default, Eq, PartialEq)]
pub struct Grant<'a> {
    /// The endpoint's name. An OPEN is refused with 4 where it does not have 1 to [`MAXIMUM_PEER`](crate::MAXIMUM_PEER)
    /// bytes.
    pub endpoint: &'a [u8],
    /// The reservation. It must be the id that the OPEN's body names: the relay does not compare them, but counts
    /// circuits by the body's and keeps the ledger by this one (OPEN.15).
    pub reservation_id: [u8; 16],
    /// When it ends: the same for every grant under one reservation. While the relay has the reservation in its
    /// ledger, an OPEN by a grant with another end is refused with 18. So a host that renews takes a new id, or first
    /// ends the old one by [`revoke_reservation`](crate::OpaqueRelayRuntime::revoke_reservation).
    pub expires_at: u64,
    /// How many circuits it may have at once, OPENs that wait counted.
    pub max_active_circuits: u16,
    /// How many bytes each circuit may pass.
    pub max_bytes_per_circuit: u64,
    /// How many bytes all its circuits together may pass.
    pub max_total_bytes: u64,
}

impl Grant<'_> {
    /// A grant of its own; 4 where the endpoint's name is none.
    pub fn to_buf(self) -> Result<GrantBuf, HnsrRuntimeError> {
        let Self { endpoint, reservation_id, expires_at, max_active_circuits, max_bytes_per_circuit, max_total_bytes } =
            self;
        let endpoint = HnsrPeerId::try_from(endpoint)?;
        Ok(GrantBuf {
            endpoint,
            reservation_id,
            expires_at,
            max_active_circuits,
            max_bytes_per_circuit,
            max_total_bytes,
        })
    }

    /// All but the name.
    pub(crate) fn ticket(&self) -> RelayTicket {
        RelayTicket {
            reservation_id: self.reservation_id.into(),
            expires_at: self.expires_at,
            max_active_circuits: self.max_active_circuits,
            max_bytes_per_circuit: self.max_bytes_per_circuit,
            max_total_bytes: self.max_total_bytes,
        }
    }
}

/// A grant that owns the endpoint's name, for a host's book of reservations.
///
/// ```
/// use lekchnam_host::{Admission, Grant, GrantBuf, HnsrPeerId, HnsrRuntimeError};
///
/// let grant = GrantBuf {
///     endpoint: HnsrPeerId::new("merchant")?,
///     reservation_id: [2; 16],
///     expires_at: 3_700,
///     max_active_circuits: 1,
///     max_bytes_per_circuit: 1 << 20,
///     max_total_bytes: 1 << 20,
/// };
/// assert_eq!(Admission::from(&grant), Admission::Granted(grant.as_grant()));
/// assert_eq!(grant.as_grant().to_buf(), Ok(grant));
/// assert_eq!(Grant { endpoint: b"", ..grant.as_grant() }.to_buf(), Err(HnsrRuntimeError::InvalidPeer));
/// # Ok::<(), HnsrRuntimeError>(())
/// ```
#[derive(Clone, Copy, Debug, Eq, Hash, PartialEq)]
pub struct GrantBuf {
    /// The endpoint.
    pub endpoint: HnsrPeerId,
    /// The reservation. It must be the id that the OPEN's body names ([`Grant::reservation_id`]).
    pub reservation_id: [u8; 16],
    /// When it ends: the same for every grant under one reservation ([`Grant::expires_at`]).
    pub expires_at: u64,
    /// How many circuits it may have at once, OPENs that wait counted.
    pub max_active_circuits: u16,
    /// How many bytes each circuit may pass.
    pub max_bytes_per_circuit: u64,
    /// How many bytes all its circuits together may pass.
    pub max_total_bytes: u64,
}

impl GrantBuf {
    /// The grant, the endpoint's name lent.
    pub fn as_grant(&self) -> Grant<'_> {
        Grant {
            endpoint: self.endpoint.as_bytes(),
            reservation_id: self.reservation_id,
            expires_at: self.expires_at,
            max_active_circuits: self.max_active_circuits,
            max_bytes_per_circuit: self.max_bytes_per_circuit,
            max_total_bytes: self.max_total_bytes,
        }
    }

    /// What a record has of it.
    pub(crate) fn found(endpoint: &StoredPeer, ticket: &RelayTicket) -> Self {
        Self {
            endpoint: HnsrPeerId::found(endpoint),
            reservation_id: ticket.reservation_id.into(),
            expires_at: ticket.expires_at,
            max_active_circuits: ticket.max_active_circuits,
            max_bytes_per_circuit: ticket.max_bytes_per_circuit,
            max_total_bytes: ticket.max_total_bytes,
        }
    }
}

impl TryFrom<Grant<'_>> for GrantBuf {
    type Error = HnsrRuntimeError;

    fn try_from(grant: Grant<'_>) -> Result<Self, HnsrRuntimeError> {
        grant.to_buf()
    }
}
