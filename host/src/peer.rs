//! The name of a peer.
use crate::error::HnsrRuntimeError;
use crate::lent::StoredPeer;
use crate::limits::{MAXIMUM_PEER, MINIMUM_PEER};
use std::borrow::Borrow;
use std::cmp::Ordering;
use std::fmt::{self, Debug, Display, Formatter};

/// The name that the host gives to one connection: 1 to [`MAXIMUM_PEER`] bytes.
///
/// A name in a route is what the tables hold. Only tables that a host put together can hold one of no bytes.
///
/// Names are equal, ordered and hashed as their bytes are. Shown, a name is text; what is not UTF-8 or cannot be
/// printed is escaped, so that no two names look the same and none can break a line of a log.
///
/// ```
/// use lekchnam_host::{HnsrPeerId, HnsrRuntimeError};
/// use std::collections::HashMap;
///
/// let peer = HnsrPeerId::try_from("caf\u{e9}")?;
/// assert_eq!(peer.to_string(), "caf\u{e9}");
/// assert_eq!(HnsrPeerId::try_from(&[b'a', b'\n', 0xff][..])?.to_string(), r"a\n\xff");
/// assert_eq!(HnsrPeerId::try_from(vec![]), Err(HnsrRuntimeError::InvalidPeer));
///
/// // A map by name can be asked by bytes.
/// let connections = HashMap::from([(peer, 7)]);
/// assert_eq!(connections.get("caf\u{e9}".as_bytes()), Some(&7));
/// # Ok::<(), HnsrRuntimeError>(())
/// ```
#[derive(Clone, Copy, Eq, Hash, PartialEq)]
pub struct HnsrPeerId(StoredPeer);

impl HnsrPeerId {
    /// A name of these bytes; 4 where there are none or more than [`MAXIMUM_PEER`].
    pub fn new(bytes: impl Into<Vec<u8>>) -> Result<Self, HnsrRuntimeError> {
        Self::try_from(&bytes.into()[..])
    }

    /// The bytes.
    pub fn as_bytes(&self) -> &[u8] {
        self.0.as_bytes()
    }

    /// A name of at most `MAXIMUM_PEER` bytes, with zeros behind it, as the relay stores one.
    pub(crate) fn padded(name: &[u8]) -> Self {
        let mut stored = StoredPeer { len: name.len(), ..StoredPeer::default() };
        stored.bytes[..name.len()].copy_from_slice(name);
        Self(stored)
    }

    /// The name in a record, whatever it is: also one of no bytes.
    pub(crate) fn found(stored: &StoredPeer) -> Self {
        Self::padded(stored.as_bytes())
    }
}

impl TryFrom<&[u8]> for HnsrPeerId {
    type Error = HnsrRuntimeError;

    fn try_from(name: &[u8]) -> Result<Self, HnsrRuntimeError> {
        match name.len() {
            MINIMUM_PEER..=MAXIMUM_PEER => Ok(Self::padded(name)),
            _ => Err(HnsrRuntimeError::InvalidPeer),
        }
    }
}

impl TryFrom<Vec<u8>> for HnsrPeerId {
    type Error = HnsrRuntimeError;

    fn try_from(name: Vec<u8>) -> Result<Self, HnsrRuntimeError> {
        Self::try_from(&name[..])
    }
}

impl TryFrom<&str> for HnsrPeerId {
    type Error = HnsrRuntimeError;

    fn try_from(name: &str) -> Result<Self, HnsrRuntimeError> {
        Self::try_from(name.as_bytes())
    }
}

/// The name in a record; 4 where it has no bytes. A length over [`MAXIMUM_PEER`] reads as that.
impl TryFrom<StoredPeer> for HnsrPeerId {
    type Error = HnsrRuntimeError;

    fn try_from(stored: StoredPeer) -> Result<Self, HnsrRuntimeError> {
        Self::try_from(stored.as_bytes())
    }
}

impl From<HnsrPeerId> for StoredPeer {
    fn from(peer: HnsrPeerId) -> Self {
        peer.0
    }
}

impl From<&HnsrPeerId> for StoredPeer {
    fn from(peer: &HnsrPeerId) -> Self {
        peer.0
    }
}

impl AsRef<[u8]> for HnsrPeerId {
    fn as_ref(&self) -> &[u8] {
        self.as_bytes()
    }
}

/// Equality, order and hash are those of the bytes.
impl Borrow<[u8]> for HnsrPeerId {
    fn borrow(&self) -> &[u8] {
        self.as_bytes()
    }
}

impl Ord for HnsrPeerId {
    fn cmp(&self, other: &Self) -> Ordering {
        self.as_bytes().cmp(other.as_bytes())
    }
}

impl PartialOrd for HnsrPeerId {
    fn partial_cmp(&self, other: &Self) -> Option<Ordering> {
        Some(self.cmp(other))
    }
}

impl Display for HnsrPeerId {
    fn fmt(&self, f: &mut Formatter<'_>) -> fmt::Result {
        let mut text = String::new();
        for chunk in self.as_bytes().utf8_chunks() {
            text.extend(chunk.valid().escape_debug());
            text.extend(chunk.invalid().escape_ascii().map(char::from));
        }
        f.pad(&text)
    }
}

impl Debug for HnsrPeerId {
    fn fmt(&self, f: &mut Formatter<'_>) -> fmt::Result {
        f.debug_tuple("HnsrPeerId").field(&self.as_bytes()).finish()
    }
}
