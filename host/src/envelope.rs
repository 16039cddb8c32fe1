//! A packet as bytes: the envelope of hns-hnsr-protocol. One byte of version, one of opcode, two of flags, which are
//! zero, eight of context, and the body up to the end.
use crate::body::{validate_packet, ProtocolError};
use crate::limits::{HNSR_HEADER_SIZE, MAX_PACKET_SIZE};
use crate::packet::{HnsrOpcode, HnsrPacket, UnknownOpcode};
use std::error::Error;
use std::fmt::{self, Display, Formatter};

/// The version that a packet's first byte names.
pub const HNSR_VERSION: u8 = 1;

// Where the fields start; the body is behind the header.
const VERSION: usize = 0;
const OPCODE: usize = VERSION + 1;
const FLAGS: usize = OPCODE + 1;
const CONTEXT: usize = FLAGS + 2;

/// Why bytes are no packet, in the words of hns-hnsr-protocol.
#[derive(Clone, Copy, Debug, Eq, Hash, PartialEq)]
pub enum EnvelopeError {
    /// The first byte is not [`HNSR_VERSION`].
    UnknownVersion,
    /// The opcode is no message's.
    UnknownOpcode(UnknownOpcode),
    /// The flags are not zero.
    ReservedFlags,
    /// The bytes end inside the header, are too many, or have a context of zero where it must not be.
    Protocol(ProtocolError),
}

impl Display for EnvelopeError {
    fn fmt(&self, f: &mut Formatter<'_>) -> fmt::Result {
        match self {
            Self::UnknownVersion => f.write_str("invalid HNSR value: unknown HNSR version"),
            Self::UnknownOpcode(_) => f.write_str("invalid HNSR value: unknown HNSR opcode"),
            Self::ReservedFlags => f.write_str("invalid HNSR value: reserved HNSR flags are set"),
            Self::Protocol(cause) => cause.fmt(f),
        }
    }
}

impl Error for EnvelopeError {}

impl From<ProtocolError> for EnvelopeError {
    fn from(cause: ProtocolError) -> Self {
        Self::Protocol(cause)
    }
}

impl<'a> HnsrPacket<'a> {
    /// The packet as bytes. Refused is what [`decode`](Self::decode) would refuse: a body that is too long, a context
    /// of zero where it must not be, an opcode that is no message's.
    ///
    /// ```
    /// use lekchnam_host::{EnvelopeError, HnsrOpcode, HnsrPacket};
    ///
    /// let packet = HnsrPacket::new(HnsrOpcode::Data, *b"circuit1", b"invoice")?;
    /// let bytes = packet.encode()?;
    /// assert_eq!(bytes, [&[1, 17, 0, 0], &b"circuit1invoice"[..]].concat());
    /// assert_eq!(HnsrPacket::decode(&bytes), Ok(packet));
    /// # Ok::<(), EnvelopeError>(())
    /// ```
    pub fn encode(&self) -> Result<Vec<u8>, EnvelopeError> {
        let mut bytes = Vec::new();
        self.encode_into(&mut bytes)?;
        Ok(bytes)
    }

    /// As [`encode`](Self::encode), behind what `out` has. A refusal leaves `out`.
    pub fn encode_into(&self, out: &mut Vec<u8>) -> Result<(), EnvelopeError> {
        let opcode = known(self.opcode)?;
        validate_packet(opcode.into(), self.context_id, self.body.len())?;
        out.reserve(HNSR_HEADER_SIZE + self.body.len());
        out.extend_from_slice(&[HNSR_VERSION, opcode.into(), 0, 0]);
        out.extend_from_slice(&self.context_id);
        out.extend_from_slice(self.body);
        Ok(())
    }

    /// The packet that these bytes are, all of them. The body stays where it is.
    ///
    /// ```
    /// use lekchnam_host::{EnvelopeError, HnsrPacket};
    ///
    /// assert_eq!(HnsrPacket::decode(b"\x02"), Err(EnvelopeError::UnknownVersion));
    /// assert_eq!(
    ///     HnsrPacket::decode(b"\x01\x11\x00\x00abc").unwrap_err().to_string(),
    ///     "unexpected end of input at byte 4; needed 5 more byte(s)"
    /// );
    /// ```
    pub fn decode(input: &'a [u8]) -> Result<Self, EnvelopeError> {
        if input.len() > MAX_PACKET_SIZE {
            return Err(ProtocolError::TooLarge { actual: input.len(), maximum: MAX_PACKET_SIZE }.into());
        }
        if field(input, VERSION)? != [HNSR_VERSION] {
            return Err(EnvelopeError::UnknownVersion);
        }
        let [opcode] = field(input, OPCODE)?;
        let opcode = known(opcode.into())?;
        if field(input, FLAGS)? != [0, 0] {
            return Err(EnvelopeError::ReservedFlags);
        }
        let context_id = field(input, CONTEXT)?;
        Ok(Self::new(opcode, context_id, &input[HNSR_HEADER_SIZE..])?)
    }
}

/// The opcode, if it is a message's.
fn known(opcode: HnsrOpcode) -> Result<HnsrOpcode, EnvelopeError> {
    match opcode {
        HnsrOpcode::Unknown(unknown) => Err(EnvelopeError::UnknownOpcode(unknown)),
        named => Ok(named),
    }
}

/// The field that starts at `offset`; the fields in front of it are there.
fn field<const LENGTH: usize>(input: &[u8], offset: usize) -> Result<[u8; LENGTH], ProtocolError> {
    let rest = &input[offset..];
    rest.first_chunk().copied().ok_or_else(|| ProtocolError::UnexpectedEnd { offset, needed: LENGTH - rest.len() })
}
