//! Packets over a byte stream: the packet's size in two bytes, the lower first, and then the packet's own bytes
//! ([`HnsrPacket::encode`]).
//!
//! No packet has more than 65,535 bytes, so every size can be written, and whoever reads holds no more than one packet
//! that is not whole. A size that is less than a header's is refused before its bytes are waited for, and a header that
//! is wrong before its body is.
//!
//! A host that waits for each connection in a thread of its own takes [`read_packet`] and [`write_packet`]. One that
//! does not wait puts what has come into a [`FrameDecoder`], and what is to go behind what still waits, by
//! [`append_packet`].
//!
//! ```
//! use lekchnam_host::stream::{read_packet, write_packet};
//! use lekchnam_host::{HnsrOpcode, HnsrPacket};
//!
//! let packet = HnsrPacket::new(HnsrOpcode::Data, *b"circuit1", b"invoice")?;
//! let mut connection = Vec::new();
//! write_packet(&mut connection, &packet)?;
//! assert_eq!(connection[..2], 19_u16.to_le_bytes());
//!
//! let (mut reader, mut buffer) = (&connection[..], Vec::new());
//! assert_eq!(read_packet(&mut reader, &mut buffer)?, Some(packet));
//! assert_eq!(read_packet(&mut reader, &mut buffer)?, None);
//! # Ok::<(), Box<dyn std::error::Error>>(())
//! ```
use crate::body::ProtocolError;
use crate::envelope::EnvelopeError;
use crate::limits::{FRAME_PREFIX_SIZE, HNSR_HEADER_SIZE, MAX_PACKET_SIZE};
use crate::packet::HnsrPacket;
use std::io::{self, ErrorKind, Read, Write};

type Prefix = [u8; FRAME_PREFIX_SIZE];

const _: () = assert!(MAX_PACKET_SIZE <= u16::MAX as usize);

/// Takes bytes in pieces of any size, and hands out the packets that are whole.
///
/// A host pushes what it has read and takes packets until there is none. Then the decoder holds less than one packet.
/// Where a packet is refused and has to be offered again, the host keeps it ([`HnsrPacket::to_buf`]) and reads no more
/// from that connection until it is taken: what was pushed stays here.
///
/// ```
/// use lekchnam_host::stream::{append_packet, FrameDecoder};
/// use lekchnam_host::{EnvelopeError, HnsrOpcode, HnsrPacket};
///
/// let packet = HnsrPacket::new(HnsrOpcode::Data, *b"circuit1", b"invoice")?;
/// let mut bytes = Vec::new();
/// append_packet(&mut bytes, &packet)?;
///
/// let mut decoder = FrameDecoder::default();
/// decoder.push(&bytes[..5]);
/// assert_eq!(decoder.next_packet(), Ok(None));
/// decoder.push(&bytes[5..]);
/// assert_eq!(decoder.next_packet(), Ok(Some(packet)));
/// assert_eq!(decoder.next_packet(), Ok(None));
/// assert_eq!(decoder.waiting(), 0);
///
/// // No packet has five bytes. From here on the stream means nothing.
/// decoder.push(&[5, 0]);
/// assert!(decoder.next_packet().is_err());
/// decoder.push(&bytes);
/// assert!(decoder.next_packet().is_err());
/// # Ok::<(), EnvelopeError>(())
/// ```
#[derive(Clone, Debug, Default)]
pub struct FrameDecoder {
    bytes: Vec<u8>,
    /// How many bytes in front were handed out.
    taken: usize,
}

impl FrameDecoder {
    /// Takes bytes. Behind bytes that are no packet nothing is taken any more.
    pub fn push(&mut self, bytes: &[u8]) {
        if first_packet(self.rest()).is_err() {
            return;
        }
        // Only where no more bytes move than have gone, so that all moves together are no more than all bytes.
        if self.taken >= self.waiting() {
            self.bytes.drain(..self.taken);
            self.taken = 0;
        }
        self.bytes.extend_from_slice(bytes);
    }

    /// The next packet, or none until more is pushed. An error stays: the connection is to be closed.
    pub fn next_packet(&mut self) -> Result<Option<HnsrPacket<'_>>, EnvelopeError> {
        let packet = first_packet(&self.bytes[self.taken..])?;
        if let Some(packet) = packet {
            self.taken += FRAME_PREFIX_SIZE + HNSR_HEADER_SIZE + packet.body.len();
        }
        Ok(packet)
    }

    /// How many bytes were pushed and not handed out. Where the connection ends, and there are some and no packet, it
    /// ended inside a packet.
    pub fn waiting(&self) -> usize {
        self.rest().len()
    }

    fn rest(&self) -> &[u8] {
        &self.bytes[self.taken..]
    }
}

/// The packet in front, if it is whole.
fn first_packet(bytes: &[u8]) -> Result<Option<HnsrPacket<'_>>, EnvelopeError> {
    let Some((prefix, rest)) = bytes.split_first_chunk() else { return Ok(None) };
    let size = size_of_packet(*prefix)?;
    if rest.len() < HNSR_HEADER_SIZE {
        return Ok(None);
    }
    let packet = HnsrPacket::decode(&rest[..size.min(rest.len())])?;
    Ok((size <= rest.len()).then_some(packet))
}

/// The size in front of a packet, if a packet can have it. The header counts as one field.
fn size_of_packet(prefix: Prefix) -> Result<usize, EnvelopeError> {
    let size = usize::from(u16::from_le_bytes(prefix));
    match HNSR_HEADER_SIZE.checked_sub(size) {
        None | Some(0) => Ok(size),
        Some(needed) => Err(ProtocolError::UnexpectedEnd { offset: 0, needed }.into()),
    }
}

/// Puts a packet, its size in front, behind what `out` has. A refusal leaves `out`.
pub fn append_packet(out: &mut Vec<u8>, packet: &HnsrPacket<'_>) -> Result<(), EnvelopeError> {
    let start = out.len();
    out.extend_from_slice(&Prefix::default());
    let encoded = packet.encode_into(out);
    match encoded {
        Ok(()) => {
            let size = out.len() - start - FRAME_PREFIX_SIZE;
            out[start..start + FRAME_PREFIX_SIZE].copy_from_slice(&(size as u16).to_le_bytes());
        }
        Err(_) => out.truncate(start),
    }
    encoded
}

/// Writes a packet, its size in front, by one `write_all`, and does not flush. A packet that cannot be encoded is
/// [`InvalidInput`](ErrorKind::InvalidInput), with the [`EnvelopeError`] inside, and nothing is written.
pub fn write_packet(writer: &mut impl Write, packet: &HnsrPacket<'_>) -> io::Result<()> {
    let mut frame = Vec::with_capacity(FRAME_PREFIX_SIZE + HNSR_HEADER_SIZE + packet.body.len());
    append_packet(&mut frame, packet).map_err(|wrong| io::Error::new(ErrorKind::InvalidInput, wrong))?;
    writer.write_all(&frame)
}

/// Reads one packet into the buffer, whatever that has, and waits for it; none where the stream ends in front of one.
///
/// Where it ends inside a packet, that is [`UnexpectedEof`](ErrorKind::UnexpectedEof). What is no packet is
/// [`InvalidData`](ErrorKind::InvalidData), with the [`EnvelopeError`] inside, as soon as its header is there. After an
/// error the place in the stream is lost, also after one that a read with a time limit gives: such a reader is for a
/// [`FrameDecoder`].
pub fn read_packet<'a>(reader: &mut impl Read, buffer: &'a mut Vec<u8>) -> io::Result<Option<HnsrPacket<'a>>> {
    let mut head = [0; FRAME_PREFIX_SIZE + HNSR_HEADER_SIZE];
    let read = read_some(reader, &mut head)?;
    if read == 0 {
        return Ok(None);
    }
    let begun = read.max(FRAME_PREFIX_SIZE);
    reader.read_exact(&mut head[read..begun])?;
    let size = size_of_packet([head[0], head[1]])?;
    reader.read_exact(&mut head[begun..])?;
    let header = &head[FRAME_PREFIX_SIZE..];
    HnsrPacket::decode(header)?;
    buffer.clear();
    buffer.extend_from_slice(header);
    buffer.resize(size, 0);
    reader.read_exact(&mut buffer[HNSR_HEADER_SIZE..])?;
    Ok(Some(HnsrPacket::decode(buffer)?))
}

/// [`InvalidData`](ErrorKind::InvalidData), with the error inside.
impl From<EnvelopeError> for io::Error {
    fn from(wrong: EnvelopeError) -> Self {
        Self::new(ErrorKind::InvalidData, wrong)
    }
}

/// Reads once, however often that is interrupted.
fn read_some(reader: &mut impl Read, room: &mut [u8]) -> io::Result<usize> {
    loop {
        match reader.read(room) {
            Err(error) if error.kind() == ErrorKind::Interrupted => {}
            other => return other,
        }
    }
}

#[cfg(test)]
mod tests {
    use super::*;
    use crate::limits::MAX_FRAME_SIZE;
    use crate::packet::HnsrOpcode;

    /// DATA of so many bytes, its size in front.
    fn frame(length: usize) -> Vec<u8> {
        let (mut frame, body) = (Vec::new(), vec![7; length]);
        let packet = HnsrPacket::new(HnsrOpcode::Data, [1; 8], &body).expect("a packet");
        append_packet(&mut frame, &packet).expect("a packet");
        frame
    }

    /// However much goes through, and however the pieces lie.
    #[test]
    fn the_memory_of_a_decoder_is_bounded() {
        let lengths = (0..40_000).step_by(77);
        let stream: Vec<u8> = lengths.clone().flat_map(frame).collect();
        let (mut decoder, mut packets) = (FrameDecoder::default(), 0);
        for piece in stream.chunks(MAX_PACKET_SIZE) {
            decoder.push(piece);
            while decoder.next_packet().expect("good packets").is_some() {
                packets += 1;
            }
        }
        assert!(stream.len() > 100 * MAX_FRAME_SIZE);
        assert_eq!((packets, decoder.waiting()), (lengths.len(), 0));
        assert!(decoder.bytes.capacity() <= 6 * MAX_FRAME_SIZE, "{} bytes", decoder.bytes.capacity());
    }

    /// A host that takes one packet for each push, however small, does not make the rest move each time.
    #[test]
    fn no_more_bytes_move_than_were_pushed() {
        let stream = frame(9).repeat(1_000);
        let (mut decoder, mut moved) = (FrameDecoder::default(), 0);
        decoder.push(&stream);
        while decoder.next_packet().expect("good packets").is_some() {
            decoder.push(&[]);
            moved += if decoder.taken == 0 { decoder.waiting() } else { 0 };
        }
        assert!((1..=stream.len()).contains(&moved), "{moved} bytes moved, of {}", stream.len());
    }
}
