//! Where the ids of circuits come from.
use crate::ffi::random::Kernel;
use std::io::{self, Read};

/// The random bytes that an OPEN is given, the least that cannot run short.
///
/// An id is drawn from eight bytes. Eight draws of zero in a row refuse, and so do eight ids that are taken; an id
/// that is taken starts the row anew. So at the most there are seven zeros in front of each of eight ids: 64 draws.
pub const RANDOM_BYTES: usize = 8 * 8 * 8;

/// Random bytes for the ids of circuits.
pub trait RandomSource {
    /// Puts random bytes into `room` from its front on and says how many.
    ///
    /// They are the ids of the circuits, so nobody should be able to guess them. An OPEN whose draws run out is
    /// refused with 8 ([`Randomness`](crate::HnsrRuntimeError::Randomness)): a source that has no bytes answers 0. An
    /// 8 also comes of draws that are all zero or taken; so a source that can fail keeps why, and the host asks it by
    /// [`random`](crate::OpaqueRelayRuntime::random), as it asks [`OsRandom::failure`].
    fn supply(&mut self, room: &mut [u8]) -> usize;
}

impl<F: FnMut(&mut [u8]) -> usize> RandomSource for F {
    fn supply(&mut self, room: &mut [u8]) -> usize {
        self(room)
    }
}

/// The operating system's, by `getrandom(2)`: all the bytes that are asked for, or none.
///
/// ```
/// use lekchnam_host::{HnsrRuntimeError, OpaqueRelayRuntime};
///
/// /// What a host makes of an OPEN that is refused.
/// fn told(relay: &OpaqueRelayRuntime, refused: HnsrRuntimeError) -> String {
///     match (refused, relay.random().failure()) {
///         (HnsrRuntimeError::Randomness, Some(failure)) => format!("no random bytes: {failure}"),
///         (HnsrRuntimeError::Randomness, None) => "no id was free in eight draws".to_owned(),
///         (refused, _) => refused.to_string(),
///     }
/// }
/// ```
#[derive(Debug, Default)]
pub struct OsRandom {
    failure: Option<io::Error>,
}

impl OsRandom {
    /// Why there were no bytes when they were last asked for, which every OPEN does; none if there were.
    pub fn failure(&self) -> Option<&io::Error> {
        self.failure.as_ref()
    }

    fn supply_by(&mut self, mut kernel: impl Read, room: &mut [u8]) -> usize {
        self.failure = kernel.read_exact(room).err();
        if self.failure.is_none() {
            room.len()
        } else {
            0
        }
    }
}

impl RandomSource for OsRandom {
    fn supply(&mut self, room: &mut [u8]) -> usize {
        self.supply_by(Kernel, room)
    }
}

#[cfg(test)]
mod tests {
    use super::*;

    /// Answers as `getrandom` may, each answer once: so many bytes, or an error.
    struct Answering(Vec<Result<usize, io::ErrorKind>>);

    impl Read for Answering {
        fn read(&mut self, room: &mut [u8]) -> io::Result<usize> {
            let count = self.0.remove(0)?;
            room[..count].fill(7);
            Ok(count)
        }
    }

    #[test]
    fn short_and_interrupted_reads_go_on() {
        let mut room = [0; 8];
        let answers = vec![Ok(3), Err(io::ErrorKind::Interrupted), Ok(1), Ok(4)];
        let mut source = OsRandom::default();
        assert_eq!(source.supply_by(Answering(answers), &mut room), 8);
        assert_eq!(room, [7; 8]);
        assert!(source.failure().is_none());
    }

    #[test]
    fn a_failure_is_kept_until_bytes_are_had_again() {
        let mut source = OsRandom::default();
        for (answers, kind) in [
            (vec![Err(io::ErrorKind::Unsupported)], io::ErrorKind::Unsupported),
            (vec![Ok(7), Err(io::ErrorKind::PermissionDenied)], io::ErrorKind::PermissionDenied),
            (vec![Ok(7), Ok(0)], io::ErrorKind::UnexpectedEof),
        ] {
            assert_eq!(source.supply_by(Answering(answers), &mut [0; 8]), 0);
            assert_eq!(source.failure().map(io::Error::kind), Some(kind));
        }
        assert_eq!(source.supply(&mut [0; 8]), 8);
        assert!(source.failure().is_none());
    }
}
