//! The kernel's random bytes.
use std::io::{self, Read};

extern "C" {
    /// `getrandom(2)`, by the C library.
    fn getrandom(buffer: *mut u8, length: usize, flags: u32) -> isize;
}

/// Reads from the pool of `/dev/urandom`, and waits where that is not ready yet: flags are 0. A read may be short or
/// interrupted, for which `read_exact` reads on.
pub struct Kernel;

impl Read for Kernel {
    fn read(&mut self, room: &mut [u8]) -> io::Result<usize> {
        // SAFETY: pointer and length are of one slice that is borrowed for writing; the call writes
        // inside of it and keeps no pointer.
        let count = unsafe { getrandom(room.as_mut_ptr(), room.len(), 0) };
        usize::try_from(count).map_err(|_| io::Error::last_os_error())
    }
}
