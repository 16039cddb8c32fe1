//! The archive's C functions, and the structs that only pass between; whether the archive is the one that is meant; one
//! function of the C library; and memory that is zero from the start. A slice is passed as its pointer and its length.
//! All that is unsafe stands here.
pub mod body;
pub mod interface;
#[cfg(test)]
mod layout;
pub mod memory;
pub mod random;
pub mod relay;

// Numbers of 64 bits are taken for `usize` and back, `bytes_of` reads words as they lie in memory, and random bytes are
// the kernel's.
#[cfg(not(all(target_arch = "x86_64", target_os = "linux", target_pointer_width = "64", target_endian = "little")))]
compile_error!(
    "liblekchnam.a has code for x86-64 Linux with pointers of 64 bits, and this target is another: build for one \
     such as x86_64-unknown-linux-gnu"
);

/// Why an input is refused; `error` has the names of the kinds.
#[repr(C)]
#[derive(Clone, Copy)]
pub struct Cause {
    pub kind: u32,
    pub first: u64,
    pub second: u64,
}

impl Cause {
    /// Of an answer that has none.
    pub const NONE: Self = Self { kind: 0, first: 0, second: 0 };
}

/// The bytes that words are made of (OUT.1).
pub fn bytes_of(words: &[u32]) -> &[u8] {
    // SAFETY: the same memory for as long; a byte has no alignment, and every byte of a word is a byte.
    unsafe { std::slice::from_raw_parts(words.as_ptr().cast(), size_of_val(words)) }
}
