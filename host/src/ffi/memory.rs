//! Memory that is zero from the start, as the system hands it out, and that nobody has touched.
use crate::lent::{InflightAction, RelayCircuit, RelayPending, ReservationUsage};
use std::alloc::{alloc_zeroed, Layout};

/// A type of which zero bytes are a value.
///
/// # Safety
///
/// Zero bytes, as many as the type has and there are some, are a value of it.
pub unsafe trait Zeroed: Copy {}

// SAFETY: a number of four bytes.
unsafe impl Zeroed for u32 {}
// SAFETY: the records are made of numbers, of arrays of bytes, and of `bool`s, of which zero is `false`: no field is
// an enum, a reference or a pointer. `zero_bytes_are_an_unused_record` holds each to its `Default`.
unsafe impl Zeroed for RelayPending {}
// SAFETY: as above.
unsafe impl Zeroed for RelayCircuit {}
// SAFETY: as above.
unsafe impl Zeroed for ReservationUsage {}
// SAFETY: as above; `kind` is a number, of which every one is allowed.
unsafe impl Zeroed for InflightAction {}

/// So many values of zero bytes; none where the memory cannot be had. A large block comes from the system as it is,
/// so it takes no memory before it is written to.
pub fn zeroed<Value: Zeroed>(count: usize) -> Option<Vec<Value>> {
    const { assert!(size_of::<Value>() > 0) };
    if count == 0 {
        return Some(Vec::new());
    }
    let layout = Layout::array::<Value>(count).ok()?;
    // SAFETY: the layout has bytes: there is a value, and it has bytes.
    let first = unsafe { alloc_zeroed(layout) }.cast::<Value>();
    if first.is_null() {
        return None;
    }
    // SAFETY: the block is the global allocator's, for just so many values, with their alignment; each is zero bytes,
    // which are a value; and nobody else has the block.
    Some(unsafe { Vec::from_raw_parts(first, count, count) })
}

#[cfg(test)]
mod tests {
    use super::*;
    use std::fmt::Debug;

    /// Every field, also what stands behind a name, which `==` does not look at.
    fn as_by_default<Record: Zeroed + Default + Debug>() {
        let unused = format!("{:?}", Record::default());
        let records = zeroed::<Record>(3).expect("some hundred bytes");
        assert_eq!(records.iter().map(|record| format!("{record:?}")).collect::<Vec<_>>(), [&*unused; 3]);
        assert!(unused.contains("used: false"), "{unused}");
    }

    #[test]
    fn zero_bytes_are_an_unused_record() {
        as_by_default::<RelayPending>();
        as_by_default::<RelayCircuit>();
        as_by_default::<ReservationUsage>();
        as_by_default::<InflightAction>();
        assert_eq!(zeroed::<u32>(3), Some(vec![0; 3]));
    }

    #[test]
    fn memory_that_cannot_be_had_is_none() {
        assert_eq!(zeroed::<u32>(0), Some(Vec::new()));
        for count in [usize::MAX, usize::MAX / 4, isize::MAX as usize, isize::MAX as usize / 4] {
            assert_eq!(zeroed::<u32>(count), None);
        }
    }

    /// The block is the `Vec`'s own: it grows, shrinks and is given back as any other.
    #[test]
    fn it_is_a_vector_like_any_other() {
        let mut words = zeroed::<u32>(100_000).expect("400,000 bytes");
        words.push(7);
        words.truncate(2);
        words.shrink_to_fit();
        assert_eq!(words, [0, 0]);
    }
}
