//! The middle of many numbers. `peer_work` has this file too.

/// Of no numbers it is not a number.
pub fn median(list: &mut [f64]) -> f64 {
    list.sort_unstable_by(f64::total_cmp);
    list.get(list.len() / 2).copied().unwrap_or(f64::NAN)
}
