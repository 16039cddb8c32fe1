//! How much is measured.
use std::time::Duration;

pub struct Plan {
    /// The table sizes that are compared, in actions. The last is the one whose levels are measured.
    pub sizes: &'static [usize],
    /// How many actions are outstanding where cost is shown against use, in tables of the last size.
    pub outstanding: &'static [usize],
    /// For how long a turn is made again and again.
    pub budget: Duration,
    /// How many relays end at each level that has a load.
    pub endings: [usize; 4],
    /// How many new relays are made, each in a process of its own.
    pub processes: usize,
}

impl Plan {
    /// The figures of the page: the last size is the default configuration's.
    pub const WHOLE: Self = Self {
        sizes: &[64, 1_024, 8_192, 65_536],
        outstanding: &[256, 1_024, 4_096, 16_384, 65_536],
        budget: Duration::from_millis(1_500),
        endings: [9, 5, 3, 1],
        processes: 15,
    };

    /// Just enough to see that the program works.
    pub const SHORT: Self = Self {
        sizes: &[64, 1_024, 8_192],
        outstanding: &[256, 1_024, 8_192],
        budget: Duration::from_millis(50),
        endings: [1; 4],
        processes: 3,
    };

    /// The table size whose levels are measured.
    pub fn actions(&self) -> usize {
        *self.sizes.last().expect("there are sizes")
    }
}
