//! How often each answer came.
use std::collections::BTreeMap;
use std::fmt::{self, Display, Formatter};

#[derive(Clone, Debug, Default)]
pub struct Counts(BTreeMap<u8, u64>);

impl Counts {
    pub fn add(&mut self, number: u8) {
        *self.0.entry(number).or_default() += 1;
    }

    pub fn of(&self, number: u8) -> u64 {
        self.0.get(&number).copied().unwrap_or(0)
    }

    pub fn total(&self) -> u64 {
        self.0.values().sum()
    }
}

impl Display for Counts {
    fn fmt(&self, f: &mut Formatter<'_>) -> fmt::Result {
        let counts: Vec<String> = self.0.iter().map(|(number, count)| format!("{number}: {count}")).collect();
        f.write_str(&counts.join(", "))
    }
}
