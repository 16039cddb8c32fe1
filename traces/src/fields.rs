//! The fields of a line, split by one space, one after the other.
use crate::bytes::unhex;
use std::str::{FromStr, Split};

pub struct Fields<'line>(Split<'line, char>);

impl<'line> Fields<'line> {
    pub fn of(text: &'line str) -> Self {
        Self::split(text, ' ')
    }

    pub fn split(text: &'line str, by: char) -> Self {
        Self(text.split(by))
    }

    pub fn next(&mut self, name: &str) -> Result<&'line str, String> {
        self.0.next().ok_or_else(|| format!("{name} is missing"))
    }

    pub fn number<Number: FromStr>(&mut self, name: &str) -> Result<Number, String> {
        let text = self.next(name)?;
        text.parse().map_err(|_| format!("{name} is not a number, or too large: {text:?}"))
    }

    /// A number in hex.
    pub fn hex(&mut self, name: &str) -> Result<u64, String> {
        let text = self.next(name)?;
        u64::from_str_radix(text, 16).map_err(|_| format!("{name} is not hex, or too long: {text:?}"))
    }

    pub fn flag(&mut self, name: &str) -> Result<bool, String> {
        match self.next(name)? {
            "0" => Ok(false),
            "1" => Ok(true),
            text => Err(format!("{name} is neither 0 nor 1: {text:?}")),
        }
    }

    pub fn bytes(&mut self, name: &str) -> Result<Vec<u8>, String> {
        unhex(self.next(name)?).map_err(|reason| format!("{name}: {reason}"))
    }

    pub fn array<const N: usize>(&mut self, name: &str) -> Result<[u8; N], String> {
        self.bytes(name)?.try_into().map_err(|bytes: Vec<u8>| format!("{name} has {} bytes and not {N}", bytes.len()))
    }

    /// How many fields are left.
    pub fn left(&self) -> usize {
        self.0.clone().count()
    }

    pub fn end(mut self) -> Result<(), String> {
        self.0.next().map_or(Ok(()), |text| Err(format!("one field too many: {text:?}")))
    }
}
