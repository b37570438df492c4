//! The calls for C, in the form in which both implementations answer them.
use std::fmt;

/// A refusal's number in the upper 32 bits (0: none); in the lower its place, or without a refusal the value.
#[derive(Clone, Copy, PartialEq, Eq)]
pub struct Answer(pub u64);

impl Answer {
    pub fn refusal(number: u32, place: u32) -> Answer {
        Answer(u64::from(number) << 32 | u64::from(place))
    }

    pub fn number(self) -> u32 {
        (self.0 >> 32) as u32
    }

    /// The value, if nothing is refused.
    pub fn value(self) -> Option<u32> {
        (self.number() == 0).then_some(self.0 as u32)
    }
}

impl fmt::Display for Answer {
    fn fmt(&self, f: &mut fmt::Formatter) -> fmt::Result {
        match self.value() {
            Some(value) => write!(f, "value {value}"),
            None => write!(f, "refusal {} at {:08X}", self.number(), self.0 as u32),
        }
    }
}

/// What a walk is given beside the file.
#[derive(Clone, Copy, Debug)]
pub struct Run<'a> {
    pub executable: u32,
    pub bools: &'a [u8],
    pub ints: &'a [u8],
    pub truth: &'a [u8],
}

pub trait Calls: Sync {
    fn check(&self, file: &[u8]) -> Answer;
    fn report(&self, file: &[u8], executable: u32, out: &mut [u32]) -> Answer;
    fn list(&self, file: &[u8], out: &mut [u8]) -> Answer;
    fn summarize(&self, file: &[u8], out: &mut [u8]) -> Answer;
    fn walk(&self, file: &[u8], run: Run, fetched: &mut [u16]) -> Answer;
    fn constant(&self, file: &[u8], executable: u32, n: u32, out: &mut [u32]) -> Answer;
    fn decode(&self, word: u32, out: &mut [u32]) -> Answer;
    fn encode(&self, format: u32, fields: &[u32]) -> Answer;
}
