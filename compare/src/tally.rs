//! What the comparison went through, and its print.
use crate::files::{LONG, MOST_LONG};
use std::fmt::{Display, Formatter, Result};
use std::ops::AddAssign;

#[derive(Clone, Copy, Default)]
pub struct Tally {
    /// Files by the number that refuses them; 0: accepted.
    pub files: [u64; 29],
    pub reports: u64,
    pub texts: u64,
    pub walks: u64,
    pub steps: u64,
    pub longest_walk: u32,
    /// Executables with a high total that were not walked.
    pub unwalked: u64,
    pub constants: u64,
    pub decoded: u64,
    pub encoded: u64,
}

impl Tally {
    /// The refusals of the check that no file met.
    pub fn unmet(&self) -> Vec<usize> {
        (1..=28).filter(|&n| self.files[n] == 0).collect()
    }
}

impl AddAssign for Tally {
    fn add_assign(&mut self, other: Tally) {
        for (count, more) in self.files.iter_mut().zip(other.files) {
            *count += more;
        }
        self.reports += other.reports;
        self.texts += other.texts;
        self.walks += other.walks;
        self.steps += other.steps;
        self.longest_walk = self.longest_walk.max(other.longest_walk);
        self.unwalked += other.unwalked;
        self.constants += other.constants;
        self.decoded += other.decoded;
        self.encoded += other.encoded;
    }
}

impl Display for Tally {
    fn fmt(&self, f: &mut Formatter) -> Result {
        let all: u64 = self.files.iter().sum();
        writeln!(f, "{all} files, {} of them accepted", self.files[0])?;
        for (number, count) in self.files.iter().enumerate().skip(1) {
            writeln!(f, "  refusal {number:2}: {count}")?;
        }
        writeln!(f, "{} reports", self.reports)?;
        writeln!(f, "{} listings and summaries", self.texts)?;
        let (walks, steps, longest) = (self.walks, self.steps, self.longest_walk);
        writeln!(f, "{walks} walks, {steps} steps in all, {longest} at most")?;
        let unwalked = self.unwalked;
        writeln!(f, "  {unwalked} executables not walked: in a file those after the first {MOST_LONG} with totals over {LONG}")?;
        writeln!(f, "{} constants", self.constants)?;
        write!(
            f,
            "{} words decoded, {} encoded",
            self.decoded, self.encoded
        )
    }
}
