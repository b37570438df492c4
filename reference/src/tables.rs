//! The entries of an executable's tables.

use crate::{refusal, Constant, Refusal};

/// The tables of one executable, by entries.
pub(crate) struct Tables<'a> {
    pub constants: &'a [[u8; 20]],
    pub labels: &'a [[u8; 16]],
    pub outputs: &'a [[u8; 8]],
    pub uniforms: &'a [[u8; 8]],
    pub symbols: &'a [u8],
}

impl Tables<'_> {
    /// Refusals 18 to 21, each at its entry.
    pub fn check(&self, word_count: u32) -> Result<(), Refusal> {
        // A name meets a 00 inside the symbols exactly if it starts no later
        // than the last one; so one search serves all names.
        let last_zero = self.symbols.iter().rposition(|&byte| byte == 0);
        let good_name = |at: u32| last_zero.is_some_and(|last| at as usize <= last);

        every(self.constants, 18, |entry| Constant::read(entry).is_some())?;
        every(self.labels, 19, |entry| {
            u32_of(entry, 4) <= word_count && good_name(u32_of(entry, 12))
        })?;
        every(self.outputs, 20, good_output)?;
        every(self.uniforms, 21, |entry| {
            good_registers(entry) && good_name(u32_of(entry, 0))
        })
    }
}

/// Refuses with `number` at the first entry that is not good.
fn every<E>(entries: &[E], number: u32, good: impl Fn(&E) -> bool) -> Result<(), Refusal> {
    match entries.iter().position(|entry| !good(entry)) {
        Some(bad) => Err(refusal(number, bad)),
        None => Ok(()),
    }
}

fn good_output(entry: &[u8; 8]) -> bool {
    let kind = u16_of(entry, 0);
    let register = u16_of(entry, 2);
    let mask = u16_of(entry, 4);
    (kind <= 6 || kind == 8) && register <= 15 && (1..=15).contains(&mask)
}

/// Start and end in order and of one kind of register.
fn good_registers(entry: &[u8; 8]) -> bool {
    let start = u16_of(entry, 4);
    let end = u16_of(entry, 6);
    let kinds = [0x00..=0x0F, 0x10..=0x6F, 0x70..=0x73, 0x78..=0x87];
    start <= end
        && kinds
            .iter()
            .any(|kind| kind.contains(&start) && kind.contains(&end))
}

fn u16_of<const N: usize>(entry: &[u8; N], at: usize) -> u16 {
    u16::from_le_bytes([entry[at], entry[at + 1]])
}

fn u32_of<const N: usize>(entry: &[u8; N], at: usize) -> u32 {
    u32::from_le_bytes([entry[at], entry[at + 1], entry[at + 2], entry[at + 3]])
}
