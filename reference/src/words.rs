//! Instruction words: opcodes, formats and their fields.

use crate::{demand, refusal, Refusal};

/// 004's formats, in the order that numbers them among the fields.
#[derive(Clone, Copy, PartialEq, Eq)]
pub(crate) enum Format {
    F0,
    F1,
    F1i,
    F1u,
    F1c,
    F2,
    F3,
    F4,
    F5,
    F5i,
}

use Format::*;

#[derive(Clone, Copy)]
pub(crate) struct Operation {
    /// The lowest opcode of the operation's entry.
    pub number: u8,
    pub format: Format,
    pub name: &'static str,
}

pub(crate) const MOVA: u32 = 0x12;
pub(crate) const BREAK: u32 = 0x20;
pub(crate) const END: u32 = 0x22;
pub(crate) const BREAKC: u32 = 0x23;
pub(crate) const CALL: u32 = 0x24;
pub(crate) const CALLC: u32 = 0x25;
pub(crate) const CALLU: u32 = 0x26;
pub(crate) const IFU: u32 = 0x27;
pub(crate) const IFC: u32 = 0x28;
pub(crate) const LOOP: u32 = 0x29;
pub(crate) const EMIT: u32 = 0x2A;
pub(crate) const SETEMIT: u32 = 0x2B;
pub(crate) const JMPC: u32 = 0x2C;
pub(crate) const JMPU: u32 = 0x2D;

/// First and last opcode, format and name of each operation.
const ENTRIES: [(u8, u8, Format, &str); 39] = [
    (0x00, 0x00, F1, "ADD"),
    (0x01, 0x01, F1, "DP3"),
    (0x02, 0x02, F1, "DP4"),
    (0x03, 0x03, F1, "DPH"),
    (0x04, 0x04, F1, "DST"),
    (0x05, 0x05, F1u, "EX2"),
    (0x06, 0x06, F1u, "LG2"),
    (0x07, 0x07, F1u, "LITP"),
    (0x08, 0x08, F1, "MUL"),
    (0x09, 0x09, F1, "SGE"),
    (0x0A, 0x0A, F1, "SLT"),
    (0x0B, 0x0B, F1u, "FLR"),
    (0x0C, 0x0C, F1, "MAX"),
    (0x0D, 0x0D, F1, "MIN"),
    (0x0E, 0x0E, F1u, "RCP"),
    (0x0F, 0x0F, F1u, "RSQ"),
    (0x12, 0x12, F1u, "MOVA"),
    (0x13, 0x13, F1u, "MOV"),
    (0x18, 0x18, F1i, "DPHI"),
    (0x19, 0x19, F1i, "DSTI"),
    (0x1A, 0x1A, F1i, "SGEI"),
    (0x1B, 0x1B, F1i, "SLTI"),
    (0x20, 0x20, F0, "BREAK"),
    (0x21, 0x21, F0, "NOP"),
    (0x22, 0x22, F0, "END"),
    (0x23, 0x23, F2, "BREAKC"),
    (0x24, 0x24, F2, "CALL"),
    (0x25, 0x25, F2, "CALLC"),
    (0x26, 0x26, F3, "CALLU"),
    (0x27, 0x27, F3, "IFU"),
    (0x28, 0x28, F2, "IFC"),
    (0x29, 0x29, F3, "LOOP"),
    (0x2A, 0x2A, F0, "EMIT"),
    (0x2B, 0x2B, F4, "SETEMIT"),
    (0x2C, 0x2C, F2, "JMPC"),
    (0x2D, 0x2D, F3, "JMPU"),
    (0x2E, 0x2F, F1c, "CMP"),
    (0x30, 0x37, F5i, "MADI"),
    (0x38, 0x3F, F5, "MAD"),
];

static OPERATIONS: [Option<Operation>; 64] = {
    let mut all = [None; 64];
    let mut entry = 0;
    while entry < ENTRIES.len() {
        let (first, last, format, name) = ENTRIES[entry];
        let mut opcode = first;
        while opcode <= last {
            all[opcode as usize] = Some(Operation {
                number: first,
                format,
                name,
            });
            opcode += 1;
        }
        entry += 1;
    }
    all
};

/// Lowest bit and width of each format's fields, from bit 0 up; the bits that
/// the format does not name come last.
pub(crate) const FIELDS: [&[(u32, u32)]; 10] = [
    &[(0, 26)],
    &[(0, 7), (7, 5), (12, 7), (19, 2), (21, 5)],
    &[(0, 7), (7, 7), (14, 5), (19, 2), (21, 5)],
    &[(0, 7), (12, 7), (19, 2), (21, 5), (7, 5)],
    &[(0, 7), (7, 5), (12, 7), (19, 2), (21, 3), (24, 3)],
    &[(0, 8), (10, 12), (22, 2), (24, 1), (25, 1), (8, 2)],
    &[(0, 8), (10, 12), (22, 4), (8, 2)],
    &[(22, 1), (23, 1), (24, 2), (0, 22)],
    &[(0, 5), (5, 5), (10, 7), (17, 5), (22, 2), (24, 5)],
    &[(0, 5), (5, 7), (12, 5), (17, 5), (22, 2), (24, 5)],
];

/// `width` bits of a word or descriptor from bit `lowest` up; width under 32.
#[inline]
pub(crate) fn bits(word: u32, lowest: u32, width: u32) -> u32 {
    word >> lowest & ((1 << width) - 1)
}

#[inline]
pub(crate) fn opcode(word: u32) -> u32 {
    word >> 26
}

#[inline]
pub(crate) fn operation(word: u32) -> Option<&'static Operation> {
    OPERATIONS[opcode(word) as usize].as_ref()
}

/// DST of formats 2 and 3.
#[inline]
pub(crate) fn target(word: u32) -> usize {
    bits(word, 10, 12) as usize
}

/// NUM of formats 2 and 3.
#[inline]
pub(crate) fn length(word: u32) -> usize {
    bits(word, 0, 8) as usize
}

/// The bool or integer register of format 3.
#[inline]
pub(crate) fn register(word: u32) -> usize {
    bits(word, 22, 4) as usize
}

/// The descriptor ID, if words of this format have one. MAD's has 5 bits.
#[inline]
pub(crate) fn descriptor(word: u32, format: Format) -> Option<u32> {
    match format {
        F1 | F1i | F1u | F1c => Some(bits(word, 0, 7)),
        F5 | F5i => Some(bits(word, 0, 5)),
        F0 | F2 | F3 | F4 => None,
    }
}

/// Refusals 9 to 12 of the word at `index`.
pub(crate) fn check(word: u32, index: usize, descriptors: u32) -> Result<(), Refusal> {
    let operation = operation(word).ok_or(refusal(9, index))?;
    if operation.format == F1c {
        demand(bits(word, 21, 3) < 6 && bits(word, 24, 3) < 6, 10, index)?;
    }
    if let Some(id) = descriptor(word, operation.format) {
        demand(id < descriptors, 11, index)?;
    }
    demand(opcode(word) != LOOP || register(word) < 4, 12, index)
}

/// A word taken apart. Formats are numbered 0 to 9 in the order 0, 1, 1i, 1u,
/// 1c, 2, 3, 4, 5, 5i; the fields are the operation's number, the named fields
/// from bit 0 up, the unnamed bits if there are any, then zeros.
#[derive(Clone, Copy, PartialEq, Eq, Debug)]
pub struct Decoded {
    pub format: u32,
    pub fields: [u32; 8],
}

/// Takes a word apart; an unknown opcode gives 9.
pub fn decode(word: u32) -> Result<Decoded, Refusal> {
    let operation = operation(word).ok_or(refusal(9, 0))?;
    let format = operation.format as usize;
    let mut fields = [0; 8];
    fields[0] = u32::from(operation.number);
    for (field, &(lowest, width)) in fields[1..].iter_mut().zip(FIELDS[format]) {
        *field = bits(word, lowest, width);
    }
    Ok(Decoded {
        format: format as u32,
        fields,
    })
}

/// Puts a word together from what `decode` gives; anything else gives 31.
/// Fields after the eighth are not looked at.
pub fn encode(format: u32, fields: &[u32]) -> Result<u32, Refusal> {
    put_together(format as usize, fields).ok_or(refusal(31, 0))
}

fn put_together(format: usize, fields: &[u32]) -> Option<u32> {
    let layout = FIELDS.get(format)?;
    let &[number, ref rest @ ..] = fields.first_chunk::<8>()?;
    let operation = OPERATIONS.get(number as usize)?.as_ref()?;
    if u32::from(operation.number) != number || operation.format as usize != format {
        return None;
    }
    // The lowest opcode of CMP, MADI and MAD has zeros in the bits that
    // belong to their first field, so it serves as their short opcode.
    let mut word = number << 26;
    let (named, beyond) = rest.split_at(layout.len());
    for (&field, &(lowest, width)) in named.iter().zip(*layout) {
        if field >> width != 0 {
            return None;
        }
        word |= field << lowest;
    }
    beyond.iter().all(|&field| field == 0).then_some(word)
}
