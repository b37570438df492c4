//! Constants and the float24 words they are made of.

/// A constant as a caller gets it.
#[derive(Clone, Copy, PartialEq, Debug)]
pub enum Constant {
    Bool(bool),
    Bytes([u8; 4]),
    Vector([f32; 4]),
}

impl Constant {
    /// The constant of a table entry, or None if the entry is bad.
    pub(crate) fn read(entry: &[u8; 20]) -> Option<Constant> {
        let id = entry[2];
        match entry[0] {
            0 if id < 16 && entry[4] < 2 => Some(Constant::Bool(entry[4] == 1)),
            1 if id < 4 => Some(Constant::Bytes([entry[4], entry[5], entry[6], entry[7]])),
            2 if id < 96 => vector(entry),
            _ => None,
        }
    }
}

fn vector(entry: &[u8; 20]) -> Option<Constant> {
    let mut values = [0.0; 4];
    for (value, bytes) in values.iter_mut().zip(entry[4..].as_chunks().0) {
        *value = float24(u32::from_le_bytes(*bytes))?;
    }
    Some(Constant::Vector(values))
}

/// 1 sign, 7 exponent (bias 63) and 16 fraction bits. Every exponent but 0
/// and 127 has an exact f32; of exponent 0 only the zeros are taken.
pub(crate) fn float24(word: u32) -> Option<f32> {
    let sign = word >> 23 & 1;
    let exponent = word >> 16 & 0x7F;
    let fraction = word & 0xFFFF;
    let magnitude = match exponent {
        _ if word >> 24 != 0 => return None,
        0 if fraction == 0 => 0,
        1..=126 => (exponent + 64) << 23 | fraction << 7,
        _ => return None,
    };
    Some(f32::from_bits(sign << 31 | magnitude))
}
