//! Listing and report: records of 80 bytes.

use crate::layout::Library;
use crate::words::*;
use crate::{refusal, Refusal};

const RECORD: usize = 80;

const BLANK: [u8; RECORD] = {
    let mut bytes = [b' '; RECORD];
    bytes[RECORD - 1] = b'\n';
    bytes
};

/// One record for each word.
pub(crate) fn list(library: &Library, out: &mut [u8]) -> Result<u32, Refusal> {
    let records = records(out, library.words().len())?;
    for (index, (record, &word)) in records.iter_mut().zip(library.words()).enumerate() {
        let mut line = Line::new(record);
        line.hex(index as u32, 4);
        line.column(5);
        line.hex(word, 8);
        line.column(14);
        if let Some(operation) = operation(word) {
            line.text(operation.name);
            line.column(22);
            let id = descriptor(word, operation.format);
            let descriptor = id.map_or(0, |id| library.descriptor(id));
            line.operands(word, operation.format, descriptor);
        }
    }
    Ok((RECORD * records.len()) as u32)
}

/// One record for each executable.
pub(crate) fn summarize(library: &Library, out: &mut [u8]) -> Result<u32, Refusal> {
    let records = records(out, library.executables().len())?;
    for (index, (record, executable)) in records.iter_mut().zip(library.executables()).enumerate() {
        let report = executable.report;
        let fields = [
            ("exe ", index as u32, 2),
            (" type ", report.shader_type, 1),
            (" main ", report.main, 4),
            (" end ", report.endmain, 4),
            (" in ", report.inputs, 2),
            (" out ", report.outputs, 2),
            (" con ", report.constants, 4),
            (" words ", report.words, 4),
            (" most ", report.total, 7),
        ];
        let mut line = Line::new(record);
        for (title, value, digits) in fields {
            line.text(title);
            line.decimal(value, digits);
        }
    }
    Ok((RECORD * records.len()) as u32)
}

pub(crate) fn refused(refusal: Refusal) -> [u8; RECORD] {
    let mut record = BLANK;
    let mut line = Line::new(&mut record);
    line.text("refused ");
    line.decimal(refusal.number, 2);
    line.byte(b' ');
    line.hex(refusal.place, 8);
    record
}

/// The first `count` records of a lent buffer; 30 if it is too short.
fn records(out: &mut [u8], count: usize) -> Result<&mut [[u8; RECORD]], Refusal> {
    out.as_chunks_mut().0.get_mut(..count).ok_or(refusal(30, 0))
}

/// A record that is being written.
struct Line<'a> {
    record: &'a mut [u8; RECORD],
    at: usize,
}

impl<'a> Line<'a> {
    fn new(record: &'a mut [u8; RECORD]) -> Self {
        *record = BLANK;
        Line { record, at: 0 }
    }

    fn column(&mut self, at: usize) {
        self.at = at;
    }

    fn byte(&mut self, byte: u8) {
        if let Some(place) = self.record.get_mut(self.at) {
            *place = byte;
        }
        self.at += 1;
    }

    fn text(&mut self, text: &str) {
        for byte in text.bytes() {
            self.byte(byte);
        }
    }

    fn hex(&mut self, value: u32, digits: u32) {
        for digit in (0..digits).rev() {
            self.byte(b"0123456789ABCDEF"[bits(value, 4 * digit, 4) as usize]);
        }
    }

    /// The lowest `digits` decimal digits.
    fn decimal(&mut self, mut value: u32, digits: usize) {
        for place in (self.at..self.at + digits).rev() {
            if let Some(place) = self.record.get_mut(place) {
                *place = b'0' + (value % 10) as u8;
            }
            value /= 10;
        }
        self.at += digits;
    }

    /// A register's letter and number, which is under 100.
    fn register(&mut self, letter: u8, number: u32) {
        self.byte(letter);
        self.decimal(number, if number < 10 { 1 } else { 2 });
    }

    fn operands(&mut self, word: u32, format: Format, descriptor: u32) {
        let part = |number, register, index| Source {
            number,
            register,
            index,
            descriptor,
        };
        let index = bits(word, 19, 2);
        match format {
            Format::F0 => {}
            Format::F1 => {
                self.destination(word, bits(word, 21, 5), descriptor);
                self.source(part(1, bits(word, 12, 7), index));
                self.source(part(2, bits(word, 7, 5), 0));
            }
            Format::F1i => {
                self.destination(word, bits(word, 21, 5), descriptor);
                self.source(part(1, bits(word, 14, 5), 0));
                self.source(part(2, bits(word, 7, 7), index));
            }
            Format::F1u => {
                self.destination(word, bits(word, 21, 5), descriptor);
                self.source(part(1, bits(word, 12, 7), index));
            }
            Format::F1c => {
                self.operand(part(1, bits(word, 12, 7), index));
                self.comparison(bits(word, 24, 3));
                self.comparison(bits(word, 21, 3));
                self.source(part(2, bits(word, 7, 5), 0));
            }
            Format::F5 => {
                self.destination(word, bits(word, 24, 5), descriptor);
                self.source(part(1, bits(word, 17, 5), 0));
                self.source(part(2, bits(word, 10, 7), bits(word, 22, 2)));
                self.source(part(3, bits(word, 5, 5), 0));
            }
            Format::F5i => {
                self.destination(word, bits(word, 24, 5), descriptor);
                self.source(part(1, bits(word, 17, 5), 0));
                self.source(part(2, bits(word, 12, 5), 0));
                self.source(part(3, bits(word, 5, 7), bits(word, 22, 2)));
            }
            Format::F2 | Format::F3 => self.control(word),
            Format::F4 => self.emission(word),
        }
    }

    fn destination(&mut self, word: u32, number: u32, descriptor: u32) {
        match number {
            _ if opcode(word) == MOVA => self.text("a0"),
            0..=15 => self.register(b'o', number),
            _ => self.register(b'r', number - 16),
        }
        self.byte(b'.');
        let mask = bits(descriptor, 0, 4);
        if mask == 0 {
            self.byte(b'_');
        }
        // X is the highest bit of the mask.
        for (component, bit) in [(b'x', 8), (b'y', 4), (b'z', 2), (b'w', 1)] {
            if mask & bit != 0 {
                self.byte(component);
            }
        }
    }

    /// A source that follows another operand.
    fn source(&mut self, source: Source) {
        self.byte(b',');
        self.operand(source);
    }

    fn operand(&mut self, source: Source) {
        // A source's part of the descriptor: its negation bit, then 8 bits of
        // selectors with component 0 on top.
        let part = bits(source.descriptor, 9 * source.number - 5, 9);
        if part & 1 != 0 {
            self.byte(b'-');
        }
        match source.register {
            number @ 0..=15 => self.register(b'v', number),
            number @ 16..=31 => self.register(b'r', number - 16),
            number => self.register(b'c', number - 32),
        }
        match source.index {
            1 => self.text("[a0.x]"),
            2 => self.text("[a0.y]"),
            3 => self.text("[aL]"),
            _ => {}
        }
        self.byte(b'.');
        for lowest in [7, 5, 3, 1] {
            self.byte(b"xyzw"[bits(part, lowest, 2) as usize]);
        }
    }

    fn comparison(&mut self, operator: u32) {
        self.byte(b',');
        self.text(["EQ", "NE", "LT", "LE", "GT", "GE", "", ""][operator as usize & 7]);
    }

    /// Formats 2 and 3: what decides, then where it leads.
    fn control(&mut self, word: u32) {
        let register = bits(word, 22, 4);
        match opcode(word) {
            BREAKC => return self.condition(word),
            CALLC | IFC | JMPC => {
                self.condition(word);
                self.byte(b' ');
            }
            CALLU | IFU | JMPU => {
                self.register(b'b', register);
                self.byte(b' ');
            }
            LOOP => {
                self.register(b'i', register);
                self.byte(b' ');
            }
            _ => {}
        }
        self.hex(target(word) as u32, 4);
        if !matches!(opcode(word), LOOP | JMPC | JMPU) {
            self.byte(b'+');
            self.hex(length(word) as u32, 2);
        }
    }

    fn condition(&mut self, word: u32) {
        let operator = bits(word, 22, 2);
        if operator != 3 {
            self.register(b'x', bits(word, 25, 1));
        }
        match operator {
            0 => self.byte(b'|'),
            1 => self.byte(b'&'),
            _ => {}
        }
        if operator != 2 {
            self.register(b'y', bits(word, 24, 1));
        }
    }

    fn emission(&mut self, word: u32) {
        self.register(b'v', bits(word, 24, 2));
        self.byte(b' ');
        self.register(b'p', bits(word, 23, 1));
        self.byte(b' ');
        self.register(b'w', bits(word, 22, 1));
    }
}

/// A source operand: the first to third of its word.
struct Source {
    number: u32,
    register: u32,
    index: u32,
    descriptor: u32,
}
