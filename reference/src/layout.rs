//! Layout of a library: header, DVLP, and each DVLE with its tables.

use std::ops::Range;

use crate::tables::Tables;
use crate::{demand, flow, refusal, words, Constant, Refusal, Report};

pub(crate) const MOST_WORDS: usize = 512;
const MOST_DESCRIPTORS: u32 = 128;
const MOST_EXECUTABLES: usize = 16;
const MOST_BYTES: usize = 65_536;

const DVLP_SIZE: usize = 40;
const DVLE_SIZE: usize = 64;

/// An accepted executable: its report and where its constants lie.
#[derive(Clone, Default)]
pub(crate) struct Executable {
    pub report: Report,
    constants: Range<usize>,
}

/// A library as far as it has been accepted.
pub(crate) struct Library<'a> {
    file: &'a [u8],
    words: [u32; MOST_WORDS],
    word_count: usize,
    /// The bytes of the opcode table, which nothing else may share.
    opcodes: Range<usize>,
    descriptors: Range<usize>,
    executables: [Executable; MOST_EXECUTABLES],
    executable_count: usize,
}

impl<'a> Library<'a> {
    /// The whole check.
    pub fn accept(file: &'a [u8]) -> Result<Self, Refusal> {
        let mut library = Self::read_program(file)?;
        library.check_words()?;
        for index in 0..library.executable_count {
            library.executables[index] = library
                .read_executable(index)
                .map_err(|fault| refusal(fault.number, (index << 16) + fault.place as usize))?;
        }
        Ok(library)
    }

    pub fn words(&self) -> &[u32] {
        &self.words[..self.word_count]
    }

    pub fn executables(&self) -> &[Executable] {
        &self.executables[..self.executable_count]
    }

    pub fn executable(&self, index: u32) -> Result<&Executable, Refusal> {
        self.executables().get(index as usize).ok_or(refusal(29, 0))
    }

    /// The used half of a descriptor; 0 if it is not there.
    pub fn descriptor(&self, id: u32) -> u32 {
        read_u32(self.file, self.descriptors.start + 8 * id as usize)
    }

    pub fn constant(&self, executable: &Executable, n: u32) -> Result<Constant, Refusal> {
        let (entries, _) = self.file[executable.constants.clone()].as_chunks();
        entries
            .get(n as usize)
            .and_then(Constant::read)
            .ok_or(refusal(29, 0))
    }

    /// Header and DVLP: refusals 1 to 8.
    fn read_program(file: &'a [u8]) -> Result<Self, Refusal> {
        demand(file.len() <= MOST_BYTES, 1, 0)?;
        demand(file.len() >= 8, 2, 0)?;
        demand(file.starts_with(b"DVLB"), 3, 0)?;
        let executable_count = read_u32(file, 4) as usize;
        demand((1..=MOST_EXECUTABLES).contains(&executable_count), 4, 0)?;
        let dvlp = 8 + 4 * executable_count;
        demand(dvlp + DVLP_SIZE <= file.len(), 5, 0)?;
        demand(file[dvlp..].starts_with(b"DVLP"), 6, 0)?;
        let word_count = read_u32(file, dvlp + 0x0C) as usize;
        demand((1..=MOST_WORDS).contains(&word_count), 7, 0)?;
        demand(read_u32(file, dvlp + 0x14) <= MOST_DESCRIPTORS, 7, 0)?;
        let (opcodes, descriptors) = program_tables(file, dvlp).ok_or(refusal(8, 0))?;

        let mut words = [0; MOST_WORDS];
        for (word, bytes) in words.iter_mut().zip(file[opcodes.clone()].as_chunks().0) {
            *word = u32::from_le_bytes(*bytes);
        }
        Ok(Library {
            file,
            words,
            word_count,
            opcodes,
            descriptors,
            executables: Default::default(),
            executable_count,
        })
    }

    /// Refusals 9 to 12.
    fn check_words(&self) -> Result<(), Refusal> {
        let descriptors = self.descriptors.len() as u32 / 8;
        for (index, &word) in self.words().iter().enumerate() {
            words::check(word, index, descriptors)?;
        }
        Ok(())
    }

    /// One DVLE: refusals 13 to 28, their places counted from this executable.
    fn read_executable(&self, index: usize) -> Result<Executable, Refusal> {
        let file = self.file;
        let offset = read_u32(file, 8 + 4 * index);
        let place = inside(file, 0, offset, DVLE_SIZE as u64).ok_or(refusal(13, 0))?;
        demand(
            offset.is_multiple_of(4) && !overlap(&place, &self.opcodes),
            13,
            0,
        )?;
        let dvle = place.start;
        demand(file[dvle..].starts_with(b"DVLE"), 14, 0)?;
        let shader_type = u32::from(file[dvle + 6]);
        demand(shader_type <= 1, 15, 0)?;
        let main = read_u32(file, dvle + 0x08);
        let endmain = read_u32(file, dvle + 0x0C);
        demand(main < endmain && endmain as usize <= self.word_count, 16, 0)?;

        let [constants, labels, outputs, uniforms, symbols] =
            executable_tables(file, dvle, &self.opcodes).ok_or(refusal(17, 0))?;
        let tables = Tables {
            constants: file[constants.clone()].as_chunks().0,
            labels: file[labels].as_chunks().0,
            outputs: file[outputs].as_chunks().0,
            uniforms: file[uniforms].as_chunks().0,
            symbols: &file[symbols],
        };
        tables.check(self.word_count as u32)?;
        let body = main as usize..endmain as usize;
        let visits = flow::check(&self.words, self.word_count, body, shader_type == 1)?;

        let report = Report {
            shader_type,
            main,
            endmain,
            inputs: read_u16(file, dvle + 0x10).count_ones(),
            outputs: read_u16(file, dvle + 0x12).count_ones(),
            constants: tables.constants.len() as u32,
            words: visits.distinct,
            total: visits.total,
        };
        Ok(Executable { report, constants })
    }
}

/// Opcode and descriptor table of DVLP, if its four tables are good.
fn program_tables(file: &[u8], dvlp: usize) -> Option<(Range<usize>, Range<usize>)> {
    let opcodes = table(file, dvlp, 0x08, 4)?;
    let descriptors = table(file, dvlp, 0x10, 8)?;
    let lines = table(file, dvlp, 0x18, 8)?;
    let symbols = table(file, dvlp, 0x20, 1)?;
    let headers = 0..dvlp + DVLP_SIZE;
    let apart = [&headers, &descriptors, &lines, &symbols]
        .iter()
        .all(|other| !overlap(&opcodes, other));
    apart.then_some((opcodes, descriptors))
}

/// Constant, label, output, uniform and symbol table of a DVLE, if all are good.
fn executable_tables(
    file: &[u8],
    dvle: usize,
    opcodes: &Range<usize>,
) -> Option<[Range<usize>; 5]> {
    let all = [
        table(file, dvle, 0x18, 20)?,
        table(file, dvle, 0x20, 16)?,
        table(file, dvle, 0x28, 8)?,
        table(file, dvle, 0x30, 8)?,
        table(file, dvle, 0x38, 1)?,
    ];
    all.iter()
        .all(|table| !overlap(opcodes, table))
        .then_some(all)
}

/// The bytes of the table whose offset and count stand at `field` of a
/// section, if it is aligned and inside the file. A table without entries is
/// 0..0, which overlaps nothing: its offset says nothing.
fn table(file: &[u8], section: usize, field: usize, entry: u64) -> Option<Range<usize>> {
    let offset = read_u32(file, section + field);
    let count = read_u32(file, section + field + 4);
    if count == 0 {
        return Some(0..0);
    }
    // Entries of one byte are symbols, which stand anywhere.
    if entry > 1 && !offset.is_multiple_of(4) {
        return None;
    }
    inside(file, section, offset, u64::from(count) * entry)
}

/// `size` bytes from `section + offset` on, if the file has them; the sums are
/// made in 64 bits, where they cannot wrap.
fn inside(file: &[u8], section: usize, offset: u32, size: u64) -> Option<Range<usize>> {
    let start = section as u64 + u64::from(offset);
    let end = start + size;
    (end <= file.len() as u64).then_some(start as usize..end as usize)
}

fn overlap(a: &Range<usize>, b: &Range<usize>) -> bool {
    a.start < b.end && b.start < a.end
}

fn read_u32(bytes: &[u8], at: usize) -> u32 {
    let found = bytes.get(at..).and_then(|rest| rest.first_chunk());
    found.map_or(0, |four| u32::from_le_bytes(*four))
}

fn read_u16(bytes: &[u8], at: usize) -> u16 {
    let found = bytes.get(at..).and_then(|rest| rest.first_chunk());
    found.map_or(0, |two| u16::from_le_bytes(*two))
}
