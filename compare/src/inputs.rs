//! Libraries of known shape, all accepted, to take figures on.
use crate::generate::{put32, set32, table};

const NOP: u32 = 0x8400_0000;
const END: u32 = 0x8800_0000;
const CALL: u32 = 0x9000_0000;
const IFU: u32 = 0x9c00_0000;
const LOOP: u32 = 0xa400_0000;
const JMPU: u32 = 0xb400_0000;

/// The settings of every input's walk: the bools with odd numbers are true, and every LOOP makes 256 turns.
pub const BOOLS: [u8; 16] = [0, 1, 0, 1, 0, 1, 0, 1, 0, 1, 0, 1, 0, 1, 0, 1];
pub const INTS: [u8; 4] = [255; 4];

pub struct Input {
    pub name: String,
    pub file: Vec<u8>,
    pub executables: u32,
}

/// What the executables of a library share. All have main at word 0.
#[derive(Clone, Default)]
struct Content {
    words: Vec<u32>,
    endmain: usize,
    constants: Vec<u8>,
    labels: Vec<u8>,
    symbols: Vec<u8>,
}

/// Whether the executables of a library share everything, or none shares a table or its type with the one before it.
#[derive(Clone, Copy, PartialEq)]
enum Kinds {
    One,
    TwoInTurn,
}

/// Every program alone, then with the large tables as 16 executables alike, and as 16 of two kinds in turn.
pub fn all() -> Vec<Input> {
    let programs = [
        ("example", main_only(example())),
        ("512 plain words", main_only(plain(512))),
        ("P10", main_only(in_two_loops(vec![NOP; 61]))),
        ("IFs in two LOOPs", main_only(in_two_loops(branches()))),
        ("calls over 255 NOPs", calls_over(vec![NOP; 255])),
        ("calls over jumps to the next word", calls_over(jumps_on())),
        ("calls over jumps to the last word", calls_over(jumps_far())),
        ("257 calls of nested IFs", nested_in_calls()),
        ("257 calls of an IF without tests", plain_in_calls()),
        ("257 calls of 127 IFs without tests", small_ifs_in_calls()),
        ("calls of calls", calls_in_calls()),
        ("calls of calls, 3,000 constants", calls_and_constants()),
        ("511 jumps to the last word", only_jumps()),
    ];
    let tables = [
        ("3,200 constants", vectors(3_200)),
        ("2,000 labels", labels(2_000)),
        ("64,000 letters without an end", letters(64_000)),
    ];
    let alone = programs
        .iter()
        .map(|(name, content)| input(name.to_string(), content, 1, Kinds::One));
    let alike = programs.iter().chain(&tables).map(|(name, content)| {
        let name = format!("{name}, 16 executables");
        input(name, content, 16, Kinds::One)
    });
    let in_turn = programs.iter().chain(&tables).map(|(name, content)| {
        let name = format!("{name}, 16 executables of two kinds");
        input(name, content, 16, Kinds::TwoInTurn)
    });
    alone.chain(alike).chain(in_turn).collect()
}

fn input(name: String, content: &Content, executables: usize, kinds: Kinds) -> Input {
    Input {
        name,
        file: library(content, executables, kinds),
        executables: executables as u32,
    }
}

/// A control word on DST and NUM.
fn aimed(word: u32, dst: usize, num: usize) -> u32 {
    word | (dst as u32) << 10 | num as u32
}

fn register(number: usize) -> u32 {
    (number as u32) << 22
}

fn main_only(words: Vec<u32>) -> Content {
    Content {
        endmain: words.len(),
        words,
        ..Content::default()
    }
}

/// Document 01's five words.
fn example() -> Vec<u32> {
    vec![0x4c00_0000, 0x9cc0_0c00, 0x0222_5100, NOP, END]
}

/// ADD, MOV, CMP and MAD, one after another, and END.
fn plain(count: usize) -> Vec<u32> {
    let kinds = [0x0222_5100, 0x4e20_5000, 0xbaa2_5100, 0xf104_9460];
    let plain = kinds.iter().copied().cycle().take(count - 1);
    plain.chain([END]).collect()
}

/// P10's shape: two LOOPs over the same 61 words.
fn in_two_loops(body: Vec<u32>) -> Vec<u32> {
    let last = 1 + body.len();
    let mut words = vec![aimed(LOOP, last, 0); 2];
    words.extend(body);
    words.push(END);
    words
}

/// 20 IFs with one word in each part, from word 2 on, and a NOP.
fn branches() -> Vec<u32> {
    let mut words = Vec::new();
    for n in 0..20 {
        let dst = 2 + words.len() + 2;
        words.extend([aimed(IFU, dst, 1) | register(n % 16), NOP, NOP]);
    }
    words.push(NOP);
    words
}

/// Where the innermost region of `calls_over` starts: after main and two others.
const INNERMOST: usize = 26 + 25 + 24;

/// Calls 25·25·24 deep: main makes 25 calls of a region of 25 calls of a region of 24 calls of the innermost region.
fn calls_over(innermost: Vec<u32>) -> Content {
    let mut words = vec![aimed(CALL, 26, 25); 25];
    words.push(END);
    words.extend([aimed(CALL, 26 + 25, 24); 25]);
    words.extend([aimed(CALL, INNERMOST, innermost.len()); 24]);
    words.extend(innermost);
    Content {
        words,
        endmain: 26,
        ..Content::default()
    }
}

/// 254 jumps, taken, each to the next word. The last of the 255 words can be no good jump, so it is a NOP.
fn jumps_on() -> Vec<u32> {
    let mut words: Vec<u32> = (1..255)
        .map(|next| aimed(JMPU, INNERMOST + next, 0) | register(1))
        .collect();
    words.push(NOP);
    words
}

/// 254 jumps, not taken, each to the last of the 255 words.
fn jumps_far() -> Vec<u32> {
    let mut words = vec![aimed(JMPU, INNERMOST + 254, 0); 254];
    words.push(NOP);
    words
}

/// 257 calls of one region of 28 groups of 8 IFs inside one another: a check that remembers called regions, but not IFs, takes longest for it.
fn nested_in_calls() -> Content {
    let mut words = vec![aimed(CALL, 257, 255); 257];
    for _ in 0..28 {
        let end = words.len() + 9;
        words.extend([aimed(IFU, end, 0); 8]);
        words.push(NOP);
    }
    words.extend([NOP; 2]);
    words.push(END);
    main_only(words)
}

/// 257 calls of one region of an IF over 253 NOPs: an IF without tests is not remembered.
fn plain_in_calls() -> Content {
    let mut words = vec![aimed(CALL, 257, 255); 257];
    words.push(aimed(IFU, 511, 0));
    words.extend([NOP; 253]);
    words.push(END);
    main_only(words)
}

/// 257 calls of one region of 127 IFs over a NOP each: the most IFs that are not remembered.
fn small_ifs_in_calls() -> Content {
    let mut words = vec![aimed(CALL, 257, 255); 257];
    for _ in 0..127 {
        let dst = words.len() + 2;
        words.extend([aimed(IFU, dst, 0), NOP]);
    }
    words.push(END);
    main_only(words)
}

/// 257 calls of 34 calls of 220 calls of END: of 73,781 visits 72,758 meet a call that was made before, the most found by hand.
fn calls_in_calls() -> Content {
    let mut words = vec![aimed(CALL, 257, 255); 257];
    words.extend([aimed(CALL, 291, 221); 34]);
    words.extend([aimed(CALL, 511, 1); 220]);
    words.push(END);
    main_only(words)
}

/// The same with as many constants as fit: the file that takes longest.
fn calls_and_constants() -> Content {
    Content {
        constants: vectors(3_000).constants,
        ..calls_in_calls()
    }
}

/// 511 jumps, not taken, each to the last word: a search for each.
fn only_jumps() -> Content {
    let mut words = vec![aimed(JMPU, 511, 0); 511];
    words.push(END);
    main_only(words)
}

/// Vector constants over all registers, with exponents from 1 to 126.
fn vectors(count: usize) -> Content {
    let mut constants = Vec::new();
    for n in 0..count as u32 {
        put32(&mut constants, 2 | (n % 96) << 16);
        for component in 0..4 {
            put32(&mut constants, (1 + (n + component) % 126) << 16 | n);
        }
    }
    Content {
        constants,
        ..main_only(vec![END])
    }
}

/// Labels at word 0, each with a name of its own of 15 letters and a 00 byte.
fn labels(count: usize) -> Content {
    let mut labels = Vec::new();
    let mut symbols = Vec::new();
    for n in 0..count {
        for number in [n, 0, 1, symbols.len()] {
            put32(&mut labels, number as u32);
        }
        symbols.extend(format!("label{n:010}\0").bytes());
    }
    Content {
        labels,
        symbols,
        ..main_only(vec![END])
    }
}

/// A symbol table of one name that nothing ends: where names end is searched through all of it.
fn letters(count: usize) -> Content {
    Content {
        symbols: vec![b'a'; count],
        ..main_only(vec![END])
    }
}

/// Header, DVLP, the DVLEs, then the words, one descriptor and the tables. Of two kinds, the first has type 0, the second type 1 and tables without their first entry.
fn library(content: &Content, executables: usize, kinds: Kinds) -> Vec<u8> {
    let dvlp = 8 + 4 * executables;
    let dvles: Vec<usize> = (0..executables).map(|n| dvlp + 40 + 64 * n).collect();
    let mut file = vec![0; dvlp + 40 + 64 * executables];
    file[..4].copy_from_slice(b"DVLB");
    set32(&mut file, 4, executables as u32);
    file[dvlp..dvlp + 4].copy_from_slice(b"DVLP");
    for (n, &dvle) in dvles.iter().enumerate() {
        set32(&mut file, 8 + 4 * n, dvle as u32);
        file[dvle..dvle + 4].copy_from_slice(b"DVLE");
        file[dvle + 6] = second(n, kinds) as u8;
        set32(&mut file, dvle + 0x0c, content.endmain as u32);
        set32(&mut file, dvle + 0x10, 0x0001_0001);
    }
    table(&mut file, dvlp, dvlp + 0x08, content.words.len());
    for &word in &content.words {
        put32(&mut file, word);
    }
    table(&mut file, dvlp, dvlp + 0x10, 1);
    put32(&mut file, 0x0d86_c36f);
    put32(&mut file, 0x0f);
    share(&mut file, &dvles, kinds, 0x18, &content.constants, 20);
    share(&mut file, &dvles, kinds, 0x20, &content.labels, 16);
    share(&mut file, &dvles, kinds, 0x38, &content.symbols, 1);
    file
}

/// Whether the executable is of the second kind.
fn second(n: usize, kinds: Kinds) -> bool {
    kinds == Kinds::TwoInTurn && n % 2 == 1
}

/// One table for all executables, at the end of the file.
fn share(
    file: &mut Vec<u8>,
    dvles: &[usize],
    kinds: Kinds,
    field: usize,
    entries: &[u8],
    size: usize,
) {
    let count = entries.len() / size;
    for (n, &dvle) in dvles.iter().enumerate() {
        let skipped = usize::from(second(n, kinds)).min(count);
        let offset = file.len() + skipped * size - dvle;
        set32(file, dvle + field, offset as u32);
        set32(file, dvle + field + 4, (count - skipped) as u32);
    }
    file.extend(entries);
}
