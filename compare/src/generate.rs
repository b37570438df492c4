//! A library from a seed: a third good, a third with one or two damages, a third rough.
use crate::damage::{damage, rough};
use crate::program::{Extent, Program};
use crate::random::Random;

/// Where the parts of a library lie, for damages that aim at one of them. All are byte offsets in the file.
pub struct Layout {
    pub words: usize,
    pub word_count: usize,
    pub dvlp: usize,
    pub executables: Vec<Executable>,
    /// The most that a main opens.
    pub deepest: Extent,
}

pub struct Executable {
    pub dvle: usize,
    pub constants: Entries,
    pub labels: Entries,
    pub outputs: Entries,
    pub uniforms: Entries,
    pub main: usize,
    pub endmain: usize,
}

pub struct Entries {
    pub at: usize,
    pub count: usize,
}

/// What a call is asked beside the file.
pub struct Settings {
    pub executable: u32,
    pub bools: Vec<u8>,
    pub ints: Vec<u8>,
    pub truth: Vec<u8>,
    pub fetched: usize,
}

pub struct Case {
    pub file: Vec<u8>,
    pub settings: Settings,
}

pub fn case(seed: u64) -> Case {
    let mut random = Random::new(seed);
    let (mut file, layout) = good(&mut random);
    match seed % 3 {
        0 => {}
        1 => {
            for _ in 0..random.between(1, 2) {
                damage(&mut file, &layout, &mut random);
            }
        }
        _ => rough(&mut file, &mut random),
    }
    let settings = settings(&mut random, layout.executables.len());
    Case { file, settings }
}

/// Settings that are too short, and an executable that is not there, now and then.
pub fn settings(random: &mut Random, executables: usize) -> Settings {
    let executable = if random.one_in(20) {
        random.below(40)
    } else {
        random.below(executables)
    } as u32;
    let bools = if random.one_in(40) {
        random.below(16)
    } else {
        random.between(16, 18)
    };
    let ints = if random.one_in(40) {
        random.below(4)
    } else {
        random.between(4, 5)
    };
    let most_truth = [8, 64, 4096][random.below(3)];
    let truth = random.below(most_truth);
    let turns = [1, 4, 16, 256][random.below(4)];
    Settings {
        executable,
        bools: (0..bools)
            .map(|_| [0, 1, 1, 255][random.below(4)])
            .collect(),
        ints: (0..ints).map(|_| random.below(turns) as u8).collect(),
        truth: (0..truth).map(|_| [0, 0, 1, 7][random.below(4)]).collect(),
        fetched: [0, 1, 48, 5000][random.below(4)],
    }
}

struct Main {
    start: usize,
    end: usize,
    kind: u8,
}

/// A library that the check accepts.
pub fn good(random: &mut Random) -> (Vec<u8>, Layout) {
    let count = if random.one_in(6) {
        random.between(1, 16)
    } else {
        random.between(1, 3)
    };
    let descriptors = if random.one_in(20) {
        128
    } else {
        random.between(1, 40)
    };
    let (words, mains, deepest) = loop {
        if let Some(made) = words_and_mains(random, count, descriptors) {
            break made;
        }
    };
    let mut file = Vec::new();
    file.extend(b"DVLB");
    put32(&mut file, count as u32);
    file.resize(8 + 4 * count, 0);
    let dvlp = file.len();
    file.resize(dvlp + 40, 0);
    file[dvlp..dvlp + 4].copy_from_slice(b"DVLP");
    let mut layout = Layout {
        words: 0,
        word_count: words.len(),
        dvlp,
        executables: Vec::new(),
        deepest,
    };
    // The sections and the tables of the DVLP come in any order.
    let first = random.one_in(2);
    if first {
        program_tables(&mut file, &mut layout, &words, descriptors, random);
    }
    for (i, main) in mains.iter().enumerate() {
        let at = executable(&mut file, &mut layout, main, words.len(), random);
        set32(&mut file, 8 + 4 * i, at as u32);
    }
    share_tables(&mut file, &mut layout, random);
    if !first {
        program_tables(&mut file, &mut layout, &words, descriptors, random);
    }
    (file, layout)
}

/// Routines and a main for each executable; none if they take more than 512 words or cost too much.
fn words_and_mains(
    random: &mut Random,
    count: usize,
    descriptors: usize,
) -> Option<(Vec<u32>, Vec<Main>, Extent)> {
    let sizes = [4, 12, 40, 120];
    let mut seed = Random::new(random.draw());
    let mut program = Program::new(random, descriptors);
    for _ in 0..seed.below(6) {
        program.routine(sizes[seed.below(3)]);
    }
    let mut mains = Vec::new();
    for _ in 0..count {
        let room = 500usize.saturating_sub(program.words.len());
        let kind = seed.one_in(5) as u8;
        if room < 60 || (!mains.is_empty() && seed.one_in(4)) {
            let last: &Main = mains.last()?;
            let shared = Main {
                start: last.start,
                end: last.end,
                kind: last.kind,
            };
            mains.push(shared);
            continue;
        }
        let start = program.main(sizes[seed.below(4)].min(room / 3), kind == 1)?;
        mains.push(Main {
            start,
            end: program.words.len(),
            kind,
        });
    }
    let words = std::mem::take(&mut program.words);
    (words.len() <= 512).then_some((words, mains, program.deepest))
}

fn program_tables(
    file: &mut Vec<u8>,
    layout: &mut Layout,
    words: &[u32],
    descriptors: usize,
    random: &mut Random,
) {
    let base = layout.dvlp;
    align(file);
    layout.words = file.len();
    table(file, base, base + 0x08, words.len());
    for &word in words {
        put32(file, word);
    }
    table(file, base, base + 0x10, descriptors);
    for _ in 0..descriptors {
        put32(file, random.draw() as u32);
        put32(file, 0x0f);
    }
    let lines = random.below(3);
    table(file, base, base + 0x18, lines);
    file.resize(file.len() + 8 * lines, 0x5a);
    let names = random.below(9);
    table(file, base, base + 0x20, names);
    file.resize(file.len() + names, b'n');
    align(file);
}

fn executable(
    file: &mut Vec<u8>,
    layout: &mut Layout,
    main: &Main,
    words: usize,
    random: &mut Random,
) -> usize {
    align(file);
    let base = file.len();
    file.resize(base + 64, 0);
    file[base..base + 4].copy_from_slice(b"DVLE");
    file[base + 6] = main.kind;
    set32(file, base + 0x08, main.start as u32);
    set32(file, base + 0x0c, main.end as u32);
    set32(file, base + 0x10, random.draw() as u32);
    let many = if random.one_in(10) { 60 } else { 8 };
    let counts = [
        random.below(many),
        random.below(6),
        random.below(5),
        random.below(5),
    ];
    let symbols: Vec<u8> = (0..random.between(1, 30))
        .map(|_| [0, b'a', b'z', 0xff][random.below(4)])
        .chain([0])
        .collect();
    let constants = entries(file, base, base + 0x18, counts[0], |file| {
        constant(file, random)
    });
    let labels = entries(file, base, base + 0x20, counts[1], |file| {
        label(file, words, symbols.len(), random)
    });
    let outputs = entries(file, base, base + 0x28, counts[2], |file| {
        output(file, random)
    });
    let uniforms = entries(file, base, base + 0x30, counts[3], |file| {
        uniform(file, symbols.len(), random)
    });
    table(file, base, base + 0x38, symbols.len());
    file.extend(&symbols);
    align(file);
    layout.executables.push(Executable {
        dvle: base,
        constants,
        labels,
        outputs,
        uniforms,
        main: main.start,
        endmain: main.end,
    });
    base
}

/// Where the offsets of the tables with entries stand in a DVLE, and of the symbol table.
pub(crate) const ENTRIES: [usize; 4] = [0x18, 0x20, 0x28, 0x30];
pub(crate) const SYMBOLS: usize = 0x38;

/// Now and then an executable has the tables of the next one, which lie behind both; one of the two may then have only the first of the entries.
fn share_tables(file: &mut [u8], layout: &mut Layout, random: &mut Random) {
    for i in (1..layout.executables.len()).rev() {
        if !random.one_in(4) {
            continue;
        }
        let (before, after) = layout.executables.split_at_mut(i);
        let (taker, owner) = (&mut before[i - 1], &mut after[0]);
        let (first, second) = (taker.dvle, owner.dvle);
        take_table(file, first, second, SYMBOLS);
        let fewer = random.below(3);
        for (field, taken, owned) in [
            (ENTRIES[0], &mut taker.constants, &mut owner.constants),
            (ENTRIES[1], &mut taker.labels, &mut owner.labels),
            (ENTRIES[2], &mut taker.outputs, &mut owner.outputs),
            (ENTRIES[3], &mut taker.uniforms, &mut owner.uniforms),
        ] {
            take_table(file, first, second, field);
            taken.at = owned.at;
            taken.count = owned.count;
            match fewer {
                1 => taken.count = random.below(owned.count + 1),
                2 => owned.count = random.below(owned.count + 1),
                _ => {}
            }
            set32(file, first + field + 4, taken.count as u32);
            set32(file, second + field + 4, owned.count as u32);
        }
    }
}

/// Gives the DVLE at `taker` the table of another that begins behind it.
pub(crate) fn take_table(file: &mut [u8], taker: usize, owner: usize, field: usize) {
    let start = owner + get32(file, owner + field) as usize;
    let count = get32(file, owner + field + 4);
    set32(file, taker + field, (start - taker) as u32);
    set32(file, taker + field + 4, count);
}

/// Entries at the end of the file, with their offset and count in the section.
fn entries(
    file: &mut Vec<u8>,
    base: usize,
    field: usize,
    count: usize,
    mut one: impl FnMut(&mut Vec<u8>),
) -> Entries {
    let at = file.len();
    table(file, base, field, count);
    for _ in 0..count {
        one(file);
    }
    Entries { at, count }
}

fn constant(file: &mut Vec<u8>, random: &mut Random) {
    let kind = random.below(3);
    let id = random.below([16, 4, 96][kind]);
    file.extend([
        kind as u8,
        random.draw() as u8,
        id as u8,
        random.draw() as u8,
    ]);
    match kind {
        0 => file.extend([
            random.bits(1) as u8,
            random.draw() as u8,
            random.draw() as u8,
            random.draw() as u8,
        ]),
        1 => put32(file, random.draw() as u32),
        _ => put32(file, float24(random)),
    }
    for _ in 0..3 {
        put32(
            file,
            if kind == 2 {
                float24(random)
            } else {
                random.draw() as u32
            },
        );
    }
}

/// A float24 of any sign, with an exponent from 1 to 126 or a zero.
fn float24(random: &mut Random) -> u32 {
    let sign = random.bits(1) << 23;
    match random.below(6) {
        0 => sign,
        1 => sign | 1 << 16 | random.bits(16),
        2 => sign | 126 << 16 | random.bits(16),
        _ => sign | (random.between(1, 126) as u32) << 16 | random.bits(16),
    }
}

fn label(file: &mut Vec<u8>, words: usize, symbols: usize, random: &mut Random) {
    put32(file, random.draw() as u32);
    put32(file, random.below(words + 1) as u32);
    put32(file, random.draw() as u32);
    put32(file, random.below(symbols) as u32);
}

fn output(file: &mut Vec<u8>, random: &mut Random) {
    let kind = [0, 1, 2, 3, 4, 5, 6, 8][random.below(8)];
    for n in [
        kind,
        random.below(16),
        random.between(1, 15),
        random.below(65_536),
    ] {
        file.extend((n as u16).to_le_bytes());
    }
}

fn uniform(file: &mut Vec<u8>, symbols: usize, random: &mut Random) {
    let (low, high) = [(0x00, 0x0f), (0x10, 0x6f), (0x70, 0x73), (0x78, 0x87)][random.below(4)];
    let start = random.between(low, high);
    let end = random.between(start, high);
    put32(file, random.below(symbols) as u32);
    file.extend((start as u16).to_le_bytes());
    file.extend((end as u16).to_le_bytes());
}

/// The offset, from its section's start, and the count of a table that begins at the end of the file.
pub(crate) fn table(file: &mut [u8], base: usize, field: usize, count: usize) {
    let offset = file.len() - base;
    set32(file, field, offset as u32);
    set32(file, field + 4, count as u32);
}

fn align(file: &mut Vec<u8>) {
    file.resize(file.len().div_ceil(4) * 4, 0);
}

pub(crate) fn put32(file: &mut Vec<u8>, n: u32) {
    file.extend(n.to_le_bytes());
}

fn get32(file: &[u8], at: usize) -> u32 {
    u32::from_le_bytes(file[at..at + 4].try_into().unwrap())
}

pub(crate) fn set32(file: &mut [u8], at: usize, n: u32) {
    file[at..at + 4].copy_from_slice(&n.to_le_bytes());
}
