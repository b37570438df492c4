//! Damages: one that aims at a part of the file, and rough ones.
use crate::generate::{set32, take_table, Entries, Layout, ENTRIES, SYMBOLS};
use crate::random::Random;

fn word(file: &mut [u8], layout: &Layout, p: usize, word: u32) {
    set32(file, layout.words + 4 * p, word);
}

/// A word that an executable may come to.
fn visited(layout: &Layout, random: &mut Random) -> usize {
    let e = &layout.executables[random.below(layout.executables.len())];
    e.main + random.below((e.endmain - e.main).max(1))
}

fn entry(file: &mut [u8], t: &Entries, size: usize, field: usize, value: u8, random: &mut Random) {
    if t.count > 0 {
        file[t.at + size * random.below(t.count) + field] = value;
    }
}

/// One damage. Most keep the file's length, so that a second one can follow where it is still as laid out.
pub fn damage(file: &mut Vec<u8>, layout: &Layout, random: &mut Random) {
    let e = &layout.executables[random.below(layout.executables.len())];
    let p = visited(layout, random);
    let any = random.draw() as u32;
    let condition = random.bits(4) << 22;
    if file.len() < e.dvle + 64
        || file.len() < layout.words + 4 * layout.word_count
        || layout.word_count == 0
    {
        return;
    }
    match random.below(35) {
        0 => file.resize(65_537, 0),
        1 => file.truncate(random.below(8)),
        2 => file[random.below(4)] ^= 0x20,
        3 => set32(file, 4, [0, 17, any][random.below(3)]),
        4 => file.truncate(random.between(8, layout.dvlp + 39)),
        5 => file[layout.dvlp + random.below(4)] ^= 0x20,
        6 => set32(file, layout.dvlp + 0x0c, [0, 513, any][random.below(3)]),
        7 => set32(file, layout.dvlp + 0x14, [129, 128, any][random.below(3)]),
        8 => set32(
            file,
            layout.dvlp + [0x08, 0x10, 0x18, 0x20][random.below(4)],
            [1, 2, 0, any, any & 0xffff][random.below(5)],
        ),
        9 => word(
            file,
            layout,
            p,
            [0x10, 0x11, 0x14, 0x17, 0x1c, 0x1f][random.below(6)] << 26,
        ),
        10 => word(
            file,
            layout,
            p,
            0xb800_0000 | [6 << 24, 7 << 24, 6 << 21, 7 << 21][random.below(4)],
        ),
        11 => word(file, layout, p, 0x7f | random.bits(4) << 26),
        12 => word(file, layout, p, 0xa500_0000 | random.bits(22)),
        13 => set32(file, 8, [1, 2, any & 0xffff, any][random.below(4)]),
        14 => file[e.dvle + random.below(4)] ^= 0x20,
        15 => file[e.dvle + 6] = [0, 1, 2, 3, 255][random.below(5)],
        16 => set32(
            file,
            e.dvle + [0x08, 0x0c][random.below(2)],
            [0, 1, 512, 513, any][random.below(5)],
        ),
        17 => set32(
            file,
            e.dvle + 0x18 + 4 * random.below(10),
            [1, any & 0xffff, any][random.below(3)],
        ),
        18 => entry(
            file,
            &e.constants,
            20,
            [0, 2, 7][random.below(3)],
            [3, 16, 96, 127, 255][random.below(5)],
            random,
        ),
        19 => entry(
            file,
            &e.labels,
            16,
            [5, 13, 4][random.below(3)],
            [2, 255][random.below(2)],
            random,
        ),
        20 => entry(
            file,
            &e.outputs,
            8,
            [0, 2, 4][random.below(3)],
            [0, 7, 9, 16][random.below(4)],
            random,
        ),
        21 => entry(
            file,
            &e.uniforms,
            8,
            [1, 4, 6, 7][random.below(4)],
            [0x0f, 0x74, 0x88, 0xff][random.below(4)],
            random,
        ),
        22 => word(file, layout, p, [0xa800_0000, 0xac00_0000][random.below(2)]),
        23 => word(
            file,
            layout,
            p,
            [0x8000_0000, 0x8c00_0000][random.below(2)] | condition,
        ),
        24 => word(
            file,
            layout,
            p,
            [
                0x9c00_0000,
                0xa000_0000,
                0xa400_0000,
                0x9000_0000,
                0x9400_0000,
            ][random.below(5)]
                | any & 0x00ff_ffff,
        ),
        25 => word(file, layout, p, 0x9000_0000 | (p as u32) << 10 | 1),
        26 => word(
            file,
            layout,
            p,
            [0xb000_0000, 0xb400_0000][random.below(2)]
                | condition
                | (random.below(layout.word_count + 2) as u32) << 10,
        ),
        27 => {
            let last = e.endmain - 1;
            if last > e.main + 2 {
                word(file, layout, e.main, 0xa400_0000 | (last as u32 - 1) << 10);
                word(
                    file,
                    layout,
                    e.main + 1,
                    0xa400_0000 | (last as u32 - 1) << 10,
                );
            }
        }
        28 => word(file, layout, e.endmain - 1, 0x8400_0000),
        29 => word(file, layout, p, any),
        30 => {
            let other = visited(layout, random);
            word(
                file,
                layout,
                p,
                0x9000_0000 | (other as u32) << 10 | random.between(1, 4) as u32,
            );
        }
        31 => set32(
            file,
            e.dvle + 0x0c,
            random.below(layout.word_count + 1) as u32,
        ),
        // One table of the next executable, which may not go with the others.
        32 => {
            let n = random.below(layout.executables.len());
            if let Some(next) = layout.executables.get(n + 1) {
                let field = [ENTRIES[0], ENTRIES[1], ENTRIES[3], SYMBOLS][random.below(4)];
                if file.len() >= next.dvle + 64 {
                    take_table(file, layout.executables[n].dvle, next.dvle, field);
                }
            }
        }
        _ => {
            let at = layout.words + 4 * p + random.below(4);
            file[at] ^= 1 << random.below(8);
        }
    }
}

/// Bytes changed anywhere, a file cut off or lengthened, parts moved.
pub fn rough(file: &mut Vec<u8>, random: &mut Random) {
    for _ in 0..random.between(1, 12) {
        if file.is_empty() {
            return;
        }
        let at = random.below(file.len());
        match random.below(8) {
            0 => file.truncate(at),
            1 => file.extend((0..random.below(64)).map(|i| i as u8)),
            2 => file[at] = random.draw() as u8,
            3 => file[at] = [0, 0xff, 0x7f, 0x80][random.below(4)],
            4 => {
                let from = random.below(file.len());
                let n = random.below(64).min(file.len() - at.max(from));
                file.copy_within(from..from + n, at);
            }
            _ => file[at] ^= 1 << random.below(8),
        }
    }
}
