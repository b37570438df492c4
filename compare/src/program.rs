//! Words whose control flow passes the check: main and routines of nested IF, LOOP, CALL, JMP and BREAK, up to the limits.
use crate::random::Random;

const NOP: u32 = 0x8400_0000;
const END: u32 = 0x8800_0000;
/// Visits inside two LOOPs count 65,536 times, so that few of them fit.
const MOST: u64 = 4_000_000;

/// What a region opens at most, itself not counted, and what its visits cost.
#[derive(Clone, Copy, Default)]
pub struct Extent {
    pub calls: usize,
    pub ifs: usize,
    pub loops: usize,
    pub cost: u64,
}

impl Extent {
    fn inside(self, part: Extent, calls: usize, ifs: usize, loops: usize, turns: u64) -> Extent {
        Extent {
            calls: self.calls.max(part.calls + calls),
            ifs: self.ifs.max(part.ifs + ifs),
            loops: self.loops.max(part.loops + loops),
            cost: self.cost.saturating_add(part.cost.saturating_mul(turns)),
        }
    }
}

/// A run of words that may be called.
#[derive(Clone, Copy)]
pub struct Routine {
    pub start: usize,
    pub count: usize,
    pub extent: Extent,
    pub emits: bool,
}

/// What may still be opened, and what may still be spent, where words are made.
#[derive(Clone, Copy)]
struct Room {
    calls: usize,
    ifs: usize,
    loops: usize,
    cost: u64,
    looped: bool,
    emits: bool,
}

pub struct Program<'a> {
    random: &'a mut Random,
    pub words: Vec<u32>,
    pub routines: Vec<Routine>,
    /// The most that a main opens.
    pub deepest: Extent,
    descriptors: usize,
    /// How many kinds of word are drawn from: the fewer, the more of them open a region.
    kinds: usize,
}

impl<'a> Program<'a> {
    pub fn new(random: &'a mut Random, descriptors: usize) -> Program<'a> {
        let kinds = [9, 12, 24, 24][random.below(4)];
        Program {
            random,
            words: Vec::new(),
            routines: Vec::new(),
            deepest: Extent::default(),
            descriptors,
            kinds,
        }
    }

    /// A routine of about so many words, which later ones may call.
    pub fn routine(&mut self, size: usize) {
        let start = self.words.len();
        let emits = self.random.one_in(8);
        let room = Room {
            calls: 3,
            ifs: 8,
            loops: 2,
            cost: MOST / 4,
            looped: false,
            emits,
        };
        let extent = self.block(size.max(1), room);
        let count = self.words.len() - start;
        if count <= 255 {
            self.routines.push(Routine {
                start,
                count,
                extent,
                emits,
            });
        }
    }

    /// Main of about so many words, which ends with END: its start, or none if it would cost too much.
    pub fn main(&mut self, size: usize, emits: bool) -> Option<usize> {
        let start = self.words.len();
        let room = Room {
            calls: 4,
            ifs: 8,
            loops: 2,
            cost: MOST - 1,
            looped: false,
            emits,
        };
        let extent = self.block(size, room);
        let bits = if self.random.one_in(4) {
            self.random.bits(26)
        } else {
            0
        };
        self.words.push(END | bits);
        self.deepest = self.deepest.inside(extent, 0, 0, 0, 1);
        (extent.cost < MOST).then_some(start)
    }

    /// Words of one region. Jumps go to later words of the region's own level, so they are set when all are there.
    fn block(&mut self, size: usize, room: Room) -> Extent {
        let mut extent = Extent::default();
        let mut own = Vec::new();
        let mut jumps = Vec::new();
        let start = self.words.len();
        let end = start + size;
        while self.words.len() < end && extent.cost + 1 < room.cost {
            own.push(self.words.len());
            let left = Room {
                cost: room.cost - extent.cost - 1,
                ..room
            };
            extent.cost += 1;
            let size = end - self.words.len();
            match self.random.below(self.kinds) {
                0..=2 if room.ifs > 0 && size >= 3 => self.branch(size, left, &mut extent),
                3 if room.loops > 0 && size >= 2 => self.repeat(size, left, &mut extent),
                4..=5 => self.call(left, &mut extent),
                6 => jumps.push(self.jump()),
                7 if room.looped => self.leave(),
                8 if room.emits => self.emit(),
                9 if self.random.one_in(12) => self.words.push(END),
                _ => self.plain(),
            }
        }
        if self.words.len() == start {
            self.words.push(NOP);
            extent.cost += 1;
        }
        self.aim(&own, &jumps);
        extent
    }

    fn branch(&mut self, size: usize, room: Room, extent: &mut Extent) {
        let at = self.words.len();
        self.words.push(0);
        let inner = Room {
            ifs: room.ifs - 1,
            cost: room.cost / 2,
            ..room
        };
        let most = (size - 1).min(40);
        let taken_size = if self.kinds < 12 {
            most
        } else {
            self.random.between(1, most)
        };
        let taken = self.block(taken_size, inner);
        let dst = self.words.len();
        *extent = extent.inside(taken, 0, 1, 0, 1);
        if !self.random.one_in(3) {
            let size = self.random.between(1, 20);
            let other = self.block(size, inner);
            *extent = extent.inside(other, 0, 1, 0, 1);
        }
        let num = self.words.len() - dst;
        if num > 255 {
            self.words.truncate(at);
            self.words.push(NOP);
            return;
        }
        self.words[at] = if self.random.one_in(2) {
            0x9c00_0000 | self.random.bits(4) << 22 | target(dst, num)
        } else {
            0xa000_0000 | self.random.bits(4) << 22 | target(dst, num)
        };
    }

    fn repeat(&mut self, size: usize, room: Room, extent: &mut Extent) {
        let at = self.words.len();
        self.words.push(0);
        let inner = Room {
            loops: room.loops - 1,
            cost: room.cost / 256,
            looped: true,
            ..room
        };
        if inner.cost < 4 {
            self.words[at] = NOP;
            return;
        }
        let size = self.random.between(1, (size - 1).min(30));
        let body = self.block(size, inner);
        let dst = self.words.len() - 1;
        *extent = extent.inside(body, 0, 0, 1, 256);
        self.words[at] =
            0xa400_0000 | self.random.bits(2) << 22 | target(dst, self.random.bits(8) as usize);
    }

    fn call(&mut self, room: Room, extent: &mut Extent) {
        let fits: Vec<Routine> = self
            .routines
            .iter()
            .filter(|r| {
                r.extent.calls < room.calls
                    && r.extent.ifs <= room.ifs
                    && r.extent.loops <= room.loops
                    && r.extent.cost < room.cost
                    && (room.emits || !r.emits)
            })
            .copied()
            .collect();
        if fits.is_empty() {
            return self.plain();
        }
        let r = fits[self.random.below(fits.len())];
        let opcode = [0x9000_0000, 0x9400_0000, 0x9800_0000][self.random.below(3)];
        *extent = extent.inside(r.extent, 1, 0, 0, 1);
        self.words
            .push(opcode | self.random.bits(4) << 22 | target(r.start, r.count));
    }

    fn jump(&mut self) -> usize {
        let opcode = if self.random.one_in(2) {
            0xb000_0000
        } else {
            0xb400_0000
        };
        self.words
            .push(opcode | self.random.bits(4) << 22 | self.random.bits(8));
        self.words.len() - 1
    }

    /// Sets the targets of a region's jumps; a jump that has none is a NOP.
    fn aim(&mut self, own: &[usize], jumps: &[usize]) {
        for &p in jumps {
            let later: Vec<usize> = own.iter().copied().filter(|&w| w > p).collect();
            if later.is_empty() {
                self.words[p] = NOP;
            } else {
                self.words[p] |= (later[self.random.below(later.len())] as u32) << 10;
            }
        }
    }

    fn leave(&mut self) {
        let word = if self.random.one_in(3) {
            0x8000_0000
        } else {
            0x8c00_0000 | self.random.bits(4) << 22
        };
        self.words.push(word);
    }

    fn emit(&mut self) {
        let word = if self.random.one_in(2) {
            0xa800_0000
        } else {
            0xac00_0000 | self.random.bits(4) << 22
        };
        self.words.push(
            word | if self.random.one_in(4) {
                self.random.bits(22)
            } else {
                0
            },
        );
    }

    /// A word that goes on at the next: one of every other format.
    fn plain(&mut self) {
        const OPCODES: [u32; 22] = [
            0x00, 0x01, 0x02, 0x03, 0x04, 0x05, 0x06, 0x07, 0x08, 0x09, 0x0a, 0x0b, 0x0c, 0x0d,
            0x0e, 0x0f, 0x12, 0x13, 0x18, 0x19, 0x1a, 0x1b,
        ];
        if self.descriptors == 0 {
            return self.words.push(NOP);
        }
        let word = match self.random.below(28) {
            k @ 0..=21 => {
                OPCODES[k] << 26
                    | self.random.bits(19) << 7
                    | self.random.below(self.descriptors) as u32
            }
            22..=23 => {
                0xb800_0000
                    | (self.random.below(6) as u32) << 24
                    | (self.random.below(6) as u32) << 21
                    | self.random.bits(14) << 7
                    | self.random.below(self.descriptors) as u32
            }
            24..=25 => {
                (6 + self.random.bits(1)) << 29
                    | self.random.bits(24) << 5
                    | self.random.below(self.descriptors.min(32)) as u32
            }
            _ => {
                NOP | if self.random.one_in(4) {
                    self.random.bits(26)
                } else {
                    0
                }
            }
        };
        self.words.push(word);
    }
}

fn target(dst: usize, num: usize) -> u32 {
    (dst as u32) << 10 | num as u32
}
