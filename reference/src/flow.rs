//! The flow check, visit by visit.

use std::ops::Range;

use crate::layout::MOST_WORDS;
use crate::words::*;
use crate::{demand, refusal, Refusal};

const MOST_TOTAL: u32 = 4_000_000;

/// What the visits of one executable come to.
pub(crate) struct Visits {
    pub distinct: u32,
    pub total: u32,
}

/// What is open at a visit.
#[derive(Clone, Copy, Default)]
struct Open {
    calls: u8,
    ifs: u8,
    loops: u8,
    /// A LOOP is open in the same main or called region.
    breakable: bool,
}

impl Open {
    fn call(self) -> Option<Open> {
        (self.calls < 4).then_some(Open {
            calls: self.calls + 1,
            breakable: false,
            ..self
        })
    }

    fn branch(self) -> Option<Open> {
        (self.ifs < 8).then_some(Open {
            ifs: self.ifs + 1,
            ..self
        })
    }

    fn turn(self) -> Option<Open> {
        (self.loops < 2).then_some(Open {
            loops: self.loops + 1,
            breakable: true,
            ..self
        })
    }
}

struct Check<'a> {
    words: &'a [u32; MOST_WORDS],
    word_count: usize,
    geometry: bool,
    marks: [bool; MOST_WORDS],
    /// Jumps found good at an earlier visit. The own words up to a target
    /// inside the region are the same whatever the region's end, so only the
    /// end is left to test when such a jump is visited again.
    good_jumps: [bool; MOST_WORDS],
}

/// Refusals 22 to 28 of the executable with this main region; the places are
/// word indices.
pub(crate) fn check(
    words: &[u32; MOST_WORDS],
    word_count: usize,
    main: Range<usize>,
    geometry: bool,
) -> Result<Visits, Refusal> {
    let mut check = Check {
        words,
        word_count,
        geometry,
        marks: [false; MOST_WORDS],
        good_jumps: [false; MOST_WORDS],
    };
    let Range { start, end } = main;
    let total = check.region(0, start, end, Open::default())?;
    let last = end - 1;
    demand(
        opcode(words[last]) == END && check.owns(start, end, last),
        28,
        last,
    )?;
    let distinct = check.marks.iter().filter(|&&mark| mark).count() as u32;
    Ok(Visits { distinct, total })
}

impl Check<'_> {
    /// Visits the own words of a region and what they open; takes the total
    /// so far and gives the new one. Descends at most 4 + 8 + 2 deep.
    fn region(
        &mut self,
        mut total: u32,
        start: usize,
        end: usize,
        open: Open,
    ) -> Result<u32, Refusal> {
        let weight = 1 << (8 * open.loops);
        let mut p = start;
        while p < end {
            let word = self.words[p];
            total += weight;
            demand(total <= MOST_TOTAL, 27, p)?;
            self.marks[p] = true;
            let mut next = p + 1;
            match opcode(word) {
                EMIT | SETEMIT => demand(self.geometry, 22, p)?,
                BREAK | BREAKC => demand(open.breakable, 23, p)?,
                JMPC | JMPU => self.jump(p, end)?,
                IFC | IFU => {
                    next = branch_next(word, p, end).ok_or(refusal(24, p))?;
                    let open = open.branch().ok_or(refusal(25, p))?;
                    total = self.region(total, p + 1, target(word), open)?;
                    total = self.region(total, target(word), next, open)?;
                }
                LOOP => {
                    next = loop_next(word, p, end).ok_or(refusal(24, p))?;
                    let open = open.turn().ok_or(refusal(25, p))?;
                    total = self.region(total, p + 1, next, open)?;
                }
                CALL | CALLC | CALLU => {
                    let called = target(word)..target(word) + length(word);
                    demand(!called.is_empty() && called.end <= self.word_count, 24, p)?;
                    let open = open.call().ok_or(refusal(25, p))?;
                    total = self.region(total, called.start, called.end, open)?;
                }
                _ => {}
            }
            p = next;
        }
        Ok(total)
    }

    fn jump(&mut self, p: usize, end: usize) -> Result<(), Refusal> {
        let to = target(self.words[p]);
        demand(p < to && to < end, 26, p)?;
        demand(self.good_jumps[p] || self.owns(p + 1, end, to), 26, p)?;
        self.good_jumps[p] = true;
        Ok(())
    }

    /// Whether `wanted`, inside the region, is among the own words counted
    /// from `start` on.
    fn owns(&self, start: usize, end: usize, wanted: usize) -> bool {
        let mut p = start;
        while p < wanted {
            let word = self.words[p];
            let next = match opcode(word) {
                IFC | IFU => branch_next(word, p, end),
                LOOP => loop_next(word, p, end),
                _ => Some(p + 1),
            };
            match next {
                Some(next) => p = next,
                None => return false,
            }
        }
        p == wanted
    }
}

/// The own word after the IF at `p`, if its bounds are good.
fn branch_next(word: u32, p: usize, end: usize) -> Option<usize> {
    let next = target(word) + length(word);
    (target(word) >= p + 2 && next <= end).then_some(next)
}

/// The own word after the LOOP at `p`, if its bounds are good.
fn loop_next(word: u32, p: usize, end: usize) -> Option<usize> {
    let last = target(word);
    (p < last && last < end).then_some(last + 1)
}
