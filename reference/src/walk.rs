//! The control walk: runs an accepted executable by the stepping rules.

use crate::words::*;
use crate::Report;

/// What stays fixed during a run.
pub(crate) struct Settings<'a> {
    pub bools: &'a [u8; 16],
    pub ints: &'a [u8; 4],
    pub truth: &'a [u8],
}

/// An open region and what happens at its end.
#[derive(Clone, Copy, Default)]
struct Region {
    start: usize,
    end: usize,
    /// Where the run goes on once the region closes.
    after: usize,
    /// Turns still to make; 0 unless this is a LOOP.
    turns: u8,
    is_loop: bool,
}

/// Main, 4 CALLs, 8 IFs and 2 LOOPs: no accepted executable opens more.
const DEPTH: usize = 15;

/// The open regions, innermost last.
struct Stack {
    regions: [Region; DEPTH],
    depth: usize,
}

impl Stack {
    fn open(&mut self, region: Region) -> Option<()> {
        *self.regions.get_mut(self.depth)? = region;
        self.depth += 1;
        Some(())
    }

    fn innermost(&mut self) -> Option<&mut Region> {
        self.regions[..self.depth].last_mut()
    }

    /// Closes every region whose end `p` has reached; answers where the run
    /// goes on, or None with main closed.
    fn settle(&mut self, mut p: usize) -> Option<usize> {
        loop {
            let region = self.innermost()?;
            if p != region.end {
                return Some(p);
            }
            if region.turns > 0 {
                region.turns -= 1;
                return Some(region.start);
            }
            p = region.after;
            self.depth -= 1;
        }
    }

    /// Closes up to and including the innermost LOOP; answers what follows it.
    fn leave_loop(&mut self) -> Option<usize> {
        loop {
            let region = *self.innermost()?;
            self.depth -= 1;
            if region.is_loop {
                return Some(region.after);
            }
        }
    }
}

struct Run<'a> {
    settings: Settings<'a>,
    stack: Stack,
    /// Conditional words executed so far.
    asked: usize,
}

/// Runs the executable of this report; answers the steps. The check has
/// bounded them by the report's total.
pub(crate) fn run(words: &[u32], report: &Report, settings: Settings, fetched: &mut [u16]) -> u32 {
    let end = report.endmain as usize;
    let main = Region {
        end,
        after: end,
        ..Region::default()
    };
    let mut stack = Stack {
        regions: [Region::default(); DEPTH],
        depth: 1,
    };
    stack.regions[0] = main;
    let mut run = Run {
        settings,
        stack,
        asked: 0,
    };
    let mut at = Some(report.main as usize);
    let mut steps = 0;
    while let Some(p) = at {
        let Some(&word) = words.get(p) else { break };
        if let Some(slot) = fetched.get_mut(steps) {
            *slot = p as u16;
        }
        steps += 1;
        at = run.step(p, word);
    }
    steps as u32
}

impl Run<'_> {
    /// Executes the word at `p`; answers the next index, if there is one.
    fn step(&mut self, p: usize, word: u32) -> Option<usize> {
        let next = match opcode(word) {
            END => return None,
            IFC | IFU => self.branch(p, word)?,
            CALL | CALLC | CALLU => self.call(p, word)?,
            LOOP => self.turn(p, word)?,
            JMPC | JMPU if self.taken(word) => target(word),
            BREAK | BREAKC if self.taken(word) => self.stack.leave_loop()?,
            _ => p + 1,
        };
        self.stack.settle(next)
    }

    /// Whether a word that depends on a bool or a comparison is taken; words
    /// that depend on nothing are.
    fn taken(&mut self, word: u32) -> bool {
        match opcode(word) {
            CALLU | IFU | JMPU => self.settings.bools[register(word)] != 0,
            CALLC | IFC | JMPC | BREAKC => {
                let outcome = self.settings.truth.get(self.asked);
                self.asked += 1;
                outcome.is_some_and(|&byte| byte != 0)
            }
            _ => true,
        }
    }

    fn branch(&mut self, p: usize, word: u32) -> Option<usize> {
        let middle = target(word);
        let after = middle + length(word);
        let (start, end) = if self.taken(word) {
            (p + 1, middle)
        } else {
            (middle, after)
        };
        if start < end {
            self.stack.open(Region {
                start,
                end,
                after,
                ..Region::default()
            })?;
        }
        Some(start)
    }

    fn call(&mut self, p: usize, word: u32) -> Option<usize> {
        if !self.taken(word) {
            return Some(p + 1);
        }
        let start = target(word);
        let end = start + length(word);
        self.stack.open(Region {
            start,
            end,
            after: p + 1,
            ..Region::default()
        })?;
        Some(start)
    }

    fn turn(&mut self, p: usize, word: u32) -> Option<usize> {
        let turns = *self.settings.ints.get(register(word))?;
        let end = target(word) + 1;
        self.stack.open(Region {
            start: p + 1,
            end,
            after: end,
            turns,
            is_loop: true,
        })?;
        Some(p + 1)
    }
}
