//! One call asked of both implementations, and what is told where they differ.
use crate::calls::{Answer, Calls};
use crate::proved::Proved;
use crate::unproved::Reference;
use std::fmt::{Arguments, Debug, Display, Formatter, Result as Formatted};

/// The proved implementation, then the reference.
pub const SIDES: [&dyn Calls; 2] = [&Proved, &Reference];

/// A call that the two do not answer alike.
pub struct Difference {
    pub seed: u64,
    call: String,
    proved: String,
    reference: String,
}

impl Display for Difference {
    fn fmt(&self, f: &mut Formatter) -> Formatted {
        writeln!(f, "seed {}, {}", self.seed, self.call)?;
        writeln!(f, "  proved:    {}", self.proved)?;
        write!(f, "  reference: {}", self.reference)
    }
}

/// What buffers hold before a call, at each index; no call writes it.
pub trait Element: Copy + PartialEq + Debug {
    fn unwritten(index: usize) -> Self;
}

impl Element for u8 {
    fn unwritten(index: usize) -> u8 {
        0x80 | index as u8
    }
}

impl Element for u16 {
    fn unwritten(index: usize) -> u16 {
        0x8000 | index as u16
    }
}

impl Element for u32 {
    fn unwritten(index: usize) -> u32 {
        0xffff_0000 | index as u32 & 0xffff
    }
}

/// Elements before and after what is lent of a buffer, to show writes outside it.
const MARGIN: usize = 8;

/// A lent buffer with its margins after a call, and the call's answer.
pub struct Lent<T> {
    pub answer: Answer,
    all: Vec<T>,
}

impl<T: Element> Lent<T> {
    fn to(length: usize, call: impl FnOnce(&mut [T]) -> Answer) -> Lent<T> {
        let mut all: Vec<T> = (0..length + 2 * MARGIN).map(T::unwritten).collect();
        let answer = call(&mut all[MARGIN..MARGIN + length]);
        Lent { answer, all }
    }

    pub fn elements(&self) -> &[T] {
        &self.all[MARGIN..self.all.len() - MARGIN]
    }

    /// The first element that was written beyond the first `count`.
    fn written_beyond(&self, count: usize) -> Option<usize> {
        let allowed = MARGIN..MARGIN + count;
        (0..self.all.len()).find(|&i| !allowed.contains(&i) && self.all[i] != T::unwritten(i))
    }

    /// The answer, and the element at this index of the whole.
    fn tell(&self, index: usize) -> String {
        let place = index as isize - MARGIN as isize;
        format!("{}, element {place} {:?}", self.answer, self.all[index])
    }
}

/// Asks both; the seed is what a difference is reported with.
#[derive(Clone, Copy)]
pub struct Both {
    pub seed: u64,
}

impl Both {
    pub fn answer(
        &self,
        call: Arguments,
        ask: impl Fn(&dyn Calls) -> Answer,
    ) -> Result<Answer, Difference> {
        let [proved, reference] = SIDES.map(ask);
        if proved == reference {
            return Ok(proved);
        }
        Err(self.difference(call, proved.to_string(), reference.to_string()))
    }

    /// A call that writes into a lent buffer of this length. Answers and whole buffers have to be alike, and nothing
    /// written beyond what the call's value says: `written` of it, or nothing where the call is refused.
    pub fn lend<T: Element>(
        &self,
        call: Arguments,
        length: usize,
        written: impl Fn(usize) -> usize,
        ask: impl Fn(&dyn Calls, &mut [T]) -> Answer,
    ) -> Result<Lent<T>, Difference> {
        let [proved, reference] = SIDES.map(|side| Lent::to(length, |lent| ask(side, lent)));
        if proved.answer != reference.answer {
            let answers = (proved.answer.to_string(), reference.answer.to_string());
            return Err(self.difference(call, answers.0, answers.1));
        }
        let count = proved.answer.value().map_or(0, |v| written(v as usize));
        let unlike = (0..proved.all.len()).find(|&i| proved.all[i] != reference.all[i]);
        match unlike.or_else(|| proved.written_beyond(count)) {
            Some(index) => Err(self.difference(call, proved.tell(index), reference.tell(index))),
            None => Ok(proved),
        }
    }

    fn difference(&self, call: Arguments, proved: String, reference: String) -> Difference {
        Difference {
            seed: self.seed,
            call: call.to_string(),
            proved,
            reference,
        }
    }
}
