//! The calls on a library, asked of both implementations for the library of one seed.
use crate::both::{Both, Difference};
use crate::calls::{Answer, Calls, Run};
use crate::tally::Tally;
use compare::generate::{case, settings, Settings};
use compare::random::Random;

/// Walks of each executable, with settings of their own.
const WALKS: usize = 2;
/// Executables with a higher total may take long to walk; of one file so many are walked.
pub const LONG: u32 = 1_000_000;
pub const MOST_LONG: u32 = 4;

/// More than the longest listing takes.
const LONG_TEXT: usize = 80 * 513;

struct Library<'a> {
    file: &'a [u8],
    both: Both,
    random: Random,
    tally: &'a mut Tally,
}

/// What the other calls need of an executable's report.
struct Executable {
    constants: u32,
    total: u32,
}

pub fn compare(seed: u64, tally: &mut Tally) -> Result<(), Difference> {
    let case = case(seed);
    let mut library = Library {
        file: &case.file,
        both: Both { seed },
        // Other numbers than those that the library is made of.
        random: Random::new(!seed),
        tally,
    };
    library.verdict()?;
    let executables = library.reports()?;
    library.text("list", |calls, file, out| calls.list(file, out))?;
    library.text("summarize", |calls, file, out| calls.summarize(file, out))?;
    library.walk(&case.settings)?;
    library.walks(&executables)?;
    library.settings_too_short(executables.len() as u32)?;
    library.constants(&executables)
}

impl Library<'_> {
    fn verdict(&mut self) -> Result<(), Difference> {
        let ask = |calls: &dyn Calls| calls.check(self.file);
        let verdict = self.both.answer(format_args!("check"), ask)?;
        self.tally.files[verdict.number() as usize] += 1;
        Ok(())
    }

    /// The reports of all executables and of the one after the last; none if the library is refused.
    fn reports(&mut self) -> Result<Vec<Executable>, Difference> {
        let mut found = Vec::new();
        let room = 8 + self.random.below(3);
        while let Some(executable) = self.report(found.len() as u32, room)? {
            found.push(executable);
        }
        let short = self.random.below(8);
        for executable in [0, found.len() as u32, u32::MAX] {
            self.report(executable, short)?;
        }
        Ok(found)
    }

    fn report(&mut self, executable: u32, room: usize) -> Result<Option<Executable>, Difference> {
        let lent = self.both.lend(
            format_args!("report of executable {executable} into {room} numbers"),
            room,
            |numbers| numbers,
            |calls, out| calls.report(self.file, executable, out),
        )?;
        if lent.answer.value().is_none() {
            return Ok(None);
        }
        self.tally.reports += 1;
        Ok(Some(Executable {
            constants: lent.elements()[5],
            total: lent.elements()[7],
        }))
    }

    /// Into a buffer that is longer than needed, one of the very length, and one a byte too short.
    fn text(
        &mut self,
        name: &str,
        write: fn(&dyn Calls, &[u8], &mut [u8]) -> Answer,
    ) -> Result<(), Difference> {
        let written = |room: usize| -> Result<Option<u32>, Difference> {
            let lent = self.both.lend(
                format_args!("{name} into {room} bytes"),
                room,
                |bytes| bytes,
                |calls, out| write(calls, self.file, out),
            )?;
            Ok(lent.answer.value())
        };
        let Some(bytes) = written(LONG_TEXT)? else {
            // A refusal of the file comes before 30.
            return written(0).map(|_| ());
        };
        written(bytes as usize)?;
        written(bytes as usize - 1)?;
        self.tally.texts += 1;
        Ok(())
    }

    fn walk(&mut self, settings: &Settings) -> Result<(), Difference> {
        let run = Run {
            executable: settings.executable,
            bools: &settings.bools,
            ints: &settings.ints,
            truth: &settings.truth,
        };
        let room = settings.fetched;
        let lent = self.both.lend(
            format_args!("walk with {run:?} into {room} indices"),
            room,
            |steps| steps.min(room),
            |calls, fetched| calls.walk(self.file, run, fetched),
        )?;
        if let Some(steps) = lent.answer.value() {
            self.tally.walks += 1;
            self.tally.steps += u64::from(steps);
            self.tally.longest_walk = self.tally.longest_walk.max(steps);
        }
        Ok(())
    }

    fn walks(&mut self, executables: &[Executable]) -> Result<(), Difference> {
        let mut long = 0;
        for (index, executable) in executables.iter().enumerate() {
            long += u32::from(executable.total > LONG);
            if executable.total > LONG && long > MOST_LONG {
                self.tally.unwalked += 1;
                continue;
            }
            for _ in 0..WALKS {
                let mut settings = settings(&mut self.random, executables.len());
                settings.executable = index as u32;
                if self.random.one_in(4) {
                    settings.ints.fill(255);
                }
                if self.random.one_in(2) {
                    // Room for every step, unless there may be very many.
                    settings.fetched = executable.total.min(LONG) as usize + 2;
                }
                self.walk(&settings)?;
            }
        }
        Ok(())
    }

    fn settings_too_short(&mut self, executables: u32) -> Result<(), Difference> {
        for executable in [0, executables] {
            let (bools, ints) = if self.random.one_in(2) {
                (self.random.below(16), 4)
            } else {
                (16, self.random.below(4))
            };
            self.walk(&Settings {
                executable,
                bools: vec![1; bools],
                ints: vec![1; ints],
                truth: vec![1],
                fetched: 4,
            })?;
        }
        Ok(())
    }

    /// All constants of each executable and the one after its last; buffers too short; what is not there.
    fn constants(&mut self, executables: &[Executable]) -> Result<(), Difference> {
        let room = 4 + self.random.below(3);
        for (index, executable) in executables.iter().enumerate() {
            for n in 0..=executable.constants {
                self.constant(index as u32, n, room)?;
            }
        }
        let short = self.random.below(4);
        for (executable, n) in [(0, 0), (0, u32::MAX), (executables.len() as u32, 0)] {
            self.constant(executable, n, short)?;
        }
        Ok(())
    }

    fn constant(&mut self, executable: u32, n: u32, room: usize) -> Result<(), Difference> {
        let lent = self.both.lend(
            format_args!("constant {n} of executable {executable} into {room} numbers"),
            room,
            |_| 4,
            |calls, out| calls.constant(self.file, executable, n, out),
        )?;
        self.tally.constants += u64::from(lent.answer.value().is_some());
        Ok(())
    }
}
