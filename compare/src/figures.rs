//! Nanoseconds of the calls of both implementations on the same inputs.
use crate::both::SIDES;
use crate::calls::{Answer, Calls, Run};
use compare::inputs::{all, Input, BOOLS, INTS};
use std::hint::black_box;
use std::time::{Duration, Instant};

/// A batch of calls takes at least so long that the clock's own steps do not count.
const BATCH: Duration = Duration::from_millis(2);
/// The best batch counts, out of so many, or of as many as begin in this time.
const MOST_BATCHES: usize = 50;
const TIME: Duration = Duration::from_secs(1);

const HEAD: &str = "\
Nanoseconds of one call, the best of several batches, the two implementations in turn in one run, both built for release.
Calls are 25·25·24 deep. Report and walk are of the last executable.
In a walk the bools with odd numbers are true and every x is 255; its list takes every index.
Buffers are allocated and cleared before timing, not in it, and not cleared between calls.

| input | call | proved | reference | ratio |
|---|---|---:|---:|---:|";

pub fn print() {
    println!("{HEAD}");
    for input in all() {
        print_rows(&input, total(&input));
    }
}

/// The total of each of the input's executables, which are alike.
fn total(input: &Input) -> u32 {
    let mut report = [0; 8];
    for side in SIDES {
        let answer = side.report(&input.file, input.executables - 1, &mut report);
        assert_eq!(answer.value(), Some(8), "{}: {answer}", input.name);
    }
    let total = report[7];
    assert!(total < 4_000_000, "{}: total {total}", input.name);
    total
}

fn print_rows(input: &Input, total: u32) {
    let file = input.file.as_slice();
    let executable = input.executables - 1;
    let run = Run {
        executable,
        bools: &BOOLS,
        ints: &INTS,
        truth: &[],
    };
    let mut report = [0; 8];
    let mut text = vec![0; 80 * 512];
    let mut fetched = vec![0; total as usize];
    print_row(&input.name, "check", |calls| calls.check(black_box(file)));
    print_row(&input.name, "report", |calls| {
        calls.report(black_box(file), executable, black_box(&mut report))
    });
    print_row(&input.name, "listing", |calls| {
        calls.list(black_box(file), black_box(&mut text))
    });
    print_row(&input.name, "walk", |calls| {
        calls.walk(black_box(file), black_box(run), black_box(&mut fetched))
    });
}

fn print_row(input: &str, call: &str, mut ask: impl FnMut(&dyn Calls) -> Answer) {
    let [proved, reference] = SIDES.map(&mut ask);
    assert!(proved == reference, "{input}: {proved} and {reference}");
    let [proved, reference] = best_times(&mut ask);
    let ratio = proved / reference;
    println!("| {input} | {call} | {proved:.0} | {reference:.0} | {ratio:.2} |");
}

/// Nanoseconds of one call by each side.
fn best_times(ask: &mut dyn FnMut(&dyn Calls) -> Answer) -> [f64; 2] {
    let start = Instant::now();
    let mut batches = SIDES.map(|side| Batch::first(ask, side));
    for _ in 1..MOST_BATCHES {
        if start.elapsed() > TIME {
            break;
        }
        for (batch, side) in batches.iter_mut().zip(SIDES) {
            batch.best = batch.best.min(time(ask, side, batch.calls));
        }
    }
    batches.map(|batch| batch.best.as_nanos() as f64 / f64::from(batch.calls))
}

/// So many calls, and their best time up to now.
struct Batch {
    calls: u32,
    best: Duration,
}

impl Batch {
    /// The first batch that is long enough.
    fn first(ask: &mut dyn FnMut(&dyn Calls) -> Answer, side: &dyn Calls) -> Batch {
        let mut calls = 1;
        loop {
            let best = time(ask, side, calls);
            if best >= BATCH {
                return Batch { calls, best };
            }
            calls *= 2;
        }
    }
}

fn time(ask: &mut dyn FnMut(&dyn Calls) -> Answer, side: &dyn Calls, calls: u32) -> Duration {
    let start = Instant::now();
    for _ in 0..calls {
        black_box(ask(side));
    }
    start.elapsed()
}
