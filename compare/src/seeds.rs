//! The comparison over many seeds, on every core.
use crate::both::Difference;
use crate::tally::Tally;
use crate::{files, words};
use std::sync::atomic::{AtomicU64, Ordering};
use std::thread;

/// Compares on the seeds below `count`, up to a difference.
pub fn compare(count: u64) -> Result<Tally, Difference> {
    let cores = thread::available_parallelism().map_or(1, usize::from);
    let next = AtomicU64::new(0);
    let parts: Vec<Result<Tally, Difference>> = thread::scope(|scope| {
        let workers: Vec<_> = (0..cores)
            .map(|_| scope.spawn(|| take_seeds(&next, count)))
            .collect();
        workers
            .into_iter()
            .map(|worker| worker.join().expect("a worker ends"))
            .collect()
    });
    let mut all = Tally::default();
    for part in parts {
        all += part?;
    }
    Ok(all)
}

/// Takes one seed after another. A difference leaves none to the other workers.
fn take_seeds(next: &AtomicU64, count: u64) -> Result<Tally, Difference> {
    let mut tally = Tally::default();
    loop {
        let seed = next.fetch_add(1, Ordering::Relaxed);
        if seed >= count {
            return Ok(tally);
        }
        files::compare(seed, &mut tally)
            .and_then(|()| words::compare(seed, &mut tally))
            .inspect_err(|_| next.store(count, Ordering::Relaxed))?;
    }
}
