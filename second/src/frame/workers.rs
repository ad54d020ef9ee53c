//! Threads that take the jobs of a comparison.

use std::sync::atomic::{AtomicBool, AtomicUsize, Ordering};
use std::sync::Mutex;

use super::comparison::{Comparer, Comparison, Halt};
use super::options::Options;
use super::tally::Tally;
use crate::random::Random;

/// The stack of a thread in bytes: a translation by the archive needs more
/// than threads have by themselves.
const STACK: usize = 16 << 20;

/// The jobs of one round, each with the most cases that it may compare.
pub struct Round<'a, C: Comparison> {
    pub comparison: &'a C,
    pub jobs: &'a [C::Job],
    pub number: u64,
    pub most: u64,
}

/// What the threads share.
struct Shared<'a, C: Comparison> {
    round: &'a Round<'a, C>,
    options: &'a Options<C::Mistake>,
    seed: u64,
    next: AtomicUsize,
    stop: AtomicBool,
    done: Mutex<(Tally, Option<String>)>,
}

/// Runs every job; the counts of all, and the report of the first difference.
/// The jobs of each round draw other numbers.
pub fn run_jobs<C: Comparison>(
    round: &Round<C>,
    options: &Options<C::Mistake>,
) -> (Tally, Option<String>) {
    let shared = Shared {
        round,
        options,
        seed: Random::new(options.seed).draw() ^ (round.number << 32),
        next: AtomicUsize::new(0),
        stop: AtomicBool::new(false),
        done: Mutex::new((Tally::default(), None)),
    };
    std::thread::scope(|scope| {
        for _ in 0..options.threads.max(1) {
            let thread = std::thread::Builder::new().stack_size(STACK);
            let spawned = thread.spawn_scoped(scope, || take_jobs(&shared));
            spawned.unwrap_or_else(|error| panic!("no thread: {error}"));
        }
    });
    shared.done.into_inner().unwrap_or_else(|poisoned| poisoned.into_inner())
}

/// Takes jobs until none is left. What a job compares depends on the seed and
/// the job only, not on the thread.
fn take_jobs<C: Comparison>(shared: &Shared<C>) {
    let Round { comparison, jobs, most, .. } = *shared.round;
    loop {
        let at = shared.next.fetch_add(1, Ordering::Relaxed);
        let Some(job) = jobs.get(at) else { return };
        let mut random = Random::new(Random::new(shared.seed ^ at as u64).draw());
        let mut comparer = Comparer {
            comparison,
            mistake: shared.options.mistake(),
            seed: shared.options.seed,
            tally: Tally::default(),
            lender: comparison.lender(&mut random),
            most,
            stop: &shared.stop,
        };
        let ended = comparison.work(job, &mut comparer, &mut random);
        let mut done = shared.done.lock().unwrap_or_else(|poisoned| poisoned.into_inner());
        done.0.merge(&comparer.tally);
        match ended {
            Ok(()) | Err(Halt::Enough) => {}
            Err(Halt::Stopped) => return,
            Err(Halt::Difference(report)) => {
                shared.stop.store(true, Ordering::Relaxed);
                done.1.get_or_insert(report);
                return;
            }
        }
    }
}
