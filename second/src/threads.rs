//! The work of a comparison, split among threads so that the same cases are compared at every run.

use crate::random::Random;
use std::sync::atomic::{AtomicBool, AtomicUsize, Ordering::Relaxed};
use std::thread::scope;

/// How many threads there are. Not the count of the machine's cores, as the cases depend on it.
const THREADS: usize = 2;

/// How much is compared: cases from this seed on, until so many events were put.
#[derive(Clone, Copy, Debug)]
pub struct Amount {
    /// The seed of the first case.
    pub seed: u64,
    /// The events, over all threads.
    pub events: u64,
}

impl Amount {
    /// So many parts of a hundred, at least one event.
    pub fn percent(self, part: u64) -> Amount {
        Amount { events: (self.events / 100 * part).max(1), ..self }
    }

    /// Numbers for a comparison that draws all its cases in one go.
    pub fn random(self) -> Random {
        Random::new(self.seed)
    }
}

/// Runs the work of each thread, and gives what each counted, or a difference. The work gets the thread's number and whether to
/// stop, as the other thread has found a difference.
fn all<T: Send>(work: impl Fn(usize, &AtomicBool) -> Result<T, String> + Sync) -> Result<Vec<T>, String> {
    let stop = &AtomicBool::new(false);
    let work = &work;
    let counted: Vec<Result<T, String>> = scope(|threads| {
        let started: Vec<_> = (0..THREADS)
            .map(|thread| {
                threads.spawn(move || {
                    let counted = work(thread, stop);
                    stop.fetch_or(counted.is_err(), Relaxed);
                    counted
                })
            })
            .collect();
        started.into_iter().map(|thread| thread.join().expect("a comparison ends")).collect()
    });
    counted.into_iter().collect()
}

/// Compares the cases of seeds: the threads take them in turn, each until it has put its share of the events. `case` gives how
/// many events its case has, and adds to what the thread counts.
pub fn seeds<T: Default + Send>(
    amount: Amount,
    case: impl Fn(u64, &mut T) -> Result<u64, String> + Sync,
) -> Result<Vec<T>, String> {
    all(|thread, stop| {
        let (thread, threads) = (thread as u64, THREADS as u64);
        let share = amount.events / threads + u64::from(thread < amount.events % threads);
        let (mut counted, mut events) = (T::default(), 0);
        let mut seed = amount.seed.wrapping_add(thread);
        while events < share && !stop.load(Relaxed) {
            events += case(seed, &mut counted)?.max(1);
            seed = seed.wrapping_add(threads);
        }
        Ok(counted)
    })
}

/// Compares each item of a list. Items differ in the work they are, so each thread takes the next one.
pub fn items<I: Sync, T: Default + Send>(
    list: &[I],
    one: impl Fn(&I, &mut T) -> Result<(), String> + Sync,
) -> Result<Vec<T>, String> {
    let next = AtomicUsize::new(0);
    all(|_, stop| {
        let mut counted = T::default();
        while let Some(item) = list.get(next.fetch_add(1, Relaxed)) {
            if stop.load(Relaxed) {
                break;
            }
            one(item, &mut counted)?;
        }
        Ok(counted)
    })
}

/// What all threads counted together.
pub fn sums<const N: usize>(counted: Vec<[u64; N]>) -> [u64; N] {
    std::array::from_fn(|at| counted.iter().map(|thread| thread[at]).sum())
}
