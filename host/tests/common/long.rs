//! Long runs, on two threads.

use std::ops::AddAssign;
use std::panic::resume_unwind;
use std::sync::atomic::{AtomicU64, Ordering};
use std::sync::{Mutex, PoisonError};
use std::thread;
use std::time::{Duration, Instant};

/// Threads of a long run.
const THREADS: usize = 2;

/// One long run at a time, so that the time it took says something.
static ALONE: Mutex<()> = Mutex::new(());

/// Does the blocks 0..blocks on two threads, each with a tally of its own, and adds the tallies up.
pub fn long<T: for<'a> AddAssign<&'a T> + Default + Send>(
    name: &str,
    blocks: u64,
    work: impl Fn(&mut T, u64) + Sync,
) -> (T, Duration) {
    /// A thread that fails takes the other's work away.
    struct Stop<'a>(&'a AtomicU64);
    impl Drop for Stop<'_> {
        fn drop(&mut self) {
            if thread::panicking() {
                self.0.store(u64::MAX / 2, Ordering::Relaxed);
            }
        }
    }

    let _alone = ALONE.lock().unwrap_or_else(PoisonError::into_inner);
    let (next, start) = (AtomicU64::new(0), Instant::now());
    let thread = |first: bool| {
        let (_stop, mut tally, mut said) = (Stop(&next), T::default(), Instant::now());
        loop {
            let block = next.fetch_add(1, Ordering::Relaxed);
            if block >= blocks {
                return tally;
            }
            work(&mut tally, block);
            if first && said.elapsed() >= Duration::from_secs(10) {
                said = Instant::now();
                let (done, time) = (100 * block / blocks, start.elapsed().as_secs());
                eprintln!("{name}: {done} % after {time} s");
            }
        }
    };
    let mut total = T::default();
    thread::scope(|scope| {
        let threads: Vec<_> = (0..THREADS)
            .map(|n| scope.spawn(move || thread(n == 0)))
            .collect();
        for thread in threads {
            total += &thread.join().unwrap_or_else(|panic| resume_unwind(panic));
        }
    });
    (total, start.elapsed())
}
