//! When the clients of a run begin together, and when they end.

use crate::lock::Lock;
use crate::tally::{Pair, Record};
use std::io;
use std::sync::atomic::{AtomicBool, AtomicU64, Ordering};
use std::sync::{Barrier, OnceLock};
use std::thread;
use std::time::{Duration, Instant};

/// How long a run lasts.
#[derive(Clone, Copy, Debug, PartialEq)]
pub enum Length {
    /// As long as this.
    Time(Duration),
    /// Until the clients have done so many pairs together.
    Pairs(u64),
}

/// The start and the end that the clients of a run share.
pub struct Course {
    length: Length,
    start: Barrier,
    begun: OnceLock<Instant>,
    is_over: AtomicBool,
    left: AtomicU64,
}

impl Course {
    /// A course for so many clients.
    pub fn new(clients: usize, length: Length) -> Course {
        let pairs = match length {
            Length::Time(_) => u64::MAX,
            Length::Pairs(pairs) => pairs,
        };
        Course {
            length,
            start: Barrier::new(clients + 1),
            begun: OnceLock::new(),
            is_over: AtomicBool::new(false),
            left: AtomicU64::new(pairs),
        }
    }

    /// Starts the clients once all are ready, and ends a run of a given time.
    pub fn keep_time(&self) {
        self.start.wait();
        if let Length::Time(time) = self.length {
            thread::sleep(time);
            self.is_over.store(true, Ordering::Relaxed);
        }
    }

    /// When the first of the clients began.
    pub fn begun(&self) -> Instant {
        *self.begun.get_or_init(Instant::now)
    }

    /// Whether one more pair is to be done.
    fn goes_on(&self) -> bool {
        let taken = |left: u64| left.checked_sub(1);
        !self.is_over.load(Ordering::Relaxed)
            && self
                .left
                .fetch_update(Ordering::Relaxed, Ordering::Relaxed, taken)
                .is_ok()
    }
}

fn pair(lock: &mut dyn Lock) -> io::Result<()> {
    lock.acquire()?;
    lock.release()
}

/// A first pair, which finds the service. It is not counted, unless it fails. Before it the lock is
/// released: a request that was sent twice may have taken effect after an earlier run.
fn begin(lock: &mut dyn Lock, begun: Instant) -> Record {
    let mut record = Record::default();
    let _ = lock.release();
    if let Err(error) = pair(lock) {
        record.fail(&error);
    }
    record.ready = begun.elapsed();
    record
}

/// What one client does: a first pair, and then as many as the course lets it. After an error the
/// lock may be held, so it is released.
pub fn work(mut lock: Box<dyn Lock>, course: &Course, begun: Instant) -> Record {
    let mut record = begin(lock.as_mut(), begun);
    let repeated = lock.repeated();
    let is_ready = record.errors == 0;
    course.start.wait();
    course.begun();
    while is_ready && course.goes_on() {
        let asked = Instant::now();
        match pair(lock.as_mut()) {
            Ok(()) => record.pairs.push(Pair::from(asked)),
            Err(error) => {
                record.fail(&error);
                let _ = lock.release();
            }
        }
    }
    record.repeated = lock.repeated() - repeated;
    record
}
