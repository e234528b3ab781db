//! How long to wait before a request is sent again, or a lock is asked for again.

use std::hash::{BuildHasher, RandomState};
use std::time::Duration;

/// The waits one after the other; the last one again and again.
const STEPS: [Duration; 4] = [
    Duration::from_millis(500),
    Duration::from_secs(1),
    Duration::from_secs(2),
    Duration::from_secs(4),
];

/// The same for a lock that is held. The last one, scattered, is shorter than a second.
const BUSY_STEPS: [Duration; 5] = [
    Duration::from_millis(50),
    Duration::from_millis(100),
    Duration::from_millis(200),
    Duration::from_millis(400),
    Duration::from_millis(800),
];
/// How many steps one holder is waited for like that, about half a minute, and how long after them.
const LONG_AFTER: usize = 34;
const LONG: Duration = Duration::from_millis(3200);
/// How long a client waits that has a place in the queue of a node, which tells it when to ask.
const WITH_PLACE: Duration = Duration::from_secs(60);

/// Waits between two sends of a request: 0.5, 1, 2, 4, 4, .. seconds, each times a random 0.75 to
/// 1.25, so that clients do not ask in step.
///
/// ```
/// use locks_client::Waits;
/// use std::time::Duration;
///
/// let first = Waits::default().next().unwrap();
/// assert!(first >= Duration::from_millis(375) && first <= Duration::from_millis(625));
/// ```
#[derive(Clone, Debug, Default)]
pub struct Waits {
    step: usize,
}

/// Waits between two requests for a lock that another client holds, scattered too, for programs that
/// drive a [`Session`](crate::Session) and ask by themselves.
/// [`Session::begin_wait`](crate::Session::begin_wait) needs none.
///
/// They begin at 50 ms, start afresh when the fence changes, and stay below a second for half a
/// minute.
///
/// ```
/// use locks_client::BusyWaits;
/// use std::time::Duration;
///
/// let mut waits = BusyWaits::default();
/// assert!(waits.after(3) < Duration::from_millis(63)); // after Busy at fence 3
/// assert!(waits.after(3) > Duration::from_millis(74));
/// ```
#[derive(Clone, Debug, Default)]
pub struct BusyWaits {
    step: usize,
    fence: Option<u64>,
}

/// A random number from 0 on, below 1.
fn random() -> f64 {
    let bits = RandomState::new().hash_one(0_u8);
    (bits >> 11) as f64 / (1_u64 << 53) as f64
}

/// The wait times a random 0.75 to 1.25.
pub(crate) fn scattered(wait: Duration) -> Duration {
    wait.mul_f64(0.75 + 0.5 * random())
}

/// The wait of a client that has a place in the queue of a node.
pub(crate) fn wait_with_place() -> Duration {
    scattered(WITH_PLACE)
}

impl Iterator for Waits {
    type Item = Duration;

    fn next(&mut self) -> Option<Duration> {
        let wait = STEPS[self.step];
        self.step = (self.step + 1).min(STEPS.len() - 1);
        Some(scattered(wait))
    }
}

impl BusyWaits {
    /// How long to wait if the lock is held at that fence.
    pub fn after(&mut self, fence: u64) -> Duration {
        if self.fence.replace(fence) != Some(fence) {
            self.step = 0;
        }
        let wait = match self.step {
            LONG_AFTER.. => LONG,
            step => BUSY_STEPS[step.min(BUSY_STEPS.len() - 1)],
        };
        self.step += 1;
        scattered(wait)
    }
}

#[cfg(test)]
mod tests {
    use super::{BusyWaits, Waits};
    use std::time::Duration;

    #[test]
    fn waits_grow_and_are_scattered() {
        for (wait, most) in Waits::default().zip([0.5, 1.0, 2.0, 4.0, 4.0, 4.0]) {
            let part = wait.as_secs_f64() / most;
            assert!((0.75..=1.25).contains(&part), "{part}");
        }
        let firsts: Vec<_> = (0..8).filter_map(|_| Waits::default().next()).collect();
        assert!(firsts.iter().any(|it| *it != firsts[0]));
    }

    /// Whether the wait is one of so many milliseconds, scattered.
    fn is_about(wait: Duration, milliseconds: u32) -> bool {
        (0.75..=1.25).contains(&(wait.as_secs_f64() * 1000.0 / f64::from(milliseconds)))
    }

    #[test]
    fn a_lock_whose_holder_stays_is_asked_for_less_often() {
        let mut waits = BusyWaits::default();
        for expected in [50, 100, 200, 400] {
            assert!(is_about(waits.after(3), expected));
        }
        for _ in 0..30 {
            assert!(is_about(waits.after(3), 800));
        }
        assert!(is_about(waits.after(3), 3200));
        assert!(is_about(waits.after(3), 3200));
    }

    #[test]
    fn waits_begin_anew_after_a_change_of_the_holder() {
        let mut waits = BusyWaits::default();
        for fence in 1..9 {
            assert!(is_about(waits.after(fence), 50));
            assert!(is_about(waits.after(fence), 100));
        }
    }
}
