//! A watch of a lock that is held.

use crate::{Answer, Error, Event, Lock, Op};
use std::sync::{Condvar, Mutex, MutexGuard, PoisonError};
use std::thread;
use std::time::Duration;

/// The default interval between two checks.
const EACH: Duration = Duration::from_secs(1);
/// The shortest time that a check waits for its answer.
const LEAST_PATIENCE: Duration = Duration::from_millis(250);

/// Shows whether a lock is still held, for the work that [`Lock::watch`] runs. Threads of that work
/// may share it.
#[derive(Debug)]
pub struct Watch {
    fence: u64,
    state: Mutex<State>,
    changed: Condvar,
}

#[derive(Clone, Copy, Debug, PartialEq, Eq)]
enum State {
    Held,
    Lost,
    /// The work is done.
    Ended,
}

impl Watch {
    /// The fence at which the lock was granted.
    pub fn fence(&self) -> u64 {
        self.fence
    }

    /// Whether a check has found that the lock is no longer held at its fence.
    ///
    /// `false` is no proof that it is held: pass the fence with each write all the same.
    pub fn is_lost(&self) -> bool {
        *self.state() == State::Lost
    }

    /// Waits up to `wait` until the lock is lost. Whether it is.
    pub fn wait_lost(&self, wait: Duration) -> bool {
        self.changed_within(wait) == State::Lost
    }

    fn state(&self) -> MutexGuard<'_, State> {
        self.state.lock().unwrap_or_else(PoisonError::into_inner)
    }

    /// The state once it has changed, or after that time.
    fn changed_within(&self, wait: Duration) -> State {
        let is_held = |state: &mut State| *state == State::Held;
        let waited = self.changed.wait_timeout_while(self.state(), wait, is_held);
        *waited.unwrap_or_else(PoisonError::into_inner).0
    }

    /// Changes the state of a lock that is held. One that was lost stays lost.
    fn leave(&self, state: State) {
        let mut now = self.state();
        if *now == State::Held {
            *now = state;
        }
        self.changed.notify_all();
    }
}

/// Ends a watch when it is dropped, also while the work panics.
struct Ender<'a>(&'a Watch);

impl Drop for Ender<'_> {
    fn drop(&mut self) {
        self.0.leave(State::Ended);
    }
}

impl Lock<'_> {
    /// Checks once whether the lock is still held at its fence.
    pub fn is_held(&mut self) -> Result<bool, Error> {
        let (name, fence) = (self.name().to_owned(), self.fence());
        self.client().check(&name, fence)
    }

    /// Runs the work while another thread checks once a second whether the lock is still held. Once it
    /// is not, that thread calls `on_lost` and ends.
    ///
    /// The work may call [`Watch::is_lost`]. A check without an answer is logged and is not a loss.
    /// When the work ends during a check, this waits for that check, for a second at most.
    /// [`Error::Unanswered`] if a request of the client is open: then the work is not run.
    ///
    #[doc = asks_a_node!()]
    /// # mod support { include!(concat!(env!("CARGO_MANIFEST_DIR"), "/tests/support/cluster.rs")); }
    /// # use locks_client::*;
    /// # use std::time::Duration;
    /// # fn write_page(_: usize, _: u64) -> Result<(), Error> { Ok(()) }
    /// # fn main() -> Result<(), Error> {
    /// # let cluster = support::Cluster::start(1);
    /// # let mut client = cluster.client(7);
    /// let mut lock = client.lock("db", Duration::from_secs(60))?;
    /// let written = lock.watch(
    ///     || eprintln!("db was broken: the work ends after its page"),
    ///     |watch| {
    ///         (0..9)
    ///             .take_while(|_| !watch.is_lost())
    ///             .try_for_each(|page| write_page(page, watch.fence()))
    ///     },
    /// )?;
    /// written?;
    /// lock.release()
    /// # }
    /// ```
    pub fn watch<T>(
        &mut self,
        on_lost: impl FnOnce() + Send,
        work: impl FnOnce(&Watch) -> T,
    ) -> Result<T, Error> {
        self.watch_every(EACH, on_lost, work)
    }

    /// The same with another interval between two checks.
    pub fn watch_every<T>(
        &mut self,
        pause: Duration,
        on_lost: impl FnOnce() + Send,
        work: impl FnOnce(&Watch) -> T,
    ) -> Result<T, Error> {
        if let Some(open) = &self.client().session.open {
            let op = open.op.clone();
            return Err(Error::Unanswered { op });
        }
        let watch = Watch {
            fence: self.fence(),
            state: Mutex::new(State::Held),
            changed: Condvar::new(),
        };
        let done = thread::scope(|scope| {
            scope.spawn(|| self.checks(pause, &watch, on_lost));
            let _ender = Ender(&watch);
            work(&watch)
        });
        self.client().session.forget(); // a check that has no answer
        Ok(done)
    }

    /// Repeats the check until the lock is lost or the work has ended.
    fn checks(&mut self, pause: Duration, watch: &Watch, on_lost: impl FnOnce()) {
        while watch.changed_within(pause) == State::Held {
            match self.checked(pause) {
                Ok(true) => {}
                Ok(false) => {
                    watch.leave(State::Lost);
                    return on_lost();
                }
                Err(cause) => self.tell_unwatched(&cause),
            }
        }
    }

    /// Checks once, or resumes the last check if that has no answer.
    fn checked(&mut self, pause: Duration) -> Result<bool, Error> {
        let check = Op::Check(self.name().to_owned(), self.fence());
        let patience = pause.clamp(LEAST_PATIENCE, EACH);
        let answer = self.client().attempted(&check, patience)?;
        Ok(answer == Answer::Valid)
    }

    fn tell_unwatched(&mut self, cause: &Error) {
        let (name, fence) = (self.name().to_owned(), self.fence());
        let name = name.as_str();
        let event = Event::Unwatched { name, fence, cause };
        self.client().session.log.tell(&event);
    }
}
