//! How a client waits for a lock, and how it gives one back.

use crate::{Answer, Client, Error, Event, Lock, Op};
use std::mem;
use std::time::{Duration, Instant};

/// The fence of a grant.
pub(crate) fn granted(answer: Answer) -> Result<u64, Error> {
    match answer {
        Answer::Granted(fence) | Answer::Shared(fence) => Ok(fence),
        _ => Err(Error::NothingAsked),
    }
}

impl Client {
    /// Releases a guarded lock and gives up an open request, which the answer to the release settles.
    /// Logs an error, and returns it as [`Error::NotHeld`] or [`Error::NotReleased`].
    pub(crate) fn freed(&mut self, name: &str, fence: u64) -> Result<(), Error> {
        self.session.forget();
        let Err(cause) = self.release(name, fence) else {
            return Ok(());
        };
        let event = Event::NotReleased {
            name,
            fence,
            cause: &cause,
        };
        self.session.log.tell(&event);
        match cause {
            Error::NotHeld { .. } => Err(cause),
            _ => Err(Error::NotReleased {
                name: name.to_owned(),
                fence,
                cause: Box::new(cause),
            }),
        }
    }

    /// Takes no more patience than a drop has. What it was before.
    pub(crate) fn bounded(&mut self) -> Duration {
        let bounded = self.drop_patience.min(self.patience);
        mem::replace(&mut self.patience, bounded)
    }

    /// The fence of a grant, for which is asked again while another client holds the name. Resumes an
    /// open release first, and an acquire of the same name.
    pub(crate) fn fence_within(&mut self, op: Op, wait: Duration) -> Result<u64, Error> {
        let start = Instant::now();
        self.settle_release(wait.max(self.patience))?;
        let (now, spent) = (Instant::now(), start.elapsed());
        let (wait, patience) = (
            wait.saturating_sub(spent),
            self.patience.saturating_sub(spent),
        );
        self.session.begin_wait(op, now, wait, patience)?;
        granted(self.driven()?)
    }

    /// Resumes a release that has no answer.
    fn settle_release(&mut self, patience: Duration) -> Result<(), Error> {
        let open = self.session.open.as_ref();
        if !open.is_some_and(|open| matches!(open.op, Op::Release(..))) {
            return Ok(());
        }
        self.session.resume(Instant::now(), patience)?;
        match self.driven() {
            Err(error) if !matches!(error, Error::NotHeld { .. }) => Err(error),
            _ => Ok(()),
        }
    }

    /// The answer to an op. Resumes it if the same one is open.
    pub(crate) fn attempted(&mut self, op: &Op, patience: Duration) -> Result<Answer, Error> {
        match &self.session.open {
            Some(open) if open.op == *op => {
                self.session.resume(Instant::now(), patience)?;
                self.driven()
            }
            _ => self.request_within(op.clone(), patience),
        }
    }

    /// The lock of a grant, or nothing if another client holds it.
    pub(crate) fn tried(
        &mut self,
        name: &str,
        found: Result<u64, Error>,
    ) -> Result<Option<Lock<'_>>, Error> {
        match found {
            Ok(fence) => Ok(Some(Lock::new(self, name, fence))),
            Err(Error::Busy { is_own: false, .. }) => Ok(None),
            Err(error) => Err(error),
        }
    }
}
