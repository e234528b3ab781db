//! The socket of a client, which drives its session.

use crate::numbers::Use;
use crate::{Answer, Client, Error, LockState, Op, Session, Step};
use std::io::ErrorKind;
use std::thread;
use std::time::{Duration, Instant};

/// The pause after a failed read.
const PAUSE: Duration = Duration::from_millis(10);

impl Client {
    /// Who holds the name.
    pub(crate) fn lock_state(&mut self, used_for: Use, name: &str) -> Result<LockState, Error> {
        let (now, patience) = (Instant::now(), self.patience);
        self.session.begin_ask(used_for, name, now, patience)?;
        match self.driven()? {
            Answer::Free(fence) => Ok(LockState::Free { fence }),
            Answer::Held { holder, fence } => Ok(LockState::Held { holder, fence }),
            Answer::HeldShared { holders, fence } => Ok(LockState::HeldShared { holders, fence }),
            _ => Err(Error::NothingAsked),
        }
    }

    /// The answer to an op under a new number.
    pub(crate) fn request(&mut self, op: Op) -> Result<Answer, Error> {
        self.request_within(op, self.patience)
    }

    /// The same, within another patience.
    pub(crate) fn request_within(&mut self, op: Op, patience: Duration) -> Result<Answer, Error> {
        self.session.begin(op, Instant::now(), patience)?;
        self.driven()
    }

    /// The answer of the request that was begun.
    pub(crate) fn driven(&mut self) -> Result<Answer, Error> {
        loop {
            match self.session.step(Instant::now()) {
                Step::Send { bytes, to } => drop(self.socket.send_to(&bytes, to)),
                Step::Wait { until } => self.receive(until)?,
                Step::Done(answer) => return answer,
            }
        }
    }

    /// Takes the next datagram, if one arrives in time.
    fn receive(&mut self, until: Instant) -> Result<(), Error> {
        let left = until.saturating_duration_since(Instant::now());
        if left.is_zero() {
            return Ok(());
        }
        let timeout = self.socket.set_read_timeout(Some(left));
        timeout.map_err(Error::Socket)?;
        let mut buffer = [0; Session::LONGEST];
        match self.socket.recv_from(&mut buffer) {
            Ok((length, from)) => self.session.take(&buffer[..length], from, Instant::now()),
            Err(error) if matches!(error.kind(), ErrorKind::WouldBlock | ErrorKind::TimedOut) => {}
            Err(_) => thread::sleep(PAUSE.min(left)),
        }
        Ok(())
    }
}
