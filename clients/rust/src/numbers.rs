//! Numbers of requests, each greater than all before.

use crate::state::State;
use crate::{Error, MAX_COUNT};
use std::path::Path;
use std::process;
use std::time::{SystemTime, UNIX_EPOCH};

/// The greatest number that is used. After 2^48 a client number could never ask again.
pub(crate) const MAX_NUMBER: u64 = MAX_COUNT - (1 << 32);
/// How many numbers are kept at once.
const BLOCK: u64 = 1_000;
/// How many kept numbers are left for what frees a lock, so that it needs no disk.
const SPARE: u64 = 16;

/// What a number is taken for.
#[derive(Clone, Copy, Debug, PartialEq, Eq)]
pub(crate) enum Use {
    /// A request that may be refused where the state file cannot be written.
    Request,
    /// A request that frees a lock, or gives up an earlier one.
    Freeing,
}

/// The numbers of a client's requests, each greater than all before.
///
/// A node answers a number that was used before as it did then, whatever it now asks. So a client
/// has to know where its numbers go on. It keeps them in a state file ([`Numbers::kept_in`],
/// [`Numbers::begun_in`]), or is told the first one ([`Numbers::from_first`]).
///
/// The state file holds a number in decimal digits and a newline: all numbers that were used are at
/// most as great. It is written before the first request, and once for each thousand from then on.
/// A client that is dropped gives back what it has not used of its thousand; one that is killed
/// does not. The file `PATH.lock` beside it is locked while a client uses it, and also while a
/// child runs that was forked meanwhile and has executed no other program.
///
/// ```
/// use locks_client::{Numbers, milliseconds};
///
/// # fn main() -> Result<(), locks_client::Error> {
/// let path = std::env::temp_dir().join(format!("client7-{}", std::process::id()));
/// Numbers::kept_in(&path).expect_err("there is no such file yet");
/// let numbers = Numbers::begun_in(&path, milliseconds())?;
/// Numbers::kept_in(&path).expect_err("another client uses it");
/// # Ok(())
/// # }
/// ```
#[derive(Debug)]
pub struct Numbers {
    // the last number that was used, and the last one that may be used before more are kept
    last: u64,
    reserved: u64,
    state: Option<State>,
    // the process that may use them
    owner: u32,
}

/// The milliseconds since 1970, a first number for a client that does not know its last one.
///
/// It is above all numbers that the client used as long as each earlier run began so too, the clock
/// was not set back, and the client used less than a thousand numbers a second. A run that is
/// killed uses up its thousand.
///
/// ```
/// use locks_client::{Numbers, milliseconds};
///
/// assert!(milliseconds() > 1_700_000_000_000);
/// Numbers::from_first(milliseconds()).unwrap();
/// ```
pub fn milliseconds() -> u64 {
    let since = SystemTime::now()
        .duration_since(UNIX_EPOCH)
        .unwrap_or_default();
    u64::try_from(since.as_millis())
        .unwrap_or(MAX_NUMBER)
        .clamp(1, MAX_NUMBER)
}

/// A first number that is surely above one that was used, if there is one. A node that tells of a
/// used one may be behind, by less than this.
pub(crate) fn beyond(used: u64) -> Option<u64> {
    let first = used.saturating_add(1_000_000);
    (first < MAX_NUMBER).then_some(first)
}

/// A number that a caller tells.
fn told(number: u64) -> Result<u64, Error> {
    if !(1..=MAX_NUMBER).contains(&number) {
        return Err(Error::malformed("number", number, "1 to 2^48 - 2^32"));
    }
    Ok(number)
}

impl Numbers {
    fn new(last: u64, reserved: u64, state: Option<State>) -> Numbers {
        Numbers {
            last,
            reserved,
            state,
            owner: process::id(),
        }
    }

    /// Numbers from `first` on, 1 to 2^48 - 2^32, which no file keeps. [`milliseconds`] is a
    /// sensible first number; **1 is not**, unless the client number was never used.
    pub fn from_first(first: u64) -> Result<Numbers, Error> {
        Ok(Numbers::new(told(first)? - 1, MAX_NUMBER, None))
    }

    /// Numbers that go on above the one that the state file keeps.
    ///
    /// [`Error::State`] where the file is missing, damaged or in use; then it is left as it is. A
    /// symbolic link stands for the file that it leads to.
    pub fn kept_in(path: impl AsRef<Path>) -> Result<Numbers, Error> {
        let (state, kept) = State::open(path.as_ref(), false)?;
        let last = kept.unwrap_or(0);
        Ok(Numbers::new(last, last, Some(state)))
    }

    /// The same, but not below `first`, and from `first` on where there is no file yet.
    ///
    /// The first request makes the file. An empty or damaged one is refused here too.
    pub fn begun_in(path: impl AsRef<Path>, first: u64) -> Result<Numbers, Error> {
        let first = told(first)?;
        let (state, kept) = State::open(path.as_ref(), true)?;
        let last = kept.unwrap_or(0).max(first - 1);
        Ok(Numbers::new(last, last, Some(state)))
    }

    /// Goes on from `first` or above, and keeps that.
    pub(crate) fn skip_to(&mut self, first: u64) -> Result<(), Error> {
        self.of_this_process()?;
        if told(first)? > self.last + 1 {
            self.last = first - 1;
            self.reserved = self.reserved.max(self.last);
        }
        match self.state {
            Some(_) => self.reserve(),
            None => Ok(()),
        }
    }

    /// Refuses another process than the one that made them: a child has the same numbers after a
    /// fork.
    pub(crate) fn of_this_process(&self) -> Result<(), Error> {
        if process::id() != self.owner {
            return Err(Error::Forked {
                opened: self.owner,
                here: process::id(),
            });
        }
        Ok(())
    }

    /// The next number. It is kept before it is used.
    pub(crate) fn take(&mut self, used_for: Use) -> Result<u64, Error> {
        self.of_this_process()?;
        let spare = if used_for == Use::Freeing { 0 } else { SPARE };
        if self.reserved - self.last <= spare {
            self.reserve()?;
        }
        self.last += 1;
        Ok(self.last)
    }

    /// Keeps the next thousand numbers.
    fn reserve(&mut self) -> Result<(), Error> {
        let reserved = self.last + BLOCK;
        match &mut self.state {
            Some(state) if reserved <= MAX_NUMBER => state.keep(reserved)?,
            _ => return Err(Error::OutOfNumbers),
        }
        self.reserved = reserved;
        Ok(())
    }
}

impl Drop for Numbers {
    /// Gives kept numbers that were not used back to the file. Where that fails, they are left out.
    fn drop(&mut self) {
        let is_own = self.of_this_process().is_ok();
        if let Some(state) = &mut self.state
            && is_own
            && (1..self.reserved).contains(&self.last)
        {
            let _ = state.keep(self.last);
        }
    }
}

#[cfg(test)]
mod tests;
