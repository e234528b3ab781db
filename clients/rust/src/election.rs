//! Elections by a lock and a heartbeat.

use crate::waits::scattered;
use crate::{Client, ClientId, Error, LockState};
use std::thread;
use std::time::{Duration, Instant};

/// The default interval of the heartbeat, and the default silence after which a leader counts as dead.
const BEAT: Duration = Duration::from_millis(500);
const DEAD: Duration = Duration::from_secs(2);
/// The suffix of the name of the heartbeat.
const PULSE: &str = "/b";

/// The leader of an election.
#[derive(Clone, Copy, Debug, PartialEq, Eq)]
pub struct Leader {
    /// The client that leads.
    pub client: ClientId,
    /// The fence at which it leads.
    pub fence: u64,
}

/// A candidate of an election. The client that holds the lock of that name leads.
///
/// The leader acquires and releases a second lock, `NAME/b`, every half second. The fence of that lock
/// is a heartbeat that all can read. A candidate breaks the lock of a leader whose heartbeat has not
/// changed for two seconds. An election uses two names and needs a raised table.
///
/// **The fence protects the resource here too.** A leader that was suspended may believe that it
/// leads until its next beat. Pass the fence with each write, and let the resource reject a
/// smaller one than it has seen.
///
#[doc = asks_a_node!()]
/// # mod support { include!(concat!(env!("CARGO_MANIFEST_DIR"), "/tests/support/cluster.rs")); }
/// # use locks_client::*;
/// # use std::time::Duration;
/// # fn work(_: u64) -> bool { false }
/// # fn main() -> Result<(), Error> {
/// # let cluster = support::Cluster::start(1);
/// # let mut client = cluster.client(7);
/// client.raise_table()?; // once for a cluster
/// let mut election = client.election("scheduler")?;
/// let fence = election.lead(Duration::MAX)?;
/// while election.beat()? {
///     // a part of the work, with the fence; at most half a second until the next beat
///     if !work(fence) {
///         break;
///     }
/// }
/// election.resign()
/// # }
/// ```
#[derive(Debug)]
#[must_use = "the candidate resigns when the value is dropped"]
pub struct Election<'a> {
    client: &'a mut Client,
    name: String,
    pulse: String,
    beat: Duration,
    dead: Duration,
    // the fence at which this candidate leads
    fence: Option<u64>,
    // the fences of the leader and of its heartbeat, and when they last changed
    seen: (u64, u64),
    since: Instant,
}

impl Client {
    /// A candidate of the election of that name: 1 to 30 bytes of `a-z 0-9 - . /`.
    pub fn election(&mut self, name: &str) -> Result<Election<'_>, Error> {
        if !(1..=30).contains(&name.len()) {
            let value = format_args!("{name:?}");
            return Err(Error::malformed("election", value, "1 to 30 bytes long"));
        }
        Ok(Election {
            client: self,
            name: name.to_owned(),
            pulse: format!("{name}{PULSE}"),
            beat: BEAT,
            dead: DEAD,
            fence: None,
            seen: (0, 0),
            since: Instant::now(),
        })
    }
}

impl Election<'_> {
    /// Sets the interval of the heartbeat (default: half a second) and the silence after which a leader
    /// counts as dead (default: two seconds). All candidates use the same values. With `dead` four
    /// times `beat`, a leader may miss three beats.
    pub fn set_times(&mut self, beat: Duration, dead: Duration) {
        (self.beat, self.dead) = (beat, dead);
    }

    /// The fence at which this candidate leads, as far as it knows.
    pub fn fence(&self) -> Option<u64> {
        self.fence
    }

    /// The client, for further requests.
    pub fn client(&mut self) -> &mut Client {
        self.client
    }

    /// Who leads now.
    pub fn leader(&mut self) -> Result<Option<Leader>, Error> {
        self.settle()?;
        Ok(match self.client.ask(&self.name)? {
            LockState::Held { holder, fence } => Some(Leader {
                client: holder,
                fence,
            }),
            _ => None,
        })
    }

    /// Waits up to `wait` until this candidate leads. Returns its fence. Call [`Election::beat`] from
    /// then on.
    ///
    /// [`Error::Busy`] if another candidate still leads, [`Error::Bad`] if the table is not raised, so
    /// that a dead leader cannot be deposed. After [`Error::NoAnswer`] call it again.
    pub fn lead(&mut self, wait: Duration) -> Result<u64, Error> {
        let start = Instant::now();
        loop {
            match self.campaign() {
                Err(busy @ Error::Busy { .. }) if start.elapsed() >= wait => return Err(busy),
                Err(Error::Busy { fence, .. }) => {
                    if !self.depose_dead(fence)? {
                        thread::sleep(scattered(self.beat / 2));
                    }
                }
                found => return found,
            }
        }
    }

    /// Asks for the lock, and beats once if it is granted.
    fn campaign(&mut self) -> Result<u64, Error> {
        self.settle()?;
        let fence = match self.granted_before()? {
            Some(fence) => fence,
            None => self.client.acquire(&self.name)?,
        };
        self.fence = Some(fence);
        self.pulse()?;
        Ok(fence)
    }

    /// The fence at which this run already holds the lock, as after a late answer.
    fn granted_before(&mut self) -> Result<Option<u64>, Error> {
        let held = self.client.session.holds.get(&self.name).copied();
        Ok(match held {
            Some(fence) if self.client.check(&self.name, fence)? => Some(fence),
            _ => None,
        })
    }

    /// Breaks the lock of a leader at that fence if its heartbeat has stopped. Whether it did.
    fn depose_dead(&mut self, fence: u64) -> Result<bool, Error> {
        let pulse = self.client.ask(&self.pulse)?.fence();
        if self.seen != (fence, pulse) {
            (self.seen, self.since) = ((fence, pulse), Instant::now());
        }
        if self.since.elapsed() < self.dead {
            return Ok(false);
        }
        self.since = Instant::now();
        self.client.break_lock(&self.name, fence)
    }

    /// Beats once if this candidate still leads. Whether it does. If not, it was deposed: do nothing
    /// more with its fence.
    ///
    /// Call it at least every half second. After [`Error::NoAnswer`] call it again: this candidate may
    /// still lead.
    pub fn beat(&mut self) -> Result<bool, Error> {
        self.settle()?;
        let Some(fence) = self.fence else {
            return Ok(false);
        };
        if !self.client.check(&self.name, fence)? {
            self.fence = None;
            return Ok(false);
        }
        self.pulse()?;
        Ok(true)
    }

    /// Acquires and releases the heartbeat. Frees one that a dead leader left held.
    fn pulse(&mut self) -> Result<(), Error> {
        let fence = match self.client.acquire(&self.pulse) {
            Err(Error::Busy { fence, .. }) => {
                self.client.break_lock(&self.pulse, fence)?;
                return Ok(()); // the next beat raises it
            }
            found => found?,
        };
        match self.client.release(&self.pulse, fence) {
            Err(Error::NotHeld { .. }) => Ok(()),
            released => released,
        }
    }

    /// Resumes a request that has no answer. Later requests show its effect.
    fn settle(&mut self) -> Result<(), Error> {
        if !self.client.is_waiting() {
            return Ok(());
        }
        match self.client.again() {
            Err(error @ (Error::NoAnswer { .. } | Error::Passed { .. })) => Err(error),
            Err(error @ Error::OtherAnswer { .. }) => Err(error),
            _ => Ok(()),
        }
    }

    /// Stops leading, so that another candidate can lead at once.
    ///
    /// The errors are those of [`Lock::release`](crate::Lock::release).
    pub fn resign(mut self) -> Result<(), Error> {
        self.end()
    }

    fn end(&mut self) -> Result<(), Error> {
        match self.fence.take() {
            Some(fence) => self.client.freed(&self.name, fence),
            None => Ok(()),
        }
    }
}

impl Drop for Election<'_> {
    /// Resigns unless that was done, within the patience of a drop.
    fn drop(&mut self) {
        let before = self.client.bounded();
        let _ = self.end();
        self.client.set_patience(before);
    }
}
