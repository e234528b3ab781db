//! Several locks that are held as long as a value lives.

use crate::{Client, Error};
use std::time::{Duration, Instant};

/// Locks that a client holds together, as [`Client::lock_all`] takes them. [`Locks::release`]
/// releases them, or the end of the value's life. The limits are those of a [`Lock`](crate::Lock).
#[derive(Debug)]
#[must_use = "the locks are released where the value is dropped"]
pub struct Locks<'a> {
    client: &'a mut Client,
    // those that are held, in the order in which they were taken
    held: Vec<(String, u64)>,
}

/// The names, sorted. Rejects a name that occurs twice.
fn in_order<'n>(names: &[&'n str]) -> Result<Vec<&'n str>, Error> {
    let mut sorted = names.to_vec();
    sorted.sort_unstable();
    if sorted.windows(2).any(|pair| pair[0] == pair[1]) {
        let range = "different from each other";
        return Err(Error::malformed("names", format_args!("{names:?}"), range));
    }
    Ok(sorted)
}

impl Client {
    /// Takes all of these locks or none, in the order of their names, so that two clients that want
    /// the same ones cannot deadlock.
    ///
    /// It waits up to `wait` for all of them together, as [`Client::acquire_within`] does. If one is
    /// not granted, those before it are released, and its error is returned. If such a release fails,
    /// the error is [`Error::NotReleased`] instead.
    ///
    #[doc = asks_a_node!()]
    /// # mod support { include!(concat!(env!("CARGO_MANIFEST_DIR"), "/tests/support/cluster.rs")); }
    /// # use locks_client::*;
    /// # use std::time::Duration;
    /// # fn main() -> Result<(), Error> {
    /// # let cluster = support::Cluster::start(1);
    /// # let mut client = cluster.client(7);
    /// let locks = client.lock_all(&["from", "to"], Duration::from_secs(60))?;
    /// for (name, fence) in locks.fences() {
    ///     println!("{name} is held at fence {fence}");
    /// }
    /// locks.release()?;
    /// # Ok(())
    /// # }
    /// ```
    pub fn lock_all(&mut self, names: &[&str], wait: Duration) -> Result<Locks<'_>, Error> {
        let start = Instant::now();
        let (client, held) = (self, Vec::new());
        let mut locks = Locks { client, held };
        for name in in_order(names)? {
            let left = wait.saturating_sub(start.elapsed());
            match locks.client.acquire_within(name, left) {
                Ok(fence) => locks.held.push((name.to_owned(), fence)),
                Err(error) => return Err(locks.undone(error)),
            }
        }
        Ok(locks)
    }
}

impl Locks<'_> {
    /// The locks that are held, each with its fence, in the order of their names.
    pub fn fences(&self) -> impl Iterator<Item = (&str, u64)> {
        self.held
            .iter()
            .map(|(name, fence)| (name.as_str(), *fence))
    }

    /// The fence of that lock, if it is one of them.
    pub fn fence(&self, name: &str) -> Option<u64> {
        let found = self.held.iter().find(|(held, _)| held == name);
        found.map(|(_, fence)| *fence)
    }

    /// The client, for further requests while the locks are held.
    pub fn client(&mut self) -> &mut Client {
        self.client
    }

    /// Releases all of them.
    ///
    /// Returns the first error, [`Error::NotHeld`] or [`Error::NotReleased`], each of which names its
    /// lock. All errors are logged.
    pub fn release(mut self) -> Result<(), Error> {
        self.end()
    }

    /// Releases all of them, the last one first.
    fn end(&mut self) -> Result<(), Error> {
        let mut first = Ok(());
        while let Some((name, fence)) = self.held.pop() {
            let released = self.client.freed(&name, fence);
            first = first.and(released);
        }
        first
    }

    /// Withdraws an open acquire and releases all. Returns the error of that, or else the given one.
    fn undone(&mut self, error: Error) -> Error {
        if self.client.is_waiting() {
            // if this fails too, the release below logs the acquire as given up
            let _ = self.client.withdraw();
        }
        self.end().err().unwrap_or(error)
    }
}

impl Drop for Locks<'_> {
    /// Releases them unless that was done, within the patience of a drop.
    fn drop(&mut self) {
        let before = self.client.bounded();
        let start = Instant::now();
        let patience = self.client.patience;
        while let Some((name, fence)) = self.held.pop() {
            self.client.patience = patience.saturating_sub(start.elapsed());
            let _ = self.client.freed(&name, fence);
        }
        self.client.set_patience(before);
    }
}
