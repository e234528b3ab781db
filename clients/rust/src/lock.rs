//! A lock that is held as long as a value lives.

use crate::{Client, Error};

/// A lock that a client holds. [`Lock::release`] releases it, or the end of the value's life.
///
#[doc = asks_a_node!()]
/// # mod support { include!(concat!(env!("CARGO_MANIFEST_DIR"), "/tests/support/cluster.rs")); }
/// # use locks_client::{Client, Error};
/// # use std::time::Duration;
/// # fn write(_: u64) -> Result<(), Error> { Ok(()) }
/// # fn main() -> Result<(), Error> {
/// # let cluster = support::Cluster::start(1);
/// # let mut client = cluster.client(7);
/// let lock = client.lock("db", Duration::from_secs(60))?;
/// write(lock.fence())?; // where this fails, the lock is released all the same
/// lock.release()?; // tells whether it was
/// # Ok(())
/// # }
/// ```
///
/// # Limits
///
/// - **The fence protects the resource**, and the value does not. While the value lives, somebody may
///   break the lock. [`Lock::watch`] notices that a second later, which is too late to be safe. So
///   pass [`Lock::fence`] with each write, and let the resource reject a smaller one than it has seen.
/// - **A lock does not expire.** It stays held if the value is not dropped: after `kill -9`, a
///   power cut, an abort (a panic under `panic = "abort"`, or a second one), `std::process::exit`,
///   or `std::mem::forget`. The next run is answered [`Error::Busy`] with its own client number and the
///   fence. [`Client::adopt`] then takes it over, once nothing of the old run works any more.
/// - **A drop is bounded and silent.** It waits for the answer to its release for two seconds, or as
///   [`Client::set_drop_patience`] says, and only logs a failure. The lock may then stay held, and the
///   release is open: [`Client::again`] asks for its answer. [`Lock::release`] and [`Client::hold`]
///   return the error.
/// - **A drop also happens while a panic unwinds**, and neither hides the panic nor raises another
///   one.
/// - **A release gives up a request that is open**: once it is answered, that one has taken effect
///   or never will. Where it was an acquire of another lock, call [`Client::withdraw`] first.
/// - **After a fork the child does not release the lock** of its parent, nor can it.
#[derive(Debug)]
#[must_use = "the lock is released where the value is dropped"]
pub struct Lock<'a> {
    client: &'a mut Client,
    name: String,
    fence: u64,
    is_released: bool,
}

impl<'a> Lock<'a> {
    pub(crate) fn new(client: &'a mut Client, name: &str, fence: u64) -> Lock<'a> {
        Lock {
            client,
            name: name.to_owned(),
            fence,
            is_released: false,
        }
    }

    /// The fence at which it is held.
    pub fn fence(&self) -> u64 {
        self.fence
    }

    /// The lock's name.
    pub fn name(&self) -> &str {
        &self.name
    }

    /// The client, for further requests while the lock is held.
    pub fn client(&mut self) -> &mut Client {
        self.client
    }

    /// Releases the lock.
    ///
    /// [`Error::NotHeld`] where somebody has broken it; [`Error::NotReleased`] where the release
    /// failed, which names the lock and its fence: it may still be held. After [`Error::NoAnswer`]
    /// as the cause, [`Client::again`] asks for the answer once more; else release it by
    /// [`Client::release`].
    pub fn release(mut self) -> Result<(), Error> {
        self.end()
    }

    fn end(&mut self) -> Result<(), Error> {
        self.is_released = true;
        self.client.freed(&self.name, self.fence)
    }
}

impl Drop for Lock<'_> {
    /// Releases it, if that was not done.
    fn drop(&mut self) {
        if !self.is_released {
            let before = self.client.bounded();
            let _ = self.end();
            self.client.set_patience(before);
        }
    }
}
