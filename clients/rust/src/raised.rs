//! What a raised table knows besides: locks that several clients share, and breaking.

use crate::holding::granted;
use crate::{Answer, Client, Error, Lock, LockState, Op};
use std::time::{Duration, Instant};

impl Client {
    /// Takes a lock of a raised table together with up to seven other clients. Their common fence.
    ///
    /// [`Error::Busy`] if it is held exclusively, and also if this run shares it already, since one
    /// release would end both holds. [`Error::SharedBefore`] if an earlier run may have taken this
    /// share: it stays, and [`Client::adopt`] takes it over.
    ///
    /// To detect that, an Ask precedes the request. If others share the name, another Ask follows and
    /// compares how many do. Clients that join or leave between the two can distort that count.
    ///
    #[doc = asks_a_node!()]
    /// # mod support { include!(concat!(env!("CARGO_MANIFEST_DIR"), "/tests/support/cluster.rs")); }
    /// # use locks_client::*;
    /// # use std::time::Duration;
    /// # fn main() -> Result<(), Error> {
    /// # let cluster = support::Cluster::start(1);
    /// # let (mut one, mut two) = (cluster.client(1), cluster.client(2));
    /// one.raise_table()?; // once for a cluster
    /// let fence = one.share("db")?;
    /// assert_eq!(two.share("db")?, fence);
    /// assert_eq!(two.ask("db")?, LockState::HeldShared { holders: 2, fence });
    /// # Ok(())
    /// # }
    /// ```
    pub fn share(&mut self, name: &str) -> Result<u64, Error> {
        granted(self.request(Op::Share(name.to_owned()))?)
    }

    /// Takes it together with others, and asks again for it as [`Client::acquire_within`] does.
    pub fn share_within(&mut self, name: &str, wait: Duration) -> Result<u64, Error> {
        self.fence_within(Op::Share(name.to_owned()), wait)
    }

    /// Holds the lock together with others as long as the value lives.
    pub fn lock_shared(&mut self, name: &str, wait: Duration) -> Result<Lock<'_>, Error> {
        let fence = self.share_within(name, wait)?;
        Ok(Lock::new(self, name, fence))
    }

    /// Takes a shared hold if nobody holds the lock exclusively, as [`Client::try_lock`] does.
    pub fn try_lock_shared(&mut self, name: &str) -> Result<Option<Lock<'_>>, Error> {
        let found = self.share_within(name, Duration::ZERO);
        self.tried(name, found)
    }

    /// Takes over a lock that an earlier run of this client holds at that fence, exclusive or shared.
    /// Call it only once nothing of that run works any more. The returned value releases the lock.
    ///
    /// [`Error::NotHeld`] if this client does not hold it at that fence. No request shows whether a
    /// client shares a name, so if only others share it, this takes a share.
    ///
    #[doc = asks_a_node!()]
    /// # mod support { include!(concat!(env!("CARGO_MANIFEST_DIR"), "/tests/support/cluster.rs")); }
    /// # use locks_client::*;
    /// # use std::time::Duration;
    /// # fn main() -> Result<(), Error> {
    /// # let cluster = support::Cluster::start(1);
    /// # cluster.client_from(7, milliseconds() - 1_000).acquire("db")?;
    /// # let mut client = cluster.client(7);
    /// match client.acquire("db") {
    ///     // once nothing of the earlier run works any more
    ///     Err(Error::Busy { fence, is_own: true, .. }) => client.adopt("db", fence)?.release()?,
    ///     other => panic!("{other:?}"),
    /// }
    /// # Ok(())
    /// # }
    /// ```
    pub fn adopt(&mut self, name: &str, fence: u64) -> Result<Lock<'_>, Error> {
        match self.ask(name)? {
            LockState::Held {
                holder,
                fence: held,
            } if (holder, held) == (self.id(), fence) => {}
            LockState::HeldShared { fence: held, .. } if held == fence => {
                self.share_anyway(name, fence)?;
            }
            _ => return Err(Error::not_held(name, fence)),
        }
        self.session.holds.insert(name.to_owned(), fence);
        Ok(Lock::new(self, name, fence))
    }

    /// Shares the name, whether or not an earlier run does, if it is still shared at that fence.
    fn share_anyway(&mut self, name: &str, fence: u64) -> Result<(), Error> {
        let (now, patience) = (Instant::now(), self.patience);
        self.session.begin_adoption(name, now, patience)?;
        let found = granted(self.driven()?)?;
        if found != fence {
            self.release(name, found)?; // a new share: the other one has ended
            return Err(Error::not_held(name, fence));
        }
        Ok(())
    }

    /// Frees a name of a raised table of whoever holds it at that fence. Whether it was held at it.
    ///
    /// Its holders are not notified and may go on writing: only a resource that rejects smaller
    /// fences is safe from that.
    ///
    #[doc = asks_a_node!()]
    /// # mod support { include!(concat!(env!("CARGO_MANIFEST_DIR"), "/tests/support/cluster.rs")); }
    /// # use locks_client::*;
    /// # use std::time::Duration;
    /// # fn main() -> Result<(), Error> {
    /// # let cluster = support::Cluster::start(1);
    /// # let (mut dead, mut client) = (cluster.client(1), cluster.client(2));
    /// # client.raise_table()?;
    /// # dead.acquire("db")?;
    /// if let LockState::Held { fence, .. } = client.ask("db")? {
    ///     // once nothing of its holder runs any more, or the resource knows the next fence
    ///     assert!(client.break_lock("db", fence)?);
    ///     assert_eq!(client.acquire("db")?, fence + 1);
    /// }
    /// # assert!(!dead.check("db", 1)?);
    /// # Ok(())
    /// # }
    /// ```
    pub fn break_lock(&mut self, name: &str, fence: u64) -> Result<bool, Error> {
        let answer = self.request(Op::Break(name.to_owned(), fence))?;
        Ok(answer == Answer::Broken)
    }

    /// Raises the table for ever, so that it knows share and break. Whether it was not raised
    /// before.
    ///
    /// Each node has to run a program that knows this, also those that are down.
    pub fn raise_table(&mut self) -> Result<bool, Error> {
        let answer = self.request(Op::Raise)?;
        Ok(answer == Answer::Raised)
    }
}
