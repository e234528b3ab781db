//! The request that has no answer yet.

use crate::holding::granted;
use crate::numbers::Use;
use crate::{Answer, Client, Error, LockState, Op};
use std::time::Instant;

/// A lock that was granted, and is not held any more; somebody may have broken it meanwhile.
fn given_back(released: Result<(), Error>) -> Result<bool, Error> {
    match released {
        Ok(()) | Err(Error::NotHeld { .. }) => Ok(true),
        Err(error) => Err(error),
    }
}

impl Client {
    /// Whether a request has no answer yet.
    pub fn is_waiting(&self) -> bool {
        self.session.is_waiting()
    }

    /// Asks once more for the answer of the request that has none yet. It takes effect at most
    /// once.
    ///
    #[doc = asks_a_node!()]
    /// # mod support { include!(concat!(env!("CARGO_MANIFEST_DIR"), "/tests/support/cluster.rs")); }
    /// # use locks_client::*;
    /// # use std::time::Duration;
    /// # fn main() -> Result<(), Error> {
    /// # let mut cluster = support::Cluster::start(1);
    /// # let mut client = cluster.client(7);
    /// # client.ask("db")?;
    /// # cluster.down(1);
    /// # client.set_patience(Duration::from_millis(100));
    /// if let Err(Error::NoAnswer { .. }) = client.acquire("db") {
    ///     # cluster.up(1);
    ///     # client.set_patience(Duration::from_secs(30));
    ///     assert_eq!(client.again()?, Answer::Granted(1));
    /// }
    /// # assert!(client.check("db", 1)?);
    /// # Ok(())
    /// # }
    /// ```
    pub fn again(&mut self) -> Result<Answer, Error> {
        self.session.resume(Instant::now(), self.patience)?;
        self.driven()
    }

    /// Gives up the request that has no answer yet: after `Ok` it has taken effect or never will.
    /// Who holds the name.
    ///
    /// Where this client holds it, the grant may be one of an earlier run; [`Client::withdraw`]
    /// tells them apart.
    ///
    #[doc = asks_a_node!()]
    /// # mod support { include!(concat!(env!("CARGO_MANIFEST_DIR"), "/tests/support/cluster.rs")); }
    /// # use locks_client::*;
    /// # use std::time::Duration;
    /// # fn main() -> Result<(), Error> {
    /// # let mut cluster = support::Cluster::start(1);
    /// # let mut client = cluster.client(7);
    /// # client.ask("db")?;
    /// # cluster.down(1);
    /// # client.set_patience(Duration::from_millis(100));
    /// if let Err(Error::NoAnswer { .. }) = client.check("db", 3) {
    ///     # cluster.up(1);
    ///     # client.set_patience(Duration::from_secs(30));
    ///     println!("{:?}", client.give_up("db")?);
    /// }
    /// assert!(!client.is_waiting());
    /// # Ok(())
    /// # }
    /// ```
    pub fn give_up(&mut self, name: &str) -> Result<LockState, Error> {
        self.session.forget();
        self.lock_state(Use::Freeing, name)
    }

    /// Gives up an acquire or a share that has no answer, and releases the lock where it was
    /// granted by it. Whether it was.
    ///
    /// It asks for the answer once more, since only that distinguishes this grant from one of an
    /// earlier run, or from the share of another client. `Ok(false)` means that nothing was granted
    /// and nothing will be.
    ///
    /// After [`Error::NoAnswer`] call it again. [`Error::Unknown`] if the request was passed or given
    /// up, [`Error::SharedBefore`] if the share may be that of an earlier run, [`Error::NothingAsked`]
    /// if no such request is open.
    ///
    #[doc = asks_a_node!()]
    /// # mod support { include!(concat!(env!("CARGO_MANIFEST_DIR"), "/tests/support/cluster.rs")); }
    /// # use locks_client::*;
    /// # use std::time::Duration;
    /// # fn main() -> Result<(), Error> {
    /// # let mut cluster = support::Cluster::start(1);
    /// # let mut client = cluster.client(7);
    /// # client.ask("db")?;
    /// # cluster.down(1);
    /// # client.set_patience(Duration::from_millis(100));
    /// if let Err(Error::NoAnswer { .. }) = client.acquire("db") {
    ///     # cluster.up(1);
    ///     # client.set_patience(Duration::from_secs(30));
    ///     client.withdraw()?;
    /// }
    /// assert!(matches!(client.ask("db")?, LockState::Free { .. }));
    /// # Ok(())
    /// # }
    /// ```
    pub fn withdraw(&mut self) -> Result<bool, Error> {
        let Some(open) = &self.session.open else {
            let unknown = self.session.unknown.clone();
            return Err(unknown.map_or(Error::NothingAsked, |name| Error::Unknown { name }));
        };
        match (&open.op, open.is_sent()) {
            (Op::Acquire(_) | Op::Share(_), false) => {
                self.session.forget();
                Ok(false)
            }
            (Op::Acquire(name) | Op::Share(name), true) => {
                let name = name.clone();
                self.withdraw_grant(&name)
            }
            // the release of a withdraw that had no answer
            (Op::Release(..), _) => given_back(self.again().map(drop)),
            _ => Err(Error::NothingAsked),
        }
    }

    /// Releases the lock where the open request is granted. Whether it is.
    fn withdraw_grant(&mut self, name: &str) -> Result<bool, Error> {
        match self.again().and_then(granted) {
            Ok(fence) => given_back(self.release(name, fence)),
            Err(
                Error::Busy { .. } | Error::NoRoom { .. } | Error::Spent { .. } | Error::Bad { .. },
            ) => Ok(false),
            Err(error) => Err(error),
        }
    }
}
