//! One client of a cluster.

use crate::holding::granted;
use crate::numbers::Use;
use crate::{
    Answer, ClientId, ClusterId, Error, Event, Keys, Lock, LockState, Numbers, Op, Session,
};
use std::net::{IpAddr, Ipv4Addr, SocketAddr, UdpSocket};
use std::time::{Duration, Instant};

/// How long a request waits for its answer where nothing else is said.
const PATIENCE: Duration = Duration::from_secs(10);
/// How long the drop of a lock does.
const DROP_PATIENCE: Duration = Duration::from_secs(2);

/// One client of a cluster, with one socket. It serves one thread at a time, and the process that
/// made it alone: after a fork the child is refused.
///
/// A request is sent to one node after the other, with growing waits between them
/// ([`Waits`](crate::Waits)), and a few redirections are followed between two waits, until an
/// answer comes or its patience ends. It takes effect at most once.
///
#[doc = asks_a_node!()]
/// # mod support { include!(concat!(env!("CARGO_MANIFEST_DIR"), "/tests/support/cluster.rs")); }
/// use locks_client::{Client, ClientId, ClusterId, Error, LockState, Numbers, milliseconds};
///
/// # fn main() -> Result<(), Error> {
/// # let cluster = support::Cluster::start(1);
/// # let ports = cluster.ports();
/// let numbers = Numbers::from_first(milliseconds())?;
/// let mut client = Client::new(ClusterId::new(5), ClientId::new(7)?, &ports, numbers)?;
/// let fence = client.acquire("db")?;
/// assert!(client.check("db", fence)?);
/// client.release("db", fence)?;
/// assert_eq!(client.ask("db")?, LockState::Free { fence });
/// # Ok(())
/// # }
/// ```
#[derive(Debug)]
pub struct Client {
    pub(crate) session: Session,
    pub(crate) patience: Duration,
    pub(crate) drop_patience: Duration,
    pub(crate) socket: UdpSocket,
}

/// The addresses of those ports of 127.0.0.1.
fn local(ports: &[u16]) -> Vec<SocketAddr> {
    let at = |port: &u16| SocketAddr::from((Ipv4Addr::LOCALHOST, *port));
    ports.iter().map(at).collect()
}

impl Client {
    /// A client of that number, which nobody else uses. It asks the nodes at these ports of
    /// 127.0.0.1, at least one.
    ///
    /// [`Error::Malformed`] where there is no port, or one is 0; [`Error::Forked`] where the
    /// numbers were made before a fork; [`Error::Socket`] where no socket can be made.
    pub fn new(
        cluster: ClusterId,
        client: ClientId,
        ports: &[u16],
        numbers: Numbers,
    ) -> Result<Client, Error> {
        Client::at(cluster, client, &local(ports), numbers)
    }

    /// The same of a client that asks nodes at these addresses and ports, all of one family.
    ///
    /// Give it its key ([`Client::set_key`]) where other machines reach it: without one, anybody who
    /// reaches its socket can tell it that it was granted a lock.
    ///
    /// ```
    /// # use locks_client::*;
    /// # fn main() -> Result<(), Box<dyn std::error::Error>> {
    /// # let key = "11".repeat(32);
    /// let addresses = ["10.0.0.1:7101".parse()?, "10.0.0.2:7101".parse()?];
    /// let numbers = Numbers::from_first(milliseconds())?;
    /// let mut client = Client::at(ClusterId::new(5), ClientId::new(7)?, &addresses, numbers)?;
    /// client.set_key(Keys::read(&key)?);
    /// client.set_hosts([(1, "10.0.0.1".parse()?), (2, "10.0.0.2".parse()?)])?;
    /// # Ok(())
    /// # }
    /// ```
    pub fn at(
        cluster: ClusterId,
        client: ClientId,
        addresses: &[SocketAddr],
        numbers: Numbers,
    ) -> Result<Client, Error> {
        let session = Session::new(cluster, client, addresses, numbers)?;
        let socket = UdpSocket::bind(session.own_address()).map_err(Error::Socket)?;
        Ok(Client {
            session,
            patience: PATIENCE,
            drop_patience: DROP_PATIENCE,
            socket,
        })
    }

    /// The client's number.
    pub fn id(&self) -> ClientId {
        self.session.id()
    }

    /// Replaces the ports of 127.0.0.1 at which nodes are asked, as after a join or a leave.
    ///
    /// [`Error::Malformed`] as for [`Client::new`]; then nothing changes.
    pub fn set_ports(&mut self, ports: &[u16]) -> Result<(), Error> {
        self.set_addresses(&local(ports))
    }

    /// Replaces the addresses of the nodes, by others of the same family.
    ///
    /// [`Error::Malformed`] as for [`Client::at`]; then nothing changes.
    pub fn set_addresses(&mut self, addresses: &[SocketAddr]) -> Result<(), Error> {
        self.session.set_addresses(addresses)?;
        self.rebind()
    }

    /// Where its socket is bound.
    pub fn own_address(&self) -> Result<SocketAddr, Error> {
        self.socket.local_addr().map_err(Error::Socket)
    }

    /// Makes another socket if this one does not reach the nodes.
    fn rebind(&mut self) -> Result<(), Error> {
        let own = self.session.own_address();
        if self.own_address()?.ip() != own.ip() {
            self.socket = UdpSocket::bind(own).map_err(Error::Socket)?;
        }
        Ok(())
    }

    /// The locks that this run holds as far as it knows, each with its fence.
    pub fn holds(&self) -> impl Iterator<Item = (&str, u64)> {
        self.session.holds()
    }

    /// Sends the Ask that begins a run now rather than before the first request, to check that a node
    /// answers and that the numbers are new.
    ///
    /// [`Error::Passed`] or [`Error::OtherAnswer`] if the numbers were used before. If a request has no
    /// answer yet, this resumes that one instead.
    pub fn open(&mut self) -> Result<(), Error> {
        self.session.open(Instant::now(), self.patience)?;
        self.driven().map(drop)
    }

    /// Sets the key of this client: what it asks is sealed from now on, and of what comes it takes
    /// what nodes have sealed for it alone.
    pub fn set_key(&mut self, keys: Keys) {
        self.session.set_key(keys);
    }

    /// Sets the hosts of nodes that other nodes name. A node without an entry is asked at the address
    /// of the node that named it.
    ///
    /// [`Error::Malformed`] if an address is of another family than those of the client.
    pub fn set_hosts(
        &mut self,
        hosts: impl IntoIterator<Item = (u32, IpAddr)>,
    ) -> Result<(), Error> {
        self.session.set_hosts(hosts)?;
        self.rebind()
    }

    /// Sets whether nodes say when a lock is free that [`Client::acquire_within`], [`Client::lock`] or
    /// another call waits for, at first true. Then the client sends them watches meanwhile, and goes
    /// behind others that wait if it released the lock within the last second. Older nodes drop watches,
    /// and count each one as an unread datagram. With false it asks at intervals.
    pub fn set_notices(&mut self, notices: bool) {
        self.session.set_notices(notices);
    }

    /// Sets how long a request waits for its answer, at first ten seconds.
    pub fn set_patience(&mut self, patience: Duration) {
        self.patience = patience;
    }

    /// Sets how long the drop of a [`Lock`] waits for the answer to its release, at first two
    /// seconds. It never waits longer than a request does.
    pub fn set_drop_patience(&mut self, patience: Duration) {
        self.drop_patience = patience;
    }

    /// Sets the callback for each [`Event`], which has the level, target and fields of a logging
    /// library. A panic of the callback is caught.
    ///
    /// ```
    /// # use locks_client::*;
    /// # fn main() -> Result<(), Error> {
    /// # let numbers = Numbers::from_first(milliseconds())?;
    /// # let mut client = Client::new(ClusterId::new(5), ClientId::new(7)?, &[7001], numbers)?;
    /// client.set_log(|event| {
    ///     if event.level() == Level::Warn {
    ///         eprintln!("{}: {event}", event.target());
    ///     }
    /// });
    /// # Ok(())
    /// # }
    /// ```
    pub fn set_log(&mut self, callback: impl FnMut(&Event<'_>) + Send + Sync + 'static) {
        self.session.set_log(callback);
    }

    /// Continues with request number `first`, or with the next one if that is greater: the remedy if
    /// every request ends with [`Error::Passed`] because the last number was lost.
    ///
    /// `first` must exceed every number that the client has used. The `last` of a Passed may be too
    /// small, since its node may be behind, so add a million: the text of the error names that number.
    /// [`milliseconds`](crate::milliseconds) suffices only if no clock was ever ahead. If `last` is
    /// above 2^48 - 2^32, use another client number.
    ///
    /// [`Error::Malformed`] if `first` is out of range, or not above every `last` received so far.
    ///
    #[doc = asks_a_node!()]
    /// # mod support { include!(concat!(env!("CARGO_MANIFEST_DIR"), "/tests/support/cluster.rs")); }
    /// # use locks_client::*;
    /// # fn main() -> Result<(), Error> {
    /// # let cluster = support::Cluster::start(1);
    /// # cluster.client_from(7, 1_000).acquire("other")?;
    /// # let mut client = cluster.client_from(7, 1);
    /// if let Err(Error::Passed { .. }) = client.acquire("db") {
    ///     client.skip_to(milliseconds())?;
    ///     client.acquire("db")?;
    /// }
    /// # else { panic!("not passed") }
    /// # Ok(())
    /// # }
    /// ```
    pub fn skip_to(&mut self, first: u64) -> Result<(), Error> {
        self.session.skip_to(first)
    }

    /// Takes the lock. Its fence; [`Error::Busy`], [`Error::NoRoom`] or [`Error::Spent`] where it
    /// is not granted.
    pub fn acquire(&mut self, name: &str) -> Result<u64, Error> {
        granted(self.request(Op::Acquire(name.to_owned()))?)
    }

    /// Takes the lock, and asks again for it while another client holds it, as long as `wait`. Its
    /// fence.
    ///
    /// [`Error::Busy`] where it is held after that, or at once where this client itself holds it
    /// (since an earlier run); [`Error::NoAnswer`] where the last request has no answer: it may still
    /// be granted, so call [`Client::withdraw`] or [`Client::again`]. It returns half a second after
    /// `wait` at the latest, or within its patience where that is longer.
    ///
    /// If a release of this client has no answer yet, it is resumed first. If the same acquire has
    /// none, this resumes it. Any other open request is [`Error::Unanswered`].
    ///
    /// Nodes that know watches say when the lock is free, in the order in which clients came, and it
    /// asks then. Between two requests it waits about a minute while a node has put it in its queue.
    /// Otherwise it waits 50 ms at first, and then longer, at most a second. It begins anew where the
    /// fence has changed, and waits up to four seconds where it stays for longer than half a minute.
    /// [`Client::set_notices`] makes it send no watches.
    ///
    #[doc = asks_a_node!()]
    /// # mod support { include!(concat!(env!("CARGO_MANIFEST_DIR"), "/tests/support/cluster.rs")); }
    /// # use locks_client::*;
    /// # use std::time::Duration;
    /// # fn main() -> Result<(), Error> {
    /// # let cluster = support::Cluster::start(1);
    /// # let mut client = cluster.client(7);
    /// # cluster.client(8).acquire("db")?;
    /// match client.acquire_within("db", Duration::from_millis(200)) {
    ///     Ok(fence) => println!("granted at {fence}"),
    ///     Err(Error::Busy { holder, .. }) => println!("client {holder} holds it"),
    ///     Err(Error::NoAnswer { .. }) => println!("withdrawn: {}", client.withdraw()?),
    ///     Err(error) => return Err(error),
    /// }
    /// # Ok(())
    /// # }
    /// ```
    pub fn acquire_within(&mut self, name: &str, wait: Duration) -> Result<u64, Error> {
        self.fence_within(Op::Acquire(name.to_owned()), wait)
    }

    /// Holds the lock as long as the value lives, whose limits are those of a [`Lock`]. It asks for
    /// the lock, and fails, as [`Client::acquire_within`] does.
    pub fn lock(&mut self, name: &str, wait: Duration) -> Result<Lock<'_>, Error> {
        let fence = self.acquire_within(name, wait)?;
        Ok(Lock::new(self, name, fence))
    }

    /// Takes the lock if it is free, and returns `None` if another client holds it.
    ///
    /// [`Error::Busy`] if this client itself holds it. The other errors are those of
    /// [`Client::acquire_within`].
    ///
    #[doc = asks_a_node!()]
    /// # mod support { include!(concat!(env!("CARGO_MANIFEST_DIR"), "/tests/support/cluster.rs")); }
    /// # use locks_client::*;
    /// # fn main() -> Result<(), Error> {
    /// # let cluster = support::Cluster::start(1);
    /// # let mut client = cluster.client(7);
    /// match client.try_lock("db")? {
    ///     Some(lock) => lock.release()?,
    ///     None => println!("another client holds it"),
    /// }
    /// # Ok(())
    /// # }
    /// ```
    pub fn try_lock(&mut self, name: &str) -> Result<Option<Lock<'_>>, Error> {
        let found = self.acquire_within(name, Duration::ZERO);
        self.tried(name, found)
    }

    /// Holds the lock while a block runs, and releases it after that.
    ///
    /// An error of the block comes first: a release that fails too is told to the log callback.
    /// Where the block succeeds, the error of the release comes.
    ///
    #[doc = asks_a_node!()]
    /// # mod support { include!(concat!(env!("CARGO_MANIFEST_DIR"), "/tests/support/cluster.rs")); }
    /// # use locks_client::*;
    /// # use std::time::Duration;
    /// # fn main() -> Result<(), Error> {
    /// # let cluster = support::Cluster::start(1);
    /// # let mut client = cluster.client(7);
    /// let written = client.hold("db", Duration::from_secs(60), |lock| -> Result<u64, Error> {
    ///     // writes with lock.fence()
    ///     Ok(lock.fence())
    /// })?;
    /// assert_eq!(client.ask("db")?, LockState::Free { fence: written });
    /// # Ok(())
    /// # }
    /// ```
    pub fn hold<T, E: From<Error>>(
        &mut self,
        name: &str,
        wait: Duration,
        block: impl FnOnce(&mut Lock<'_>) -> Result<T, E>,
    ) -> Result<T, E> {
        let mut lock = self.lock(name, wait)?;
        let done = block(&mut lock);
        let released = lock.release();
        let value = done?;
        released?;
        Ok(value)
    }

    /// Gives the lock back; [`Error::NotHeld`] where this client does not hold it at that fence.
    pub fn release(&mut self, name: &str, fence: u64) -> Result<(), Error> {
        self.request(Op::Release(name.to_owned(), fence)).map(drop)
    }

    /// Who holds the name.
    pub fn ask(&mut self, name: &str) -> Result<LockState, Error> {
        self.lock_state(Use::Request, name)
    }

    /// Whether the name was held at that fence when this was executed.
    pub fn check(&mut self, name: &str, fence: u64) -> Result<bool, Error> {
        let answer = self.request(Op::Check(name.to_owned(), fence))?;
        Ok(answer == Answer::Valid)
    }
}
