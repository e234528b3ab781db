//! The protocol of one client, without a socket, a clock or a thread.

use crate::exchange::Exchange;
use crate::key::{Keys, Seals};
use crate::log::Log;
use crate::request::Open;
use crate::waiting::Waiting;
use crate::{ClientId, ClusterId, Error, Event, Numbers};
use std::collections::{BTreeMap, HashMap};
use std::net::{IpAddr, Ipv4Addr, Ipv6Addr, SocketAddr};

/// The state machine of one client, for programs that send and receive themselves, such as those
/// under an asynchronous runtime. [`Client`](crate::Client) drives one with a blocking socket.
///
/// A session has one request at a time. [`Session::begin`] begins it, [`Session::step`] returns what
/// to send or how long to wait, and [`Session::take`] takes each datagram that arrives. The caller
/// owns the socket and the clock. Nothing here blocks, except that a state file is written once for
/// a thousand requests.
///
/// ```no_run
/// use locks_client::{Answer, Error, Op, Session, Step};
/// use std::net::UdpSocket;
/// use std::time::{Duration, Instant};
///
/// fn ask(session: &mut Session, socket: &UdpSocket, op: Op) -> Result<Answer, Error> {
///     session.begin(op, Instant::now(), Duration::from_secs(10))?;
///     let mut buffer = [0; Session::LONGEST];
///     loop {
///         match session.step(Instant::now()) {
///             Step::Send { bytes, to } => drop(socket.send_to(&bytes, to)),
///             Step::Wait { until } => {
///                 let left = until.saturating_duration_since(Instant::now());
///                 // zero would mean for ever
///                 let _ = socket.set_read_timeout(Some(left.max(Duration::from_millis(1))));
///                 if let Ok((length, from)) = socket.recv_from(&mut buffer) {
///                     session.take(&buffer[..length], from, Instant::now());
///                 }
///             }
///             Step::Done(answer) => return answer,
///         }
///     }
/// }
/// ```
///
/// # Cancellation
///
/// A caller that stops between two steps, such as a future that is dropped, leaves its request open,
/// as after [`Error::NoAnswer`]: it may have taken effect, or still may. [`Session::resume`] resumes
/// it and yields its answer. If that is a grant that nobody wants any more, release it.
#[derive(Debug)]
pub struct Session {
    pub(crate) seals: Seals,
    pub(crate) addresses: Vec<SocketAddr>,
    // the hosts of nodes that other nodes name
    pub(crate) hosts: HashMap<u32, IpAddr>,
    pub(crate) numbers: Numbers,
    // which of `addresses` is asked next
    pub(crate) turn: usize,
    // the address that sent the last answer
    pub(crate) leader: Option<SocketAddr>,
    // whether the Ask with which a run begins was answered
    pub(crate) is_begun: bool,
    // the greatest number that a Passed has reported
    pub(crate) passed: u64,
    pub(crate) open: Option<Open>,
    pub(crate) exchange: Option<Exchange>,
    // the lock of a passed or abandoned request, which may have been granted
    pub(crate) unknown: Option<String>,
    // the locks of this run, each with its fence
    pub(crate) holds: BTreeMap<String, u64>,
    pub(crate) waiting: Waiting,
    pub(crate) log: Log,
}

/// The addresses of nodes: at least one, each with a port, all of one family.
fn checked(addresses: &[SocketAddr]) -> Result<Vec<SocketAddr>, Error> {
    if addresses.is_empty() || addresses.iter().any(|address| address.port() == 0) {
        let ports: Vec<u16> = addresses.iter().map(SocketAddr::port).collect();
        let range = "1 to 65535, at least one";
        return Err(Error::malformed("ports", format_args!("{ports:?}"), range));
    }
    for address in addresses {
        of_one_family(address.ip(), addresses[0].ip())?;
    }
    Ok(addresses.to_vec())
}

/// Rejects an address of another family: one socket reaches only one of them.
fn of_one_family(address: IpAddr, other: IpAddr) -> Result<(), Error> {
    if address.is_ipv4() == other.is_ipv4() {
        return Ok(());
    }
    let range = format!("of the family of {other}, since a client has one socket");
    Err(Error::malformed("address", address, &range))
}

impl Session {
    /// The bytes to receive a datagram into: more than any reply or notice has.
    pub const LONGEST: usize = 120;

    /// A session for a client that asks nodes at these addresses, all of one family.
    ///
    /// The errors are those of [`Client::at`](crate::Client::at).
    pub fn new(
        cluster: ClusterId,
        client: ClientId,
        addresses: &[SocketAddr],
        numbers: Numbers,
    ) -> Result<Session, Error> {
        let addresses = checked(addresses)?;
        numbers.of_this_process()?;
        let keys = None;
        Ok(Session {
            seals: Seals {
                cluster,
                client,
                keys,
            },
            addresses,
            hosts: HashMap::new(),
            numbers,
            turn: 0,
            leader: None,
            is_begun: false,
            passed: 0,
            open: None,
            exchange: None,
            unknown: None,
            holds: BTreeMap::new(),
            waiting: Waiting::new(),
            log: Log::default(),
        })
    }

    /// The client's number.
    pub fn id(&self) -> ClientId {
        self.seals.client
    }

    /// The address to bind its socket to: loopback if all nodes and hosts are 127.0.0.1, otherwise the
    /// unspecified address of their family.
    pub fn own_address(&self) -> SocketAddr {
        let hosts = self.hosts.values().copied();
        let mut all = self.addresses.iter().map(SocketAddr::ip).chain(hosts);
        let own: IpAddr = match self.addresses[0] {
            _ if all.all(|address| address == Ipv4Addr::LOCALHOST) => Ipv4Addr::LOCALHOST.into(),
            SocketAddr::V4(_) => Ipv4Addr::UNSPECIFIED.into(),
            SocketAddr::V6(_) => Ipv6Addr::UNSPECIFIED.into(),
        };
        (own, 0).into()
    }

    /// Replaces the addresses of the nodes, from the next send on.
    ///
    /// [`Error::Malformed`] if one is of another family than before, or has port 0, or if there is
    /// none; then nothing changes. Bind another socket if [`Session::own_address`] differs afterwards.
    pub fn set_addresses(&mut self, addresses: &[SocketAddr]) -> Result<(), Error> {
        let addresses = checked(addresses)?;
        of_one_family(addresses[0].ip(), self.addresses[0].ip())?;
        self.addresses = addresses;
        (self.turn, self.leader) = (0, None);
        self.change_watched();
        Ok(())
    }

    /// Sets the key of this client, as [`Client::set_key`](crate::Client::set_key) does.
    pub fn set_key(&mut self, keys: Keys) {
        self.seals.keys = Some(keys);
    }

    /// Sets the hosts of nodes that other nodes name, as
    /// [`Client::set_hosts`](crate::Client::set_hosts) does. Bind another socket if
    /// [`Session::own_address`] differs afterwards.
    pub fn set_hosts(
        &mut self,
        hosts: impl IntoIterator<Item = (u32, IpAddr)>,
    ) -> Result<(), Error> {
        let hosts: HashMap<u32, IpAddr> = hosts.into_iter().collect();
        for host in hosts.values() {
            of_one_family(*host, self.addresses[0].ip())?;
        }
        self.hosts = hosts;
        Ok(())
    }

    /// Sets whether nodes say when a lock is free, as
    /// [`Client::set_notices`](crate::Client::set_notices) does, from the next Busy on.
    pub fn set_notices(&mut self, notices: bool) {
        self.waiting.notices = notices;
    }

    /// Sets what is called for each [`Event`], as [`Client::set_log`](crate::Client::set_log) does.
    pub fn set_log(&mut self, callback: impl FnMut(&Event<'_>) + Send + Sync + 'static) {
        self.log = Log::new(callback);
    }

    /// Continues with request number `first`, as [`Client::skip_to`](crate::Client::skip_to) does.
    pub fn skip_to(&mut self, first: u64) -> Result<(), Error> {
        if first <= self.passed {
            let range = format!("above {}, the last one that was executed", self.passed);
            return Err(Error::malformed("number", first, &range));
        }
        self.numbers.skip_to(first)?;
        self.is_begun = false;
        Ok(())
    }

    /// Whether a request has no answer yet.
    pub fn is_waiting(&self) -> bool {
        self.open.is_some()
    }

    /// The locks that this run holds, as far as it knows, each with its fence.
    pub fn holds(&self) -> impl Iterator<Item = (&str, u64)> {
        self.holds
            .iter()
            .map(|(name, fence)| (name.as_str(), *fence))
    }
}

impl Drop for Session {
    /// Logs an acquire that is open, and each lock that is still held.
    fn drop(&mut self) {
        if self.numbers.of_this_process().is_err() {
            return; // they are the parent's
        }
        self.forget();
        for (name, fence) in &self.holds {
            let fence = *fence;
            self.log.tell(&Event::LeftHeld { name, fence });
        }
    }
}
