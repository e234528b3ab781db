//! The numbers of clusters and of clients.

use crate::Error;
use std::fmt;
use std::str::FromStr;

/// The greatest number of a client.
const MAX_CLIENT: u16 = 256;

/// The number of a cluster, which all its nodes and clients share.
///
/// ```
/// use locks_client::ClusterId;
///
/// let cluster = ClusterId::new(5);
/// assert_eq!(cluster.get(), 5);
/// assert_eq!("5".parse(), Ok(cluster));
/// ```
#[derive(Clone, Copy, Debug, PartialEq, Eq, PartialOrd, Ord, Hash)]
pub struct ClusterId(u64);

impl ClusterId {
    /// The cluster of that number.
    pub const fn new(number: u64) -> ClusterId {
        ClusterId(number)
    }

    /// The number.
    pub const fn get(self) -> u64 {
        self.0
    }
}

impl fmt::Display for ClusterId {
    fn fmt(&self, f: &mut fmt::Formatter<'_>) -> fmt::Result {
        self.0.fmt(f)
    }
}

impl FromStr for ClusterId {
    type Err = std::num::ParseIntError;

    fn from_str(text: &str) -> Result<ClusterId, Self::Err> {
        text.parse().map(ClusterId)
    }
}

/// The number of a client, 1 to 256. Each number belongs to one client of the cluster.
///
/// ```
/// use locks_client::{ClientId, Error};
///
/// # fn main() -> Result<(), Error> {
/// let client = ClientId::new(7)?;
/// assert_eq!(client.get(), 7);
/// let refused = ClientId::new(257).unwrap_err();
/// assert_eq!(refused.to_string(), "invalid client 257: must be 1 to 256");
/// # Ok(())
/// # }
/// ```
#[derive(Clone, Copy, Debug, PartialEq, Eq, PartialOrd, Ord, Hash)]
pub struct ClientId(u16);

impl ClientId {
    /// The client of that number; [`Error::Malformed`] outside of 1 to 256.
    pub fn new(number: u16) -> Result<ClientId, Error> {
        if !(1..=MAX_CLIENT).contains(&number) {
            return Err(Error::malformed("client", number, "1 to 256"));
        }
        Ok(ClientId(number))
    }

    /// The number.
    pub const fn get(self) -> u16 {
        self.0
    }
}

impl fmt::Display for ClientId {
    fn fmt(&self, f: &mut fmt::Formatter<'_>) -> fmt::Result {
        self.0.fmt(f)
    }
}

impl TryFrom<u16> for ClientId {
    type Error = Error;

    fn try_from(number: u16) -> Result<ClientId, Error> {
        ClientId::new(number)
    }
}

impl FromStr for ClientId {
    type Err = Error;

    fn from_str(text: &str) -> Result<ClientId, Error> {
        let number = text.parse();
        number.map_or_else(
            |_| Err(Error::malformed("client", text, "1 to 256")),
            ClientId::new,
        )
    }
}
