//! The members of the cluster.

use crate::{Client, Error, Op};

impl Client {
    /// Makes a node a member; [`Error::Used`] or [`Error::Full`] where it is not made one.
    ///
    /// Start the node at once: it counts for majorities soon after this. A number above twice that of
    /// each other host of [`Client::set_hosts`] is logged ([`Event::FarJoin`](crate::Event::FarJoin)):
    /// no smaller number can join after it.
    ///
    #[doc = asks_a_node!()]
    /// # mod support { include!(concat!(env!("CARGO_MANIFEST_DIR"), "/tests/support/cluster.rs")); }
    /// # use locks_client::*;
    /// # use std::time::Duration;
    /// # fn main() -> Result<(), Error> {
    /// # let mut cluster = support::Cluster::start(1);
    /// # let mut client = cluster.client(1);
    /// # let port = support::free_ports(1)[0];
    /// client.join(2, port)?;
    /// # cluster.add(port);
    /// // start node 2, and later:
    /// client.leave(2)?;
    /// # Ok(())
    /// # }
    /// ```
    pub fn join(&mut self, node: u32, port: u16) -> Result<(), Error> {
        self.request(Op::Join(node, port)).map(drop)
    }

    /// Ends a node's membership; [`Error::NotMember`] or [`Error::Last`] where it is not ended.
    ///
    /// Its process may end some requests later.
    pub fn leave(&mut self, node: u32) -> Result<(), Error> {
        self.request(Op::Leave(node)).map(drop)
    }
}
