//! A client of etcd by its own protocol, gRPC: its gateway for JSON would cost it a second hop.
//!
//! To acquire is a transaction that puts a key where it does not exist, and to release is to delete
//! it. Each is one entry of etcd's log, as it is of that of `locks`.

use crate::grpc::Grpc;
use crate::tcp::{Protocol, Wire};
use std::io;

/// A client of etcd.
pub struct Etcd {
    grpc: Grpc,
    take: Vec<u8>,
    give: Vec<u8>,
}

/// A field of a message whose value is bytes, each shorter than 128 bytes.
fn bytes(number: u8, value: &[u8]) -> Vec<u8> {
    [&[number << 3 | 2, value.len() as u8], value].concat()
}

/// A field whose value is a number below 128.
fn small(number: u8, value: u8) -> Vec<u8> {
    vec![number << 3, value]
}

/// Whether the message has a field of that number other than its first one, the header. A field
/// that is false or 0 is left out.
fn has(message: &[u8], number: u8) -> bool {
    let after_header = match message {
        [0x0a, length, rest @ ..] => rest.get(usize::from(*length)..).unwrap_or_default(),
        _ => message,
    };
    after_header.first().is_some_and(|tag| tag >> 3 == number)
}

impl Etcd {
    /// A client whose lock is the key of that name.
    pub fn new(name: &str) -> Etcd {
        let key = bytes(1, name.as_bytes());
        let created = [small(2, 1), bytes(3, name.as_bytes()), small(5, 0)].concat();
        let put = [key.clone(), bytes(2, name.as_bytes())].concat();
        Etcd {
            grpc: Grpc::default(),
            take: [bytes(1, &created), bytes(2, &bytes(2, &put))].concat(),
            give: key,
        }
    }
}

impl Protocol for Etcd {
    fn begin(&mut self, wire: &mut Wire) -> io::Result<()> {
        self.grpc.begin(wire)
    }

    fn acquire(&mut self, wire: &mut Wire) -> io::Result<bool> {
        let answer = self.grpc.call(wire, "/etcdserverpb.KV/Txn", &self.take)?;
        Ok(has(&answer, 2)) // succeeded
    }

    fn release(&mut self, wire: &mut Wire) -> io::Result<bool> {
        let path = "/etcdserverpb.KV/DeleteRange";
        let answer = self.grpc.call(wire, path, &self.give)?;
        Ok(has(&answer, 2)) // deleted
    }
}
