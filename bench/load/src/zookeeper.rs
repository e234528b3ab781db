//! A client of ZooKeeper by its own protocol: an ephemeral node is created, and deleted.

use crate::tcp::{Protocol, Wire};
use std::io::{self, Read, Write};

/// The milliseconds for which a session outlives its connection.
const SESSION: u32 = 30_000;

// types of requests, and what they are answered
const CREATE: u32 = 1;
const DELETE: u32 = 2;
const CLOSE: u32 = u32::MAX - 10; // -11
const OK: i32 = 0;
const NO_NODE: i32 = -101;
const NODE_EXISTS: i32 = -110;

const ALL: u32 = 31;
const EPHEMERAL: u32 = 1;
const ANY_VERSION: u32 = u32::MAX;

/// A client of ZooKeeper.
pub struct ZooKeeper {
    path: String,
    session: [u8; 8],
    password: Vec<u8>,
    last_change: [u8; 8],
    request: u32,
}

/// Bytes after their length.
fn counted(bytes: &[u8]) -> Vec<u8> {
    [&(bytes.len() as u32).to_be_bytes(), bytes].concat()
}

/// Reads bytes after their length.
fn read_counted(wire: &mut Wire) -> io::Result<Vec<u8>> {
    let mut length = [0; 4];
    wire.read_exact(&mut length)?;
    let mut bytes = vec![0; u32::from_be_bytes(length) as usize];
    wire.read_exact(&mut bytes)?;
    Ok(bytes)
}

fn cut() -> io::Error {
    io::Error::other("an answer is cut")
}

impl ZooKeeper {
    /// A client whose lock is the node of that name.
    pub fn new(name: &str) -> ZooKeeper {
        ZooKeeper {
            path: format!("/{name}"),
            session: [0; 8],
            password: vec![0; 16],
            last_change: [0; 8],
            request: 0,
        }
    }

    /// The error number in the answer to a request.
    fn ask(&mut self, wire: &mut Wire, kind: u32, body: &[u8]) -> io::Result<i32> {
        self.request += 1;
        let head = [self.request.to_be_bytes(), kind.to_be_bytes()].concat();
        wire.get_mut()
            .write_all(&counted(&[&head, body].concat()))?;
        loop {
            let answer = read_counted(wire)?;
            let (number, rest) = answer.split_first_chunk().ok_or_else(cut)?;
            let (change, rest) = rest.split_first_chunk().ok_or_else(cut)?;
            let error = rest.first_chunk().ok_or_else(cut)?;
            if u32::from_be_bytes(*number) == self.request {
                self.last_change = *change;
                return Ok(i32::from_be_bytes(*error));
            }
        }
    }
}

/// Whether a request took effect, where the answer to one that did not is known.
fn took_effect(error: i32, not: i32) -> io::Result<bool> {
    match error {
        OK => Ok(true),
        _ if error == not => Ok(false),
        _ => Err(io::Error::other(format!("error {error}"))),
    }
}

impl Protocol for ZooKeeper {
    /// Begins a session, or goes on with the one that was begun.
    fn begin(&mut self, wire: &mut Wire) -> io::Result<()> {
        let version = [0; 4];
        let head = [&version[..], &self.last_change, &SESSION.to_be_bytes()].concat();
        let asked = [&head, &self.session[..], &counted(&self.password), &[0]].concat();
        wire.get_mut().write_all(&counted(&asked))?;
        let answer = read_counted(wire)?;
        let (session, password) = answer.get(8..36).ok_or_else(cut)?.split_at(8);
        self.session.copy_from_slice(session);
        self.password = password[4..].to_vec();
        match self.session {
            [0, 0, 0, 0, 0, 0, 0, 0] => Err(io::Error::other("the session has expired")),
            _ => Ok(()),
        }
    }

    fn acquire(&mut self, wire: &mut Wire) -> io::Result<bool> {
        let node = [counted(self.path.as_bytes()), counted(b"")].concat();
        let rights = [1_u32.to_be_bytes(), ALL.to_be_bytes()].concat();
        let whom = [counted(b"world"), counted(b"anyone")].concat();
        let body = [&node, &rights, &whom, &EPHEMERAL.to_be_bytes()[..]].concat();
        took_effect(self.ask(wire, CREATE, &body)?, NODE_EXISTS)
    }

    fn release(&mut self, wire: &mut Wire) -> io::Result<bool> {
        let body = [
            &counted(self.path.as_bytes())[..],
            &ANY_VERSION.to_be_bytes(),
        ]
        .concat();
        took_effect(self.ask(wire, DELETE, &body)?, NO_NODE)
    }

    fn end(&mut self, wire: &mut Wire) -> io::Result<()> {
        self.ask(wire, CLOSE, &[]).map(drop)
    }
}
