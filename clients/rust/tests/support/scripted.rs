// Nodes that reply what a test says.

use locks_client::{Client, ClientId, ClusterId, Numbers};
use std::net::{SocketAddr, UdpSocket};
use std::thread::{self, JoinHandle};
use std::time::Duration;

pub const FREE: &str = "05 0000000000000000";
pub const GRANTED: &str = "01 0000000000000001";
pub const RELEASED: &str = "03";
pub const BUSY: &str = "02 0008 0000000000000003";
pub const OWN_BUSY: &str = "02 0007 0000000000000003";

/// The bytes of hex digits with spaces between them.
pub fn hex(text: &str) -> Vec<u8> {
    let digits: Vec<u32> = text.chars().filter_map(|it| it.to_digit(16)).collect();
    let pairs = digits.chunks(2);
    pairs.map(|pair| (pair[0] * 16 + pair[1]) as u8).collect()
}

/// A reply of node 1 to that number of client 7.
pub fn reply(kind: u8, number: u64, fields: &str) -> Vec<u8> {
    let head = format!("4c4b01{kind:02x} 0000000000000005 00000001 0007 {number:016x}");
    hex(&format!("{head} {fields}"))
}

pub fn answer(number: u64, fields: &str) -> Vec<u8> {
    reply(10, number, fields)
}

pub fn elsewhere(port: u16) -> Vec<u8> {
    reply(11, 2, &format!("00000002 {port:04x}"))
}

/// What stands behind the number of a request for the lock `db`: its body's kind, and its fence if
/// it has one.
pub fn op(kind: u8, fence: Option<u64>) -> Vec<u8> {
    match fence {
        None => hex(&format!("00 04 {kind:02x} 02 6462")),
        Some(fence) => hex(&format!("00 0c {kind:02x} 02 6462 {fence:016x}")),
    }
}

/// A node that takes datagrams in turn and replies to each what its row says.
pub struct Node {
    pub port: u16,
    heard: JoinHandle<Vec<Vec<u8>>>,
}

pub fn bound() -> (UdpSocket, u16) {
    let socket = UdpSocket::bind("127.0.0.1:0").unwrap();
    let port = socket.local_addr().unwrap().port();
    (socket, port)
}

impl Node {
    pub fn new(rows: Vec<Vec<Vec<u8>>>) -> Node {
        let (socket, port) = bound();
        Node::on(socket, port, rows)
    }

    pub fn on(socket: UdpSocket, port: u16, rows: Vec<Vec<Vec<u8>>>) -> Node {
        let patience = Some(Duration::from_secs(20));
        socket.set_read_timeout(patience).unwrap();
        let heard = thread::spawn(move || serve(&socket, rows));
        Node { port, heard }
    }

    /// What it heard, once each row was used or nothing has come for twenty seconds.
    pub fn heard(self) -> Vec<Vec<u8>> {
        self.heard.join().unwrap()
    }

    /// The ops of what it heard.
    pub fn ops(self) -> Vec<Vec<u8>> {
        let heard = self.heard();
        heard.iter().map(|bytes| bytes[26..].to_vec()).collect()
    }
}

/// Replies to each datagram what its row says. One that is sent again, since its answer came late on a
/// busy machine, takes no row of its own.
fn serve(socket: &UdpSocket, rows: Vec<Vec<Vec<u8>>>) -> Vec<Vec<u8>> {
    let (mut heard, mut answered) = (Vec::new(), Vec::new());
    for row in rows {
        let Some((bytes, from)) = received(socket, &answered) else {
            break;
        };
        for reply in &row {
            socket.send_to(reply, from).unwrap();
        }
        let is_answered = row.iter().any(|reply| reply.get(3) == Some(&10));
        answered = if is_answered {
            bytes.clone()
        } else {
            Vec::new()
        };
        heard.push(bytes);
    }
    heard
}

/// The next datagram that is another one than that, and no watch: an old node knows none.
fn received(socket: &UdpSocket, answered: &[u8]) -> Option<(Vec<u8>, SocketAddr)> {
    let mut buffer = [0; 100];
    loop {
        let (length, from) = socket.recv_from(&mut buffer).ok()?;
        if buffer[..length] != *answered && !buffer.starts_with(b"LW") {
            return Some((buffer[..length].to_vec(), from));
        }
    }
}

/// Client 7 of cluster 5, whose requests are numbered from 2: number 1 was the Ask with which its
/// run began.
pub fn client(ports: &[u16]) -> Client {
    client_of(ports, Numbers::from_first(1).unwrap())
}

pub fn client_of(ports: &[u16], numbers: Numbers) -> Client {
    let node = Node::new(vec![vec![answer(1, FREE)]]);
    let mut client = new_client(&[node.port], numbers);
    client.open().unwrap();
    client.set_ports(ports).unwrap();
    client
}

/// The same client before its first request.
pub fn new_client(ports: &[u16], numbers: Numbers) -> Client {
    Client::new(ClusterId::new(5), ClientId::new(7).unwrap(), ports, numbers).unwrap()
}
