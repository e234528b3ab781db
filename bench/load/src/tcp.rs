//! Clients of services that are reached over TCP.

use crate::lock::Lock;
use locks_client::Waits;
use std::io::{self, BufReader, ErrorKind};
use std::net::{Ipv4Addr, TcpStream};
use std::thread;
use std::time::{Duration, Instant};

const PATIENCE: Duration = Duration::from_secs(60);
/// The pause after a refused connection or request.
const PAUSE: Duration = Duration::from_millis(10);

/// A connection, whose reads are buffered and whose writes are not.
pub type Wire = BufReader<TcpStream>;

/// What a service speaks on a connection.
pub trait Protocol: Send {
    /// Begins on a new connection.
    fn begin(&mut self, wire: &mut Wire) -> io::Result<()>;

    /// Acquires the lock, and tells whether it was free.
    fn acquire(&mut self, wire: &mut Wire) -> io::Result<bool>;

    /// Releases the lock, and tells whether it was held.
    fn release(&mut self, wire: &mut Wire) -> io::Result<bool>;

    /// Says farewell, where the service wants it.
    fn end(&mut self, wire: &mut Wire) -> io::Result<()> {
        let _ = wire;
        Ok(())
    }
}

/// A client that connects to the next member where a connection breaks, or no answer comes.
pub struct OverTcp<P: Protocol> {
    ports: Vec<u16>,
    turn: usize,
    protocol: P,
    wire: Option<Wire>,
    repeated: u64,
}

impl<P: Protocol> OverTcp<P> {
    /// A client that asks the first of these ports first.
    pub fn new(ports: &[u16], protocol: P) -> OverTcp<P> {
        OverTcp {
            ports: ports.to_vec(),
            turn: 0,
            protocol,
            wire: None,
            repeated: 0,
        }
    }

    fn connected(&mut self, wait: Duration) -> io::Result<Wire> {
        let port = self.ports[self.turn % self.ports.len()];
        let stream = TcpStream::connect((Ipv4Addr::LOCALHOST, port))?;
        stream.set_nodelay(true)?;
        stream.set_read_timeout(Some(wait))?;
        let mut wire = BufReader::new(stream);
        self.protocol.begin(&mut wire)?;
        Ok(wire)
    }

    /// One try. The connection is kept where it went well.
    fn once(&mut self, ask: Ask<P>, wait: Duration) -> io::Result<bool> {
        let mut wire = match self.wire.take() {
            Some(wire) => wire,
            None => self.connected(wait)?,
        };
        wire.get_mut().set_read_timeout(Some(wait))?;
        let answer = ask(&mut self.protocol, &mut wire)?;
        self.wire = Some(wire);
        Ok(answer)
    }

    /// Asks until an answer comes, and waits for it as a client of `locks` does. After a try
    /// without an answer the lock may be as it should be already.
    fn ask(&mut self, ask: Ask<P>) -> io::Result<()> {
        let end = Instant::now() + PATIENCE;
        let (mut waits, mut is_again) = (Waits::default().peekable(), false);
        loop {
            let wait = waits.peek().copied().unwrap_or(PATIENCE);
            match self.once(ask, wait) {
                Ok(done) if done || is_again => return Ok(()),
                Ok(_) => return Err(io::Error::other("another holder, or none")),
                Err(error) if Instant::now() > end => return Err(error),
                Err(error) if is_silence(&error) => drop(waits.next()),
                Err(_) => {}
            }
            is_again = true;
            self.turn_to_next();
        }
    }

    fn turn_to_next(&mut self) {
        self.turn += 1;
        self.repeated += 1;
        thread::sleep(PAUSE);
    }
}

/// Whether no answer came in time. A broken connection is no silence.
fn is_silence(error: &io::Error) -> bool {
    matches!(error.kind(), ErrorKind::WouldBlock | ErrorKind::TimedOut)
}

type Ask<P> = fn(&mut P, &mut Wire) -> io::Result<bool>;

impl<P: Protocol> Lock for OverTcp<P> {
    fn acquire(&mut self) -> io::Result<()> {
        self.ask(P::acquire)
    }

    fn release(&mut self) -> io::Result<()> {
        self.ask(P::release)
    }

    fn repeated(&self) -> u64 {
        self.repeated
    }
}

impl<P: Protocol> Drop for OverTcp<P> {
    fn drop(&mut self) {
        if let Some(wire) = &mut self.wire {
            let _ = self.protocol.end(wire);
        }
    }
}
