//! A client of `locks`: the library in `clients/rust`, with its own schedule of waits.

use crate::lock::Lock;
use locks_client::{Client, ClientId, ClusterId, Error, Event, Keys, Numbers};
use std::path::Path;
use std::sync::Arc;
use std::sync::atomic::{AtomicU64, Ordering};
use std::time::{Duration, SystemTime, UNIX_EPOCH};
use std::{fs, io};

const PATIENCE: Duration = Duration::from_secs(60);

/// A client of `locks`.
pub struct Locks {
    client: io::Result<Client>,
    name: String,
    fence: u64,
    asked: u64,
    sent: Arc<AtomicU64>,
}

impl Locks {
    /// The client of that number in a cluster, which asks the nodes at these ports. Its key is in the
    /// file of that number in the folder, if there is one.
    pub fn new(cluster: u64, ports: &[u16], number: u16, name: &str, keys: Option<&Path>) -> Locks {
        let sent = Arc::new(AtomicU64::new(0));
        let client = made(cluster, ports, number, Arc::clone(&sent))
            .map_err(io::Error::other)
            .and_then(|client| with_key(client, number, keys));
        Locks {
            client,
            name: name.to_owned(),
            fence: 0,
            asked: 0,
            sent,
        }
    }

    /// What the client answers to a question about its lock.
    fn ask<T>(
        &mut self,
        what: impl FnOnce(&mut Client, &str) -> Result<T, Error>,
    ) -> io::Result<T> {
        self.asked += 1;
        match &mut self.client {
            Ok(client) => what(client, &self.name).map_err(io::Error::other),
            Err(error) => Err(io::Error::other(error.to_string())),
        }
    }
}

fn made(cluster: u64, ports: &[u16], number: u16, sent: Arc<AtomicU64>) -> Result<Client, Error> {
    let numbers = Numbers::from_first(first_number())?;
    let mut client = Client::new(
        ClusterId::new(cluster),
        ClientId::new(number)?,
        ports,
        numbers,
    )?;
    client.set_patience(PATIENCE);
    client.set_log(move |event| {
        if matches!(event, Event::Sent { .. }) {
            sent.fetch_add(1, Ordering::Relaxed);
        }
    });
    Ok(client)
}

fn with_key(mut client: Client, number: u16, keys: Option<&Path>) -> io::Result<Client> {
    if let Some(folder) = keys {
        let text = fs::read_to_string(folder.join(number.to_string()))?;
        client.set_key(Keys::read(&text).map_err(io::Error::other)?);
    }
    Ok(client)
}

/// A number above all of an earlier run: the time since 1970 in units of 16 microseconds, so that a
/// client may use sixty thousand a second.
fn first_number() -> u64 {
    let since = SystemTime::now().duration_since(UNIX_EPOCH);
    u64::try_from(since.unwrap_or_default().as_micros() / 16).unwrap_or(1)
}

impl Lock for Locks {
    fn acquire(&mut self) -> io::Result<()> {
        self.fence = self.ask(Client::acquire)?;
        Ok(())
    }

    fn release(&mut self) -> io::Result<()> {
        match self.fence {
            0 => Err(io::Error::other("nothing was acquired")),
            fence => self.ask(|client, name| client.release(name, fence)),
        }
    }

    fn repeated(&self) -> u64 {
        self.sent.load(Ordering::Relaxed).saturating_sub(self.asked)
    }
}
