//! Several clients wait for a lock at a node that has a queue and may lose datagrams.

use locks_client::{Client, ClientId, ClusterId, Numbers};
use std::collections::HashMap;
use std::net::{SocketAddr, UdpSocket};
use std::sync::atomic::{AtomicBool, AtomicU32, Ordering};
use std::sync::{Arc, Mutex};
use std::thread;
use std::time::{Duration, Instant};

const PERIOD: Duration = Duration::from_millis(100);
/// The periods that a watch lives.
const LIFE: u32 = 20;

/// A client that waits.
struct Queued {
    watch: Vec<u8>,
    from: SocketAddr,
    at: Instant,
    // the fence at which it was told that the lock was free
    told: Option<u64>,
}

/// A node alone, which has the lock `db` and those who wait for it.
struct Node {
    socket: UdpSocket,
    // of ten datagrams in each direction this many are lost
    loss: u64,
    random: u64,
    holder: Option<u16>,
    fence: u64,
    // the last request of each client, and what it was answered
    answers: HashMap<u16, (u64, Vec<u8>)>,
    queue: Vec<Queued>,
    grants: Vec<u16>,
    acquires: usize,
}

fn client_of(bytes: &[u8]) -> u16 {
    u16::from_be_bytes([bytes[16], bytes[17]])
}

fn number_of(bytes: &[u8]) -> u64 {
    u64::from_be_bytes(bytes[18..26].try_into().unwrap())
}

impl Node {
    fn new(loss: u64) -> Node {
        let socket = UdpSocket::bind("127.0.0.1:0").unwrap();
        socket.set_read_timeout(Some(PERIOD)).unwrap();
        Node {
            socket,
            loss,
            random: 1,
            holder: None,
            fence: 0,
            answers: HashMap::new(),
            queue: Vec::new(),
            grants: Vec::new(),
            acquires: 0,
        }
    }

    fn loses(&mut self) -> bool {
        self.random = self
            .random
            .wrapping_mul(6_364_136_223_846_793_005)
            .wrapping_add(1);
        (self.random >> 33) % 10 < self.loss
    }

    fn serve(&mut self, is_over: &AtomicBool) {
        let (mut buffer, mut ticked) = ([0; 150], Instant::now());
        while !is_over.load(Ordering::Relaxed) {
            if let Ok((length, from)) = self.socket.recv_from(&mut buffer)
                && !self.loses()
            {
                match buffer.starts_with(b"LW") {
                    true => self.hear(&buffer[..length], from),
                    false => self.answer(&buffer[..length], from),
                }
            }
            if ticked.elapsed() >= PERIOD {
                ticked = Instant::now();
                self.queue.retain(|it| it.at.elapsed() < PERIOD * LIFE);
                self.tell();
            }
        }
    }

    fn send(&mut self, bytes: &[u8], to: SocketAddr) {
        if !self.loses() {
            self.socket.send_to(bytes, to).unwrap();
        }
    }

    /// Executes a request, unless it was.
    fn answer(&mut self, bytes: &[u8], from: SocketAddr) {
        let (client, number) = (client_of(bytes), number_of(bytes));
        let last = self.answers.get(&client).map_or(0, |(last, _)| *last);
        if number > last {
            let fields = self.execute(client, bytes[28]);
            self.answers.insert(client, (number, fields));
        }
        let (last, fields) = self.answers[&client].clone();
        if number == last {
            let mut reply = bytes[..26].to_vec();
            (reply[3], reply[15]) = (10, 1);
            self.send(&[reply, fields].concat(), from);
        }
        self.tell();
    }

    /// The fields of the answer to an acquire (1), a release (2), or an ask.
    fn execute(&mut self, client: u16, word: u8) -> Vec<u8> {
        let fence = |tag: u8, fence: u64| [&[tag][..], &fence.to_be_bytes()].concat();
        let held = |tag: u8, holder: u16, fence: u64| {
            [&[tag][..], &holder.to_be_bytes(), &fence.to_be_bytes()].concat()
        };
        self.acquires += usize::from(word == 1);
        match (word, self.holder) {
            (1, None) => {
                self.holder = Some(client);
                self.fence += 1;
                self.grants.push(client);
                self.queue.retain(|it| client_of(&it.watch) != client);
                fence(1, self.fence)
            }
            (1, Some(holder)) => held(2, holder, self.fence),
            (2, Some(holder)) if holder == client => {
                self.holder = None;
                vec![3]
            }
            (2, _) => vec![4],
            (_, None) => fence(5, self.fence),
            (_, Some(holder)) => held(6, holder, self.fence),
        }
    }

    fn place(&self, client: u16) -> Option<usize> {
        self.queue
            .iter()
            .position(|it| client_of(&it.watch) == client)
    }

    /// Whether another client has the lock, or comes first.
    fn waits_for_others(&self, client: u16) -> bool {
        self.holder
            .map_or(!self.queue.is_empty(), |holder| holder != client)
    }

    /// Keeps or renews a watch, and answers it.
    fn hear(&mut self, watch: &[u8], from: SocketAddr) {
        let (client, at) = (client_of(watch), Instant::now());
        let place = self.place(client);
        if place.is_some_and(|place| number_of(watch) <= number_of(&self.queue[place].watch)) {
            return;
        }
        match place {
            Some(place) if watch[68] == 0 => drop(self.queue.remove(place)),
            Some(place) => (self.queue[place].watch, self.queue[place].at) = (watch.to_vec(), at),
            None if watch[68] > 0 && self.waits_for_others(client) => {
                let (watch, told) = (watch.to_vec(), None);
                self.queue.push(Queued {
                    watch,
                    from,
                    at,
                    told,
                });
            }
            None => {}
        }
        let place = self.place(client).map_or(0, |place| place + 1);
        let news = if self.holder.is_some() { 2 } else { 1 };
        self.notify(watch, from, news, place);
    }

    fn notify(&mut self, watch: &[u8], from: SocketAddr, news: u8, place: usize) {
        let mut notice = watch.to_vec();
        (notice[3], notice[15], notice[68]) = (10, 1, news);
        (notice[69], notice[70]) = (0, place as u8);
        self.send(&notice, from);
    }

    /// Tells the next one that the lock is free, if it is.
    fn tell(&mut self) {
        let opening = self.fence;
        let next = self.queue.iter().position(|it| it.told != Some(opening));
        if let (None, Some(place)) = (self.holder, next) {
            self.queue[place].told = Some(opening);
            let (watch, from) = (self.queue[place].watch.clone(), self.queue[place].from);
            self.notify(&watch, from, 1, place + 1);
        }
    }
}

/// Lets so many clients hold the lock so many times each. The node after that.
fn waited(clients: u16, times: u32, loss: u64) -> Node {
    let mut node = Node::new(loss);
    let port = node.socket.local_addr().unwrap().port();
    let is_over = Arc::new(AtomicBool::new(false));
    let ended = Arc::clone(&is_over);
    let served = thread::spawn(move || {
        node.serve(&ended);
        node
    });
    let (inside, last) = (AtomicU32::new(0), Mutex::new(0));
    thread::scope(|scope| {
        for id in 1..=clients {
            let (inside, last) = (&inside, &last);
            scope.spawn(move || {
                let numbers = Numbers::from_first(1).unwrap();
                let id = ClientId::new(id).unwrap();
                let mut client = Client::new(ClusterId::new(5), id, &[port], numbers).unwrap();
                client.set_patience(Duration::from_secs(60));
                for _ in 0..times {
                    let lock = client.lock("db", Duration::MAX).unwrap();
                    assert_eq!(inside.fetch_add(1, Ordering::SeqCst), 0);
                    let before = std::mem::replace(&mut *last.lock().unwrap(), lock.fence());
                    assert!(before < lock.fence());
                    thread::sleep(Duration::from_millis(1));
                    inside.fetch_sub(1, Ordering::SeqCst);
                    lock.release().unwrap();
                }
            });
        }
    });
    is_over.store(true, Ordering::Relaxed);
    let node = served.join().unwrap();
    assert_eq!(node.grants.len(), usize::from(clients) * times as usize);
    assert!(node.holder.is_none() && node.queue.is_empty());
    node
}

#[test]
fn waiters_have_a_lock_in_turn() {
    let start = Instant::now();
    let node = waited(6, 10, 0);
    println!(
        "{} acquires in {:?}: {:?}",
        node.acquires,
        start.elapsed(),
        node.grants
    );
    // polls of all of them would be several for each grant
    assert!(node.acquires <= 3 * node.grants.len(), "{}", node.acquires);
}

#[test]
fn waiters_all_have_a_lock_though_datagrams_are_lost() {
    waited(4, 3, 2);
}
