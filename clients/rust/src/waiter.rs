//! A wait for a lock between two requests for it.

use crate::ticket::{News, Notice, Ticket};
use crate::waits::{BusyWaits, wait_with_place};
use std::net::SocketAddr;
use std::time::{Duration, Instant};

/// How long a watch lives at a node, in periods of the node's clock: two seconds.
const PERIODS: u8 = 20;
/// The interval between two watches.
const RENEWAL: Duration = Duration::from_millis(800);
/// How long a node is believed to keep a place for the client: until two watches have no answer.
const BELIEF: Duration = Duration::from_millis(1700);
/// How long a node may take to answer a watch.
const ANSWER_TIME: Duration = Duration::from_millis(400);
/// After that many watches in a row without an answer a node is gone.
const MOST_SILENT: u32 = 2;
/// Which of the watches go to a node that is gone, in case it comes back.
const TRY_EACH: u32 = 8;
/// How often in a row a notice may bring a request forward in vain at one fence.
const MOST_MISLED: u32 = 2;

/// A node to which watches are sent.
#[derive(Clone, Debug)]
struct Post {
    address: SocketAddr,
    is_asked: bool,
    // whether it has not answered the last watch
    is_open: bool,
    // watches that it did not answer, since its last notice
    silent: u32,
    // until when it keeps a place for the client, as its last notice said
    kept_until: Option<Instant>,
    // the place with which its last answer to a watch said that the lock is free for others, or 0
    early: u16,
}

impl Post {
    fn new(address: SocketAddr) -> Post {
        Post {
            address,
            is_asked: false,
            is_open: false,
            silent: 0,
            kept_until: None,
            early: 0,
        }
    }

    fn is_gone(&self) -> bool {
        self.silent >= MOST_SILENT
    }

    /// Takes its notice. Returns whether that says that the lock is free for the client.
    fn hear(&mut self, notice: &Notice, now: Instant) -> bool {
        let is_early = self.is_open && self.is_early(notice);
        (self.silent, self.is_open) = (0, false);
        let is_kept = notice.news != News::NotHere && notice.place > 0;
        self.kept_until = is_kept.then(|| now + BELIEF);
        notice.news == News::Free && !is_early
    }

    /// Whether its answer to a watch says that the lock is free for those who came before the client.
    /// To the client the lock is then held: the node says later that its turn has come. If the node
    /// gives this answer again at the same place, what it has said since is lost, and those who came
    /// before leave the lock free.
    fn is_early(&mut self, notice: &Notice) -> bool {
        let is_free = notice.news == News::Free && notice.place > 1;
        let place = if is_free { notice.place } else { 0 };
        let is_again = place == self.early;
        self.early = if is_again { 0 } else { place };
        place > 0 && !is_again
    }
}

/// A datagram before it is sealed, and where it goes.
pub(crate) type Sends = Vec<(Vec<u8>, SocketAddr)>;

/// A wait for a lock that another client holds. It sends watches to the nodes and says when to ask
/// again: at once after a notice that the lock is free, otherwise after the wait of [`BusyWaits`], or
/// after a minute while the client has a place in the queue of a node.
///
/// A notice brings a request forward, or puts it off. So whatever is lost, late or forged costs time
/// alone.
#[derive(Debug)]
pub(crate) struct Waiter {
    // of the last watch
    ticket: Ticket,
    posts: Vec<Post>,
    waits: BusyWaits,
    watches: u32,
    watched_at: Instant,
    busy_at: Instant,
    // from `busy_at` to the next request, and the same with a place in a queue
    pause: Duration,
    pause_with_place: Duration,
    // whether a notice to the last watch said so, and no request has followed it
    is_free: bool,
    // whether the last request followed such a notice
    is_told: bool,
    // requests in a row that followed one in vain, at this fence
    misled: u32,
}

impl Waiter {
    /// A wait for the lock of that ticket, whose number is that of the last watch of the client.
    pub(crate) fn new(ticket: Ticket, now: Instant) -> Waiter {
        Waiter {
            ticket,
            posts: Vec::new(),
            waits: BusyWaits::default(),
            watches: 0,
            watched_at: now,
            busy_at: now,
            pause: Duration::ZERO,
            pause_with_place: Duration::ZERO,
            is_free: false,
            is_told: false,
            misled: 0,
        }
    }

    /// The number of the last watch.
    pub(crate) fn number(&self) -> u64 {
        self.ticket.number
    }

    /// Changes the nodes to which watches are sent.
    pub(crate) fn set_nodes(&mut self, addresses: impl IntoIterator<Item = SocketAddr>) {
        let posts = addresses.into_iter().map(|address| {
            let known = self.posts.iter().find(|post| post.address == address);
            known.cloned().unwrap_or_else(|| Post::new(address))
        });
        self.posts = posts.collect();
    }

    /// Begins the wait with a watch, before any request. The client released the lock at that fence a
    /// moment ago, and leaves it to those who wait.
    pub(crate) fn watch_first(&mut self, now: Instant, fence: u64) -> Sends {
        self.wait(now, fence);
        self.watch(now)
    }

    /// Goes on after a request was answered Busy at that fence: sends a new watch. Where notices were
    /// wrong about one fence time and again, no more of them are followed until the fence changes.
    pub(crate) fn busy(&mut self, now: Instant, fence: u64) -> Sends {
        self.misled = match fence == self.ticket.fence {
            true => self.misled + u32::from(self.is_told),
            false => 0,
        };
        self.is_told = false;
        self.wait(now, fence);
        self.watch(now)
    }

    /// How long it waits after a Busy that came now, if nodes go on as they do.
    pub(crate) fn pause(&self, now: Instant) -> Duration {
        match self.kept_until().is_some_and(|until| now < until) {
            true => self.pause_with_place,
            false => self.pause,
        }
    }

    /// Until when a node keeps a place for the client, as far as notices are followed.
    fn kept_until(&self) -> Option<Instant> {
        let kept = self.posts.iter().filter_map(|post| post.kept_until).max();
        kept.filter(|_| !self.is_misled())
    }

    fn wait(&mut self, now: Instant, fence: u64) {
        (self.ticket.fence, self.busy_at) = (fence, now);
        (self.pause, self.pause_with_place) = (self.waits.after(fence), wait_with_place());
    }

    fn is_misled(&self) -> bool {
        self.misled >= MOST_MISLED
    }

    /// Sends the next watch to each node.
    fn watch(&mut self, now: Instant) -> Sends {
        let since = now.saturating_duration_since(self.watched_at);
        let is_late = self.watches > 0 && since >= ANSWER_TIME;
        self.ticket.number += 1;
        self.watches += 1;
        (self.is_free, self.watched_at) = (false, now);
        let is_try = self.watches.is_multiple_of(TRY_EACH);
        let mut sends = Vec::new();
        for post in &mut self.posts {
            post.silent += u32::from(post.is_open && is_late);
            post.is_open = is_try || !post.is_gone();
            if post.is_open {
                post.is_asked = true;
                sends.push((self.ticket.watch(PERIODS), post.address));
            }
        }
        sends
    }

    /// When the watch is renewed, if nodes are watched.
    pub(crate) fn renews_at(&self) -> Option<Instant> {
        let is_renewed = self.watches > 0 && !self.posts.is_empty();
        is_renewed.then(|| self.watched_at + RENEWAL)
    }

    /// Renews the watch if that is due.
    pub(crate) fn renew(&mut self, now: Instant) -> Sends {
        match self.renews_at() {
            Some(due) if now >= due => self.watch(now),
            _ => Vec::new(),
        }
    }

    /// Takes a datagram whose seal was checked, if `is_sealed`. A bare one is only taken from an
    /// address to which the watch was sent. If it is a notice to the last watch, this returns whether
    /// its node leads.
    pub(crate) fn hear(
        &mut self,
        datagram: &[u8],
        from: SocketAddr,
        is_sealed: bool,
        now: Instant,
    ) -> Option<bool> {
        let is_misled = self.is_misled();
        let post = self.posts.iter_mut().find(|post| post.address == from);
        let is_known = post.as_ref().is_some_and(|post| post.is_asked);
        if self.watches == 0 || !is_sealed && !is_known {
            return None;
        }
        let notice = self.ticket.notice(datagram)?;
        let leads = notice.news != News::NotHere;
        let is_free = match post {
            Some(post) => post.hear(&notice, now),
            None => notice.news == News::Free,
        };
        self.is_free |= is_free && !self.is_told && !is_misled;
        Some(leads && is_known)
    }

    /// When to ask for the lock again, unless a notice comes before. As long as a node keeps a place,
    /// each of its notices puts that off, up to the pause with a place.
    pub(crate) fn asks_at(&self) -> Instant {
        if self.is_free {
            return self.busy_at;
        }
        let asks = self.busy_at + self.pause;
        match self.kept_until() {
            Some(until) => asks.max(until.min(self.busy_at + self.pause_with_place)),
            None => asks,
        }
    }

    /// When there is something to do: to ask for the lock, or to renew the watch.
    pub(crate) fn due(&self) -> Instant {
        let asks = self.asks_at();
        self.renews_at().map_or(asks, |renews| renews.min(asks))
    }

    /// The lock is asked for now.
    pub(crate) fn ask(&mut self) {
        self.is_told = self.is_free;
        self.is_free = false;
    }

    /// Ends the wait of a client that was not granted the lock: its nodes forget it.
    pub(crate) fn withdraw(&mut self) -> Sends {
        if self.watches == 0 {
            return Vec::new();
        }
        self.ticket.number += 1;
        self.watches = 0;
        let bytes = self.ticket.watch(0);
        let asked = self.posts.iter().filter(|post| post.is_asked);
        asked.map(|post| (bytes.clone(), post.address)).collect()
    }
}

#[cfg(test)]
mod tests;
