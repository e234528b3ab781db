//! How a session waits for a lock: it asks, waits for a notice, and asks again.

use crate::ticket::Ticket;
use crate::waiter::{Sends, Waiter};
use crate::{Answer, Error, Event, Op, Session, Step, milliseconds};
use std::collections::{BTreeMap, VecDeque};
use std::net::SocketAddr;
use std::time::{Duration, Instant};

/// How long after a release a client lets others have the lock first.
const LATELY: Duration = Duration::from_secs(1);
/// The time that the last request of a wait is given at least.
const ANSWER_TIME: Duration = Duration::from_millis(500);

/// A lock that is waited for.
#[derive(Debug)]
struct Wait {
    op: Op,
    // when the last request is sent, and when its patience ends; none: no limit
    end: Option<Instant>,
    limit: Option<Instant>,
    waiter: Waiter,
}

impl Wait {
    fn is_over(&self, now: Instant) -> bool {
        self.end.is_some_and(|end| now >= end)
    }

    fn patience(&self, now: Instant) -> Duration {
        let left = |limit: Instant| limit.saturating_duration_since(now);
        self.limit.map_or(Duration::MAX, left)
    }
}

/// What a session does between two requests.
#[derive(Debug)]
pub(crate) struct Waiting {
    // whether nodes are watched
    pub(crate) notices: bool,
    wait: Option<Wait>,
    // what is sent before anything else, and how the wait that it belongs to has ended
    to_send: VecDeque<(Vec<u8>, SocketAddr)>,
    done: Option<Result<Answer, Error>>,
    // the number of the last watch
    number: u64,
    // the fences at which this run released names last, and when
    released: BTreeMap<String, (u64, Instant)>,
    // no notice has come since a watch before a request: nodes may be too old to know watches
    is_unheard: bool,
}

impl Waiting {
    /// The numbers of watches lie above those of earlier runs, unless a clock was set back. A node that
    /// knows a greater one ignores those of this run until that watch expires, for two seconds.
    pub(crate) fn new() -> Waiting {
        Waiting {
            notices: true,
            wait: None,
            to_send: VecDeque::new(),
            done: None,
            number: milliseconds() * 1_000_000,
            released: BTreeMap::new(),
            is_unheard: false,
        }
    }

    pub(crate) fn released(&mut self, name: &str, fence: u64, now: Instant) {
        self.released.insert(name.to_owned(), (fence, now));
    }

    /// The fence at which this run released the name a moment ago, if nodes know watches.
    fn released_lately(&self, name: &str, now: Instant) -> Option<u64> {
        let (fence, then) = *self.released.get(name)?;
        let is_lately = now.saturating_duration_since(then) < LATELY;
        (is_lately && !self.is_unheard).then_some(fence)
    }
}

impl Session {
    /// Begins to wait for a lock: asks for it, and asks again while another client holds it, until
    /// `wait` is over. The op is an acquire or a share. [`Session::step`] yields the last answer.
    ///
    /// Meanwhile the nodes are watched, unless [`Session::set_notices`] has said otherwise: one that
    /// leads sends a notice when the lock is free, and the lock is asked for at once. Where no notice
    /// comes, it is asked for after the waits of [`BusyWaits`](crate::BusyWaits). A client that released
    /// the lock within the last second watches first, so that those who wait have it before.
    ///
    /// The last answer comes half a second after `wait` at the latest, or within `patience` where that
    /// is longer. If the same request is open, it is resumed. Other errors are those of
    /// [`Session::begin`].
    pub fn begin_wait(
        &mut self,
        op: Op,
        now: Instant,
        wait: Duration,
        patience: Duration,
    ) -> Result<(), Error> {
        if let Some(open) = self.open.as_ref().filter(|open| open.op != op) {
            let op = open.op.clone();
            return Err(Error::Unanswered { op });
        }
        self.end_wait();
        let limit = wait.saturating_add(ANSWER_TIME).max(patience);
        let mut begun = Wait {
            waiter: Waiter::new(self.ticket(&op), now),
            end: now.checked_add(wait),
            limit: now.checked_add(limit),
            op,
        };
        let nodes = self.watched();
        let yields = self.open.is_none() && !wait.is_zero() && !nodes.is_empty();
        let name = begun.op.wanted().unwrap_or_default();
        match self.waiting.released_lately(name, now) {
            Some(fence) if yields => {
                begun.waiter.set_nodes(nodes);
                let sends = begun.waiter.watch_first(now, fence);
                self.send_watches(sends, &begun);
                self.waiting.is_unheard = true;
            }
            _ => self.ask(&begun, now)?,
        }
        self.waiting.wait = Some(begun);
        Ok(())
    }

    /// Asks for the lock, or resumes the request for it.
    fn ask(&mut self, wait: &Wait, now: Instant) -> Result<(), Error> {
        let patience = wait.patience(now);
        match &self.open {
            Some(open) if open.op == wait.op => self.resume(now, patience),
            _ => self.begin(wait.op.clone(), now, patience),
        }
    }

    fn ticket(&self, op: &Op) -> Ticket {
        Ticket {
            cluster: self.seals.cluster.get(),
            client: self.seals.client.get(),
            number: self.waiting.number,
            fence: 0,
            is_shared: matches!(op, Op::Share(_)),
            name: op.wanted().unwrap_or_default().to_owned(),
        }
    }

    /// The nodes that are watched: none without notices, otherwise all, and the one that answered last.
    fn watched(&self) -> Vec<SocketAddr> {
        if !self.waiting.notices {
            return Vec::new();
        }
        let mut watched = self.addresses.clone();
        let leader = self.leader;
        watched.extend(leader.filter(|leader| !self.addresses.contains(leader)));
        watched
    }

    /// Changes the nodes that are watched.
    pub(crate) fn change_watched(&mut self) {
        let watched = self.watched();
        if let Some(wait) = &mut self.waiting.wait {
            wait.waiter.set_nodes(watched);
        }
    }

    fn send_watches(&mut self, sends: Sends, wait: &Wait) {
        self.waiting.number = wait.waiter.number();
        let sealed = sends
            .into_iter()
            .map(|(bytes, to)| (self.seals.sealed(bytes), to));
        self.waiting.to_send.extend(sealed);
    }

    /// What to do before the open request, if there is something.
    pub(crate) fn step_between(&mut self, now: Instant) -> Option<Step> {
        if let Err(forked) = self.numbers.of_this_process() {
            self.waiting.to_send.clear();
            return self.waiting.wait.take().map(|_| Step::Done(Err(forked)));
        }
        if let Some((bytes, to)) = self.waiting.to_send.pop_front() {
            return Some(Step::Send { bytes, to });
        }
        if let Some(done) = self.waiting.done.take() {
            return Some(Step::Done(done));
        }
        let mut wait = self.waiting.wait.take()?;
        if self.exchange.is_none() {
            return Some(self.step_wait(wait, now));
        }
        let sends = wait.waiter.renew(now);
        self.send_watches(sends, &wait);
        self.waiting.wait = Some(wait);
        let (bytes, to) = self.waiting.to_send.pop_front()?;
        Some(Step::Send { bytes, to })
    }

    /// Waits for a notice, renews the watch, or asks again.
    fn step_wait(&mut self, mut wait: Wait, now: Instant) -> Step {
        if now >= wait.waiter.asks_at() || wait.is_over(now) {
            wait.waiter.ask();
            let asked = self.ask(&wait, now);
            self.waiting.wait = Some(wait);
            return match asked {
                Ok(()) => self.step(now),
                Err(error) => self.ended(Err(error), now),
            };
        }
        let sends = wait.waiter.renew(now);
        self.send_watches(sends, &wait);
        let due = wait.waiter.due();
        let until = wait.end.map_or(due, |end| due.min(end));
        self.waiting.wait = Some(wait);
        match self.waiting.to_send.pop_front() {
            Some((bytes, to)) => Step::Send { bytes, to },
            None => Step::Wait { until },
        }
    }

    /// Goes on with a wait after an answer, or ends it.
    pub(crate) fn ended(&mut self, done: Result<Answer, Error>, now: Instant) -> Step {
        let Some(mut wait) = self.waiting.wait.take() else {
            return Step::Done(done);
        };
        match &done {
            Err(Error::Busy {
                fence,
                is_own: false,
                ..
            }) if !wait.is_over(now) => {
                wait.waiter.set_nodes(self.watched());
                let sends = wait.waiter.busy(now, *fence);
                self.send_watches(sends, &wait);
                self.tell_waiting(&done, wait.waiter.pause(now));
                self.waiting.wait = Some(wait);
                return self.step(now);
            }
            Ok(_) => return Step::Done(done), // the nodes execute the grant, which ends the watch
            Err(_) => {}
        }
        let sends = wait.waiter.withdraw();
        self.send_watches(sends, &wait);
        self.waiting.done = Some(done);
        self.step(now)
    }

    /// Ends the wait, if there is one. What withdraws it is sent by the next steps.
    pub(crate) fn end_wait(&mut self) {
        self.waiting.done = None; // of a wait before, which nobody asked for
        if let Some(mut wait) = self.waiting.wait.take() {
            let sends = wait.waiter.withdraw();
            self.send_watches(sends, &wait);
        }
    }

    /// When the watch is renewed, if a lock is waited for.
    pub(crate) fn renews_at(&self) -> Option<Instant> {
        self.waiting.wait.as_ref()?.waiter.renews_at()
    }

    /// Takes what may be a notice. An open request goes to a node that leads, as it says.
    pub(crate) fn hear(&mut self, datagram: &[u8], from: SocketAddr, now: Instant) {
        let is_sealed = self.seals.keys.is_some();
        let heard = match (&mut self.waiting.wait, self.seals.opened(datagram)) {
            (Some(wait), Some(opened)) => wait.waiter.hear(opened, from, is_sealed, now),
            _ => None,
        };
        let Some(leads) = heard else { return };
        self.waiting.is_unheard = false;
        if leads {
            self.leader = Some(from);
            self.exchange.iter_mut().for_each(|it| it.lead(from));
        }
    }

    /// Logs why it waits.
    fn tell_waiting(&mut self, busy: &Result<Answer, Error>, pause: Duration) {
        if let Err(Error::Busy {
            name,
            holder,
            fence,
            ..
        }) = busy
        {
            let (holder, fence) = (*holder, *fence);
            self.log.tell(&Event::Waiting {
                name,
                holder,
                fence,
                pause,
            });
        }
    }
}

#[cfg(test)]
mod tests;
