//! Sends, resends and waits of one request.

use crate::reply::{Label, Reply};
use crate::request::Open;
use crate::ticket::is_notice;
use crate::{Answer, Error, Event, Session, Waits};
use std::collections::VecDeque;
use std::net::SocketAddr;
use std::time::{Duration, Instant};

/// The Elsewheres that are followed between two waits: a cluster has no more members.
const FOLLOWED: u32 = 7;
/// The interval between two warnings that no node answers.
const WARN_EACH: Duration = Duration::from_secs(5);

/// What the caller of [`Session::step`] must do next.
#[derive(Debug)]
pub enum Step {
    /// Send these bytes, then step again. A datagram that cannot be sent counts as lost.
    Send {
        /// The datagram.
        bytes: Vec<u8>,
        /// The node's address.
        to: SocketAddr,
    },
    /// Wait for a datagram, pass it to [`Session::take`] if one arrives, then step again.
    Wait {
        /// The end of the wait.
        until: Instant,
    },
    /// The request has been answered or refused, or its patience has run out.
    Done(Result<Answer, Error>),
}

/// The sends and waits of a request.
#[derive(Debug)]
pub(crate) struct Exchange {
    start: Instant,
    // none: no limit
    end: Option<Instant>,
    waits: Waits,
    until: Instant,
    // the node whose turn it is, and those to which the request is sent next
    address: SocketAddr,
    to_send: VecDeque<SocketAddr>,
    asked: Vec<SocketAddr>,
    followed: u32,
    // frames that no key opens
    closed: u32,
    warn_at: Instant,
    done: Option<Result<Answer, Error>>,
}

impl Exchange {
    pub(crate) fn new(address: SocketAddr, now: Instant, patience: Duration) -> Exchange {
        let mut exchange = Exchange {
            start: now,
            end: now.checked_add(patience),
            waits: Waits::default(),
            until: now,
            address,
            to_send: VecDeque::new(),
            asked: Vec::new(),
            followed: 0,
            closed: 0,
            warn_at: now + WARN_EACH,
            done: None,
        };
        exchange.restart(address, now);
        exchange
    }

    /// Sends to that node next, with the waits of a new request.
    fn restart(&mut self, address: SocketAddr, now: Instant) {
        self.waits = Waits::default();
        self.send_to(address, now);
    }

    fn send_to(&mut self, address: SocketAddr, now: Instant) {
        self.until = now + self.waits.next().unwrap_or(WARN_EACH);
        self.followed = 0;
        self.address = address;
        self.to_send = VecDeque::from([address]);
    }

    fn is_over(&self, now: Instant) -> bool {
        self.end.is_some_and(|end| now >= end)
    }

    /// The time of the next step if no datagram arrives.
    fn wake(&self) -> Instant {
        let wake = self.until.min(self.warn_at);
        self.end.map_or(wake, |end| wake.min(end))
    }

    /// Sends to a node that leads, as it says itself, which counts as an Elsewhere.
    pub(crate) fn lead(&mut self, node: SocketAddr) {
        if node != self.address && self.followed < FOLLOWED {
            self.followed += 1;
            self.to_send.push_back(node);
        }
    }

    /// Whether the request was sent to that address.
    fn has_asked(&self, from: SocketAddr) -> bool {
        let is_it = |asked: &SocketAddr| (asked.ip(), asked.port()) == (from.ip(), from.port());
        self.asked.iter().any(is_it)
    }
}

impl Session {
    /// Returns what to do now for the open request, or for the lock that is waited for.
    pub fn step(&mut self, now: Instant) -> Step {
        if let Some(step) = self.step_between(now) {
            return step;
        }
        let Some(mut exchange) = self.exchange.take() else {
            return Step::Done(Err(Error::NothingAsked));
        };
        let step = match exchange.done.take() {
            Some(done) => Step::Done(done),
            None => self.next(&mut exchange, now),
        };
        match step {
            Step::Done(done) => return self.ended(done, now),
            _ => self.exchange = Some(exchange),
        }
        match (step, self.renews_at()) {
            (Step::Wait { until }, Some(renews)) => Step::Wait {
                until: until.min(renews),
            },
            (step, _) => step,
        }
    }

    fn next(&mut self, exchange: &mut Exchange, now: Instant) -> Step {
        if let Err(forked) = self.numbers.of_this_process() {
            return Step::Done(Err(forked));
        }
        if let Some(address) = exchange.to_send.pop_front() {
            return self.sent(exchange, address);
        }
        if exchange.is_over(now) {
            return Step::Done(Err(self.unanswered(exchange.closed)));
        }
        self.warn(exchange, now);
        if now < exchange.until {
            let until = exchange.wake();
            return Step::Wait { until };
        }
        let address = self.address_after(exchange.address);
        exchange.send_to(address, now);
        self.next(exchange, now)
    }

    /// Sends the request there.
    fn sent(&mut self, exchange: &mut Exchange, to: SocketAddr) -> Step {
        let Some(open) = &self.open else {
            return Step::Done(Err(Error::NothingAsked));
        };
        let number = open.number();
        let bytes = match self.label(number).request(&open.asked()) {
            Ok(bytes) => self.seals.sealed(bytes),
            Err(error) => return Step::Done(Err(error)),
        };
        if !exchange.has_asked(to) {
            exchange.asked.push(to);
        }
        let port = to.port();
        self.log.tell(&Event::Sent { number, port });
        Step::Send { bytes, to }
    }

    fn label(&self, number: u64) -> Label {
        Label {
            cluster: self.seals.cluster.get(),
            client: self.seals.client.get(),
            number,
        }
    }

    /// Logs every few seconds that no node answers.
    fn warn(&mut self, exchange: &mut Exchange, now: Instant) {
        if now < exchange.warn_at {
            return;
        }
        exchange.warn_at = now + WARN_EACH;
        if let Some(open) = &self.open {
            self.log.tell(&Event::Unreachable {
                op: &open.op,
                since: now.saturating_duration_since(exchange.start),
            });
        }
    }

    /// The error of a request whose patience is over.
    fn unanswered(&mut self, closed: u32) -> Error {
        let Some(open) = &self.open else {
            return Error::NothingAsked;
        };
        let number = open.number();
        self.log.tell(&Event::Unanswered { number });
        Error::NoAnswer {
            op: open.op.clone(),
            is_sent: open.is_sent(),
            closed,
        }
    }

    /// The next address in turn, other than the silent one if possible.
    fn address_after(&mut self, silent: SocketAddr) -> SocketAddr {
        self.leader = None;
        for _ in 0..self.addresses.len() {
            self.turn = (self.turn + 1) % self.addresses.len();
            if self.addresses[self.turn] != silent {
                break;
            }
        }
        self.addresses[self.turn]
    }

    /// Takes a datagram from that address. Drops whatever is no reply to the open request and no
    /// notice to the last watch, and without a key also what comes from addresses to which neither was
    /// sent.
    pub fn take(&mut self, datagram: &[u8], from: SocketAddr, now: Instant) {
        if is_notice(datagram) {
            return self.hear(datagram, from, now);
        }
        let Some(mut exchange) = self.exchange.take() else {
            return;
        };
        if self.seals.is_closed(datagram) {
            exchange.closed = exchange.closed.saturating_add(1);
        }
        let is_known = self.seals.keys.is_some() || exchange.has_asked(from);
        if let Some(reply) = self.reply(datagram).filter(|_| is_known)
            && exchange.done.is_none()
        {
            self.follow(&mut exchange, reply, from, now);
        }
        self.exchange = Some(exchange);
    }

    /// What a datagram replies to the open request.
    fn reply(&self, datagram: &[u8]) -> Option<Reply> {
        let number = self.open.as_ref()?.number();
        self.label(number).reply(self.seals.opened(datagram)?)
    }

    fn follow(&mut self, exchange: &mut Exchange, reply: Reply, from: SocketAddr, now: Instant) {
        self.tell(from.port(), &reply);
        match reply {
            Reply::Answer(answer) => {
                if exchange.has_asked(from) {
                    self.leader = Some(from);
                }
                let next = self.leader.unwrap_or(exchange.address);
                match self.answered(answer, now) {
                    Some(done) => exchange.done = Some(done),
                    None => exchange.restart(next, now), // with the next part of the request
                }
            }
            Reply::Passed(last) => exchange.done = self.passed_by(last).map(Err),
            Reply::Elsewhere { node, port } if exchange.followed < FOLLOWED => {
                exchange.followed += 1;
                let host = self.hosts.get(&node).copied().unwrap_or(from.ip());
                exchange.to_send.push_back(SocketAddr::new(host, port));
            }
            Reply::Elsewhere { .. } => {}
        }
    }

    /// Logs a reply.
    fn tell(&mut self, port: u16, reply: &Reply) {
        let number = self.open.as_ref().map_or(0, Open::number);
        self.log.tell(&match *reply {
            Reply::Answer(answer) => Event::Answered {
                number,
                port,
                answer,
            },
            Reply::Passed(last) => Event::Passed { number, last },
            Reply::Elsewhere { port: other, .. } => Event::Elsewhere {
                number,
                port,
                other,
            },
        });
    }
}

#[cfg(test)]
mod tests;
