//! The events that a client logs.

use crate::{Answer, ClientId, Error, Op};
use std::fmt;
use std::panic::{AssertUnwindSafe, catch_unwind};
use std::time::Duration;

/// Something that happened in a client, for the callback of
/// [`Client::set_log`](crate::Client::set_log).
///
/// ```
/// use locks_client::Event;
///
/// let sent = Event::Sent { number: 3, port: 7001 };
/// assert_eq!(sent.to_string(), "request 3 sent to port 7001");
/// ```
#[derive(Debug)]
#[non_exhaustive]
pub enum Event<'a> {
    /// A request was sent to a node, for the first time or again.
    Sent {
        /// The number of the request.
        number: u64,
        /// The node's port.
        port: u16,
    },
    /// A node named another one that may lead.
    Elsewhere {
        /// The number of the request.
        number: u64,
        /// The port of the node that replied.
        port: u16,
        /// The port of the node that it named.
        other: u16,
    },
    /// A request was answered; a refusal is an answer too.
    Answered {
        /// The number of the request.
        number: u64,
        /// The port of the node that answered.
        port: u16,
        /// The answer.
        answer: Answer,
    },
    /// A request will not be executed any more: one with a greater number was.
    Passed {
        /// The number of the request.
        number: u64,
        /// The greater number.
        last: u64,
    },
    /// No answer came in time.
    Unanswered {
        /// The number of the request.
        number: u64,
    },
    /// A request without an answer was given up: the next one settles whether it takes effect.
    GivenUp {
        /// The number of the request.
        number: u64,
        /// The lock that it asked for, which it may have been granted.
        name: Option<&'a str>,
    },
    /// No node has answered for a while. Logged every five seconds.
    Unreachable {
        /// What was asked.
        op: &'a Op,
        /// For how long.
        since: Duration,
    },
    /// A join is sent whose node has a number above twice that of each other host of
    /// [`Client::set_hosts`](crate::Client::set_hosts): no smaller number can join after it.
    FarJoin {
        /// The number of the node.
        node: u32,
    },
    /// A lock is held. It is asked for again after a pause, or when a node says that it is free.
    Waiting {
        /// The lock's name.
        name: &'a str,
        /// Who holds it.
        holder: ClientId,
        /// The fence at which it is held.
        fence: u64,
        /// The pause.
        pause: Duration,
    },
    /// The release of a guarded lock failed: the lock may still be held.
    NotReleased {
        /// The lock's name.
        name: &'a str,
        /// The fence at which it was held.
        fence: u64,
        /// Why the release failed.
        cause: &'a Error,
    },
    /// A watched lock could not be checked. It may be held or lost.
    Unwatched {
        /// The lock's name.
        name: &'a str,
        /// The fence at which it was granted.
        fence: u64,
        /// Why the check failed.
        cause: &'a Error,
    },
    /// The client was dropped while it held a lock, which stays held.
    LeftHeld {
        /// The lock's name.
        name: &'a str,
        /// The fence at which it is held.
        fence: u64,
    },
}

impl fmt::Display for Event<'_> {
    fn fmt(&self, f: &mut fmt::Formatter<'_>) -> fmt::Result {
        match self {
            Event::Sent { number, port } => write!(f, "request {number} sent to port {port}"),
            Event::Elsewhere {
                number,
                port,
                other,
            } => write!(f, "request {number}: port {port} names port {other}"),
            Event::Answered {
                number,
                port,
                answer,
            } => write!(f, "request {number}: port {port} answers {answer}"),
            Event::Passed { number, last } => write!(f, "request {number}: passed {last}"),
            Event::Unanswered { number } => write!(f, "request {number}: no answer"),
            Event::GivenUp { number, name } => {
                let name = name.unwrap_or("no lock");
                write!(
                    f,
                    "request {number} for {name} was given up without an answer"
                )
            }
            Event::Unreachable { op, since } => write!(
                f,
                "no node has answered `{op}` for {} s; check that nodes run at the given addresses",
                since.as_secs()
            ),
            Event::FarJoin { node } => write!(
                f,
                "node {node} is above twice the greatest other node of the hosts: no smaller number \
                 can join after it"
            ),
            other => other.fmt_lock(f),
        }
    }
}

impl Event<'_> {
    /// The text of an event that is about a lock.
    fn fmt_lock(&self, f: &mut fmt::Formatter<'_>) -> fmt::Result {
        match self {
            Event::Waiting {
                name,
                holder,
                fence,
                pause,
            } => write!(
                f,
                "{name} is held at fence {fence} by client {holder}: asks again in {pause:?}"
            ),
            Event::NotReleased { name, fence, cause } => {
                write!(f, "{name} was not released at fence {fence}: {cause}")
            }
            Event::Unwatched { name, fence, cause } => {
                write!(f, "{name} could not be checked at fence {fence}: {cause}")
            }
            Event::LeftHeld { name, fence } => write!(
                f,
                "{name} is still held at fence {fence}, as far as its client knew when it was \
                 dropped; release it at that fence in the next run"
            ),
            _ => Ok(()),
        }
    }
}

type Callback = Box<dyn FnMut(&Event<'_>) + Send + Sync>;

/// The callback of a client, if it has one.
#[derive(Default)]
pub(crate) struct Log(Option<Callback>);

impl Log {
    pub(crate) fn new(callback: impl FnMut(&Event<'_>) + Send + Sync + 'static) -> Log {
        Log(Some(Box::new(callback)))
    }

    /// Calls it. A panic of its own ends there: it may run in a `drop` while another one unwinds.
    pub(crate) fn tell(&mut self, event: &Event<'_>) {
        let Log(Some(callback)) = self else { return };
        let _ = catch_unwind(AssertUnwindSafe(|| callback(event)));
    }
}

impl fmt::Debug for Log {
    fn fmt(&self, f: &mut fmt::Formatter<'_>) -> fmt::Result {
        f.write_str(if self.0.is_some() {
            "Log(set)"
        } else {
            "Log(unset)"
        })
    }
}
