//! Errors of the client, and refusals by the service.

use crate::{Answer, ClientId, Op, StateFault};
use std::path::PathBuf;
use std::{fmt, io};

/// Why a call failed: the client refused it, the service did, or no answer came.
///
/// ```
/// use locks_client::{Error, Numbers};
///
/// let error = Numbers::kept_in("no/such/file").unwrap_err();
/// assert!(matches!(error, Error::State { .. }));
/// assert!(error.to_string().starts_with("state file no/such/file: "));
/// ```
#[derive(Debug)]
#[non_exhaustive]
pub enum Error {
    /// No answer came in time: see [`Client::again`], [`Client::withdraw`] and [`Client::give_up`].
    ///
    /// [`Client::again`]: crate::Client::again
    /// [`Client::withdraw`]: crate::Client::withdraw
    /// [`Client::give_up`]: crate::Client::give_up
    NoAnswer {
        /// What was asked.
        op: Op,
        /// Whether it was sent: then it may have taken effect, or still may. If not, only the Ask
        /// before it was sent.
        is_sent: bool,
        /// How many frames arrived meanwhile that the client's key does not open.
        closed: u32,
    },
    /// An earlier request has no answer yet.
    Unanswered {
        /// What it asked.
        op: Op,
    },
    /// No request is open, or none that [`Client::withdraw`](crate::Client::withdraw) withdraws.
    NothingAsked,
    /// A request with the greater number `last` of the client was executed, and this one no longer
    /// will be. Another process uses the client number, or the last number was lost: then
    /// [`Client::skip_to`](crate::Client::skip_to) helps.
    Passed {
        /// What was asked.
        op: Op,
        /// Whether it was sent: then it may have taken effect before.
        is_sent: bool,
        /// The greater number.
        last: u64,
    },
    /// An acquire or a share was passed or given up, so it is unknown whether it was granted.
    Unknown {
        /// The lock's name.
        name: String,
    },
    /// The answer belongs to another request: an earlier run or another process has used the number.
    OtherAnswer {
        /// What was asked.
        op: Op,
        /// The answer to the other request.
        answer: Answer,
        /// The number, which was used before.
        number: u64,
    },
    /// The client, or its numbers, were made in another process, before a fork. Make them after it,
    /// and with another client number if the parent goes on to use this one.
    Forked {
        /// The process in which they were made.
        opened: u32,
        /// This process.
        here: u32,
    },
    /// The state file cannot be used.
    State {
        /// The file; where a symbolic link was named, the one that it leads to.
        path: PathBuf,
        /// What is wrong with it.
        fault: StateFault,
    },
    /// The client has used its numbers up, all to 2^48 - 2^32.
    OutOfNumbers,
    /// A lock was not released, and may still be held.
    NotReleased {
        /// The lock's name.
        name: String,
        /// The fence at which it was held.
        fence: u64,
        /// Why the release failed.
        cause: Box<Error>,
    },
    /// The name is held, maybe by this client itself.
    Busy {
        /// The lock's name.
        name: String,
        /// Who holds it; the least client where several share it.
        holder: ClientId,
        /// The fence at which it is held.
        fence: u64,
        /// Whether the holder is this client itself.
        is_own: bool,
    },
    /// This client shares the name, but an earlier run may have taken that share, which stays. See
    /// [`Client::adopt`](crate::Client::adopt).
    SharedBefore {
        /// The lock's name.
        name: String,
        /// The fence at which it is shared.
        fence: u64,
    },
    /// This client does not hold the name at that fence.
    NotHeld {
        /// The lock's name.
        name: String,
        /// The fence.
        fence: u64,
    },
    /// The table has 512 other names.
    NoRoom {
        /// The lock's name.
        name: String,
    },
    /// The table does not know the request: it was not raised.
    Bad {
        /// What was asked.
        op: Op,
    },
    /// The fence of this name has reached 2^48.
    Spent {
        /// The lock's name.
        name: String,
    },
    /// A member has or had this node number, or a greater one.
    Used {
        /// The node.
        node: u32,
    },
    /// The cluster has seven members.
    Full {
        /// The node that was to join.
        node: u32,
    },
    /// The node is no member.
    NotMember {
        /// The node.
        node: u32,
    },
    /// The node is the only member.
    Last {
        /// The node.
        node: u32,
    },
    /// An argument is out of its range; nothing was sent.
    Malformed(String),
    /// The socket could not be used.
    Socket(io::Error),
}

impl Error {
    /// An argument that is out of its range.
    pub(crate) fn malformed(what: &str, value: impl fmt::Display, range: &str) -> Error {
        Error::Malformed(format!("invalid {what} {value}: must be {range}"))
    }

    /// The refusal of an op that an answer is, if it is one.
    pub(crate) fn refusal(op: &Op, answer: &Answer) -> Option<Error> {
        let name = || op.name().unwrap_or_default().to_owned();
        let node = op.node();
        Some(match *answer {
            Answer::Busy { holder, fence } => Error::busy(&name(), holder, fence),
            Answer::NotHeld => Error::not_held(&name(), op.fence().unwrap_or_default()),
            Answer::NoRoom => Error::NoRoom { name: name() },
            Answer::Bad => Error::Bad { op: op.clone() },
            Answer::Spent => Error::Spent { name: name() },
            Answer::Used => Error::Used { node },
            Answer::Full => Error::Full { node },
            Answer::NotMember => Error::NotMember { node },
            Answer::Last => Error::Last { node },
            _ => return None,
        })
    }

    /// A lock that a client holds.
    pub(crate) fn busy(name: &str, holder: ClientId, fence: u64) -> Error {
        Error::Busy {
            name: name.to_owned(),
            holder,
            fence,
            is_own: false,
        }
    }

    /// A lock that this client does not hold at that fence.
    pub(crate) fn not_held(name: &str, fence: u64) -> Error {
        Error::NotHeld {
            name: name.to_owned(),
            fence,
        }
    }

    /// The same error, marked as the client's own where its number is that of the holder.
    pub(crate) fn seen_by(self, client: ClientId) -> Error {
        match self {
            Error::Busy {
                name,
                holder,
                fence,
                ..
            } => Error::Busy {
                name,
                holder,
                fence,
                is_own: holder == client,
            },
            other => other,
        }
    }
}

impl std::error::Error for Error {
    fn source(&self) -> Option<&(dyn std::error::Error + 'static)> {
        match self {
            Error::Socket(error) => Some(error),
            Error::NotReleased { cause, .. } => Some(cause),
            Error::State {
                fault: StateFault::Io(error),
                ..
            } => Some(error),
            _ => None,
        }
    }
}
