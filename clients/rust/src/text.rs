//! The texts of errors: each names the lock, its fence if it is known, and what to do.

use crate::numbers::{MAX_NUMBER, beyond};
use crate::{Answer, Error, Op};
use std::fmt::{self, Display, Formatter};

/// What to do with an open request.
const SETTLE: &str = "call again, withdraw or give_up";

/// What an op may have done though its answer is missing.
fn without_answer(op: &Op) -> &'static str {
    match op {
        Op::Acquire(_) | Op::Share(_) => "it may have been granted, or may still be",
        Op::Release(..) => "the lock may still be held",
        _ => "it may have taken effect, or still may",
    }
}

/// What an op may have done though it will not be executed any more.
fn before_passed(op: &Op) -> &'static str {
    match op {
        Op::Acquire(_) | Op::Share(_) => "it may have been granted before",
        Op::Release(..) => "it may have been executed before, or the lock may still be held",
        _ => "it may have taken effect before",
    }
}

fn no_answer(f: &mut Formatter<'_>, op: &Op, is_sent: bool, closed: u32) -> fmt::Result {
    match is_sent {
        true => write!(f, "no answer to `{op}`: {}; {SETTLE}", without_answer(op))?,
        false => write!(
            f,
            "no answer: `{op}` was not sent yet, since no node answered; check that nodes run at the \
             given addresses, and {SETTLE}"
        )?,
    }
    match closed {
        0 => Ok(()),
        _ => write!(
            f,
            "; {closed} datagrams arrived that the client's key does not open: check that it is the \
             current one"
        ),
    }
}

fn passed(f: &mut Formatter<'_>, op: &Op, is_sent: bool, last: u64) -> fmt::Result {
    write!(f, "passed {last}: `{op}` ")?;
    match is_sent {
        true => write!(
            f,
            "will not be executed any more, but {}",
            before_passed(op)
        )?,
        false => f.write_str("was not sent")?,
    }
    f.write_str("; another process uses this client number, or its last number was lost: ")?;
    way_on(f, last)?;
    match op.wanted() {
        Some(name) if is_sent => write!(f, ", and then ask who holds {name}"),
        _ => Ok(()),
    }
}

fn other_answer(f: &mut Formatter<'_>, op: &Op, answer: &Answer, number: u64) -> fmt::Result {
    write!(
        f,
        "`{op}` was answered `{answer}`, which belongs to another request: number {number} was used \
         before, by another process or before an old state file was restored; "
    )?;
    way_on(f, number)
}

/// How a client goes on above a number that was used.
fn way_on(f: &mut Formatter<'_>, used: u64) -> fmt::Result {
    match beyond(used) {
        Some(first) => write!(f, "end that process, or skip_to({first})"),
        None => write!(
            f,
            "numbers end at {MAX_NUMBER}, so use another client number"
        ),
    }
}

fn busy(f: &mut Formatter<'_>, error: &Error) -> fmt::Result {
    let Error::Busy {
        name,
        holder,
        fence,
        is_own,
    } = error
    else {
        return Ok(());
    };
    match is_own {
        true => write!(
            f,
            "{name} is held at fence {fence} by this client itself ({holder}), perhaps since an \
             earlier run; once nothing of that run works any more, release or adopt it at that fence"
        ),
        false => write!(
            f,
            "{name} is held at fence {fence} by client {holder}; wait, or check what that \
             client is doing"
        ),
    }
}

/// The texts of refusals that name a lock.
fn refused_lock(f: &mut Formatter<'_>, error: &Error) -> fmt::Result {
    match error {
        Error::NotHeld { name, fence } => write!(
            f,
            "{name} is not held at fence {fence} by this client: it was released or broken; stop \
             writing with that fence"
        ),
        Error::SharedBefore { name, fence } => write!(
            f,
            "{name} is shared at fence {fence} by this client, perhaps since an earlier run, and \
             stays so; once nothing of that run works any more, adopt or release it at that fence"
        ),
        Error::NoRoom { name } => write!(
            f,
            "no room for {name}: the table has 512 other names; use one of them"
        ),
        Error::Spent { name } => {
            write!(f, "the fences of {name} are used up; use another name")
        }
        Error::Unknown { name } => write!(
            f,
            "unknown whether {name} was granted: its request was passed or given up; ask who holds \
             {name}, and if this client does, and no earlier run, release it at that fence"
        ),
        other => refused_node(f, other),
    }
}

/// The texts of refusals that name a node, or nothing.
fn refused_node(f: &mut Formatter<'_>, error: &Error) -> fmt::Result {
    match error {
        Error::Bad { op } => write!(
            f,
            "bad: the table does not support `{op}`; raise it once every node runs a program that does"
        ),
        Error::Used { node } => write!(
            f,
            "node {node} is used: a member has or had that number or a greater one; choose a greater one"
        ),
        Error::Full { node } => write!(
            f,
            "full: node {node} cannot join a cluster of seven members; remove one first"
        ),
        Error::NotMember { node } => write!(f, "node {node} is not a member; check its number"),
        Error::Last { node } => write!(
            f,
            "node {node} is the only member and cannot leave; add another one first"
        ),
        Error::OutOfNumbers => {
            f.write_str("the numbers of this client are used up: use another client number")
        }
        Error::NothingAsked => f.write_str("no request is open"),
        _ => Ok(()),
    }
}

impl Display for Error {
    fn fmt(&self, f: &mut Formatter<'_>) -> fmt::Result {
        match self {
            Error::NoAnswer {
                op,
                is_sent,
                closed,
            } => no_answer(f, op, *is_sent, *closed),
            Error::Unanswered { op } => write!(f, "`{op}` has no answer yet; {SETTLE}"),
            Error::Passed { op, is_sent, last } => passed(f, op, *is_sent, *last),
            Error::OtherAnswer { op, answer, number } => other_answer(f, op, answer, *number),
            Error::Forked { opened, here } => write!(
                f,
                "this client was opened in process {opened}, not in {here}: open another one, \
                 with another client number"
            ),
            Error::State { path, fault } => write!(f, "state file {}: {fault}", path.display()),
            Error::NotReleased { name, fence, cause } => {
                write!(f, "{name} was not released at fence {fence}: {cause}")
            }
            Error::Busy { .. } => busy(f, self),
            Error::Malformed(what) => f.write_str(what),
            Error::Socket(error) => write!(f, "socket: {error}"),
            other => refused_lock(f, other),
        }
    }
}
