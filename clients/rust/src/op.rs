//! What a request asks.

use crate::numbers::Use;
use crate::{Answer, Error, MAX_COUNT, MAX_NODE};
use std::fmt;

/// An operation that a request asks for, in [`Session::begin`](crate::Session::begin) and in errors.
///
/// ```
/// use locks_client::Op;
///
/// assert_eq!(Op::Release("db".to_owned(), 3).to_string(), "release db at fence 3");
/// assert_eq!(Op::Join(4, 7004).to_string(), "join of node 4 at port 7004");
/// ```
#[derive(Clone, Debug, PartialEq, Eq, Hash)]
#[non_exhaustive]
pub enum Op {
    /// Takes this lock alone.
    Acquire(String),
    /// Gives this lock back, at this fence.
    Release(String, u64),
    /// Asks who holds this lock.
    Ask(String),
    /// Asks whether this lock is held at this fence.
    Check(String, u64),
    /// Takes this lock together with others, in a raised table.
    Share(String),
    /// Frees this lock of whoever holds it at this fence, in a raised table.
    Break(String, u64),
    /// Makes this node, which listens at this port, a member.
    Join(u32, u16),
    /// Ends the membership of this node.
    Leave(u32),
    /// Raises the table.
    Raise,
}

/// The version of the table that knows Share and Break.
const RAISED_VERSION: u8 = 2;

/// A name, its length before it: 1 to 32 bytes of `a-z 0-9 - . /`.
fn write_name(name: &str, out: &mut Vec<u8>) -> Result<(), Error> {
    let is_letter = |byte| matches!(byte, b'a'..=b'z' | b'0'..=b'9' | b'-' | b'.' | b'/');
    if !name.bytes().all(is_letter) {
        return Err(Error::malformed(
            "name",
            format_args!("{name:?}"),
            "of a-z, 0-9, -, . and /",
        ));
    }
    let Some(length @ 1..=32) = u8::try_from(name.len()).ok() else {
        return Err(Error::malformed(
            "name",
            format_args!("{name:?}"),
            "1 to 32 bytes long",
        ));
    };
    out.push(length);
    out.extend_from_slice(name.as_bytes());
    Ok(())
}

/// A fence, 1 to 2^48.
fn write_fence(fence: u64, out: &mut Vec<u8>) -> Result<(), Error> {
    if !(1..=MAX_COUNT).contains(&fence) {
        return Err(Error::malformed("fence", fence, "1 to 2^48"));
    }
    out.extend_from_slice(&fence.to_be_bytes());
    Ok(())
}

/// A node, 1 to 2^31.
fn write_node(node: u32, out: &mut Vec<u8>) -> Result<(), Error> {
    if !(1..=MAX_NODE).contains(&node) {
        return Err(Error::malformed("node", node, "1 to 2^31"));
    }
    out.extend_from_slice(&node.to_be_bytes());
    Ok(())
}

/// A port, not 0.
fn write_port(port: u16, out: &mut Vec<u8>) -> Result<(), Error> {
    if port == 0 {
        return Err(Error::malformed("port", port, "1 to 65535"));
    }
    out.extend_from_slice(&port.to_be_bytes());
    Ok(())
}

/// An op of the lock table: its body, the length before it.
fn write_table(which: u8, name: &str, fence: Option<u64>, out: &mut Vec<u8>) -> Result<(), Error> {
    let mut body = vec![which];
    write_name(name, &mut body)?;
    if let Some(fence) = fence {
        write_fence(fence, &mut body)?;
    }
    out.push(0);
    // a kind, a name of 33 bytes and a fence of 8 are 42 at most
    out.push(body.len() as u8);
    out.extend_from_slice(&body);
    Ok(())
}

impl Op {
    /// Adds the op's bytes. Where it is malformed, what was added is of no use.
    pub(crate) fn write(&self, out: &mut Vec<u8>) -> Result<(), Error> {
        match self {
            Op::Acquire(name) => write_table(1, name, None, out),
            Op::Release(name, fence) => write_table(2, name, Some(*fence), out),
            Op::Ask(name) => write_table(3, name, None, out),
            Op::Check(name, fence) => write_table(4, name, Some(*fence), out),
            Op::Share(name) => write_table(5, name, None, out),
            Op::Break(name, fence) => write_table(6, name, Some(*fence), out),
            Op::Join(node, port) => {
                out.push(1);
                write_node(*node, out)?;
                write_port(*port, out)
            }
            Op::Leave(node) => {
                out.push(2);
                write_node(*node, out)
            }
            Op::Raise => {
                out.extend_from_slice(&[3, RAISED_VERSION]);
                Ok(())
            }
        }
    }

    /// The lock that it wants to hold.
    pub(crate) fn wanted(&self) -> Option<&str> {
        match self {
            Op::Acquire(name) | Op::Share(name) => Some(name),
            _ => None,
        }
    }

    /// The lock that it names; none if it concerns members or the table.
    pub fn name(&self) -> Option<&str> {
        match self {
            Op::Acquire(name) | Op::Share(name) | Op::Ask(name) => Some(name),
            Op::Release(name, _) | Op::Check(name, _) | Op::Break(name, _) => Some(name),
            Op::Join(..) | Op::Leave(_) | Op::Raise => None,
        }
    }

    /// The fence that it names, if it names one.
    pub fn fence(&self) -> Option<u64> {
        match self {
            Op::Release(_, fence) | Op::Check(_, fence) | Op::Break(_, fence) => Some(*fence),
            _ => None,
        }
    }

    /// The node that it names, or 0.
    pub(crate) fn node(&self) -> u32 {
        match self {
            Op::Join(node, _) | Op::Leave(node) => *node,
            _ => 0,
        }
    }

    /// What its number is taken for.
    pub(crate) fn used_for(&self) -> Use {
        match self {
            Op::Release(..) | Op::Break(..) => Use::Freeing,
            _ => Use::Request,
        }
    }

    /// Whether it may be answered so.
    pub(crate) fn fits(&self, answer: &Answer) -> bool {
        use Answer::*;
        match self {
            Op::Acquire(_) => matches!(answer, Granted(_) | Busy { .. } | NoRoom | Spent | Bad),
            Op::Share(_) => matches!(answer, Shared(_) | Busy { .. } | NoRoom | Spent | Bad),
            Op::Release(..) => matches!(answer, Released | NotHeld | Bad),
            Op::Ask(_) => matches!(answer, Free(_) | Held { .. } | HeldShared { .. } | Bad),
            Op::Check(..) => matches!(answer, Valid | Stale | Bad),
            Op::Break(..) => matches!(answer, Broken | Stale | Bad),
            Op::Join(..) => matches!(answer, Joined | Used | Full),
            Op::Leave(_) => matches!(answer, Left | NotMember | Last),
            Op::Raise => matches!(answer, Raised | AlreadyRaised),
        }
    }

    /// The answer to it, which fits; a refusal is an error.
    pub(crate) fn judged(&self, answer: Answer) -> Result<Answer, Error> {
        match Error::refusal(self, &answer) {
            Some(error) => Err(error),
            None => Ok(answer),
        }
    }
}

impl fmt::Display for Op {
    fn fmt(&self, f: &mut fmt::Formatter<'_>) -> fmt::Result {
        match self {
            Op::Acquire(name) => write!(f, "acquire {name}"),
            Op::Release(name, fence) => write!(f, "release {name} at fence {fence}"),
            Op::Ask(name) => write!(f, "ask {name}"),
            Op::Check(name, fence) => write!(f, "check {name} at fence {fence}"),
            Op::Share(name) => write!(f, "share {name}"),
            Op::Break(name, fence) => write!(f, "break {name} at fence {fence}"),
            Op::Join(node, port) => write!(f, "join of node {node} at port {port}"),
            Op::Leave(node) => write!(f, "leave of node {node}"),
            Op::Raise => f.write_str("raise"),
        }
    }
}

#[cfg(test)]
mod tests {
    use super::Op;

    fn bytes(op: &Op) -> Option<Vec<u8>> {
        let mut out = Vec::new();
        op.write(&mut out).ok().map(|()| out)
    }

    #[test]
    fn each_op_has_its_bytes() {
        let rows: [(Op, &[u8]); 9] = [
            (Op::Acquire("db".into()), b"\x00\x04\x01\x02db"),
            (
                Op::Release("db".into(), 258),
                b"\x00\x0c\x02\x02db\0\0\0\0\0\0\x01\x02",
            ),
            (Op::Ask("db".into()), b"\x00\x04\x03\x02db"),
            (
                Op::Check("db".into(), 1),
                b"\x00\x0c\x04\x02db\0\0\0\0\0\0\0\x01",
            ),
            (Op::Share("db".into()), b"\x00\x04\x05\x02db"),
            (
                Op::Break("db".into(), 1),
                b"\x00\x0c\x06\x02db\0\0\0\0\0\0\0\x01",
            ),
            (Op::Join(4, 7004), b"\x01\x00\x00\x00\x04\x1b\x5c"),
            (Op::Leave(1), b"\x02\x00\x00\x00\x01"),
            (Op::Raise, b"\x03\x02"),
        ];
        for (op, expected) in rows {
            assert_eq!(bytes(&op).as_deref(), Some(expected), "{op:?}");
        }
    }

    #[test]
    fn what_is_out_of_range_has_no_bytes() {
        let long = "x".repeat(33);
        let rows = [
            Op::Acquire("".into()),
            Op::Acquire("DB".into()),
            Op::Acquire(long),
            Op::Release("db".into(), 0),
            Op::Check("db".into(), (1 << 48) + 1),
            Op::Join(0, 7001),
            Op::Join(1, 0),
            Op::Leave((1 << 31) + 1),
        ];
        for op in rows {
            assert_eq!(bytes(&op), None, "{op:?}");
        }
    }
}
