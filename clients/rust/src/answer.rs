//! What a request is answered.

use crate::{ClientId, MAX_COUNT};
use std::fmt;

/// What the service answers to a request. A fence is 1 to 2^48.
///
/// ```
/// use locks_client::Answer;
///
/// assert_eq!(Answer::Granted(3).to_string(), "granted 3");
/// ```
#[derive(Clone, Copy, Debug, PartialEq, Eq)]
#[non_exhaustive]
pub enum Answer {
    /// The client holds the lock, at this fence.
    Granted(u64),
    /// It was held, maybe by the client itself.
    Busy {
        /// Who held it; the least client where several shared it.
        holder: ClientId,
        /// The fence at which it was held.
        fence: u64,
    },
    /// The client held the lock at that fence, and no longer does.
    Released,
    /// The client did not hold the lock at that fence.
    NotHeld,
    /// Nobody holds it. This was its last fence, 0 where it was never granted.
    Free(u64),
    /// One client holds it alone.
    Held {
        /// Who holds it.
        holder: ClientId,
        /// The fence at which it is held.
        fence: u64,
    },
    /// The lock was held at that fence.
    Valid,
    /// The lock was not held at that fence.
    Stale,
    /// The table has 512 other names.
    NoRoom,
    /// The table does not know the request.
    Bad,
    /// The fence of this name has reached 2^48.
    Spent,
    /// The client is one of those that share the lock, at this fence.
    Shared(u64),
    /// Clients share it.
    HeldShared {
        /// How many, 1 to 8.
        holders: u8,
        /// The fence at which they hold it.
        fence: u64,
    },
    /// The lock was held at that fence, and is free now.
    Broken,
    /// The node becomes a member.
    Joined,
    /// A member has or had this node number, or a greater one.
    Used,
    /// The cluster has seven members.
    Full,
    /// The node stops being a member.
    Left,
    /// The node is no member.
    NotMember,
    /// The node is the only member.
    Last,
    /// The table knows share and break from now on.
    Raised,
    /// The table knew share and break before.
    AlreadyRaised,
}

/// Takes so many bytes off the front of what is left, as a number.
fn take(rest: &mut &[u8], length: usize) -> Option<u64> {
    let (front, behind) = rest.split_at_checked(length)?;
    *rest = behind;
    Some(
        front
            .iter()
            .fold(0, |number, byte| number << 8 | u64::from(*byte)),
    )
}

fn fence(rest: &mut &[u8]) -> Option<u64> {
    take(rest, 8).filter(|fence| (1..=MAX_COUNT).contains(fence))
}

fn holder(rest: &mut &[u8]) -> Option<ClientId> {
    let holder = u16::try_from(take(rest, 2)?).ok()?;
    ClientId::new(holder).ok()
}

fn sharers(rest: &mut &[u8]) -> Option<u8> {
    let holders = u8::try_from(take(rest, 1)?).ok()?;
    (1..=8).contains(&holders).then_some(holders)
}

impl Answer {
    /// The answer that these bytes are, or `None`.
    pub(crate) fn read(bytes: &[u8]) -> Option<Answer> {
        let (tag, mut rest) = bytes.split_first()?;
        let answer = Answer::of_tag(*tag, &mut rest)?;
        rest.is_empty().then_some(answer)
    }

    fn of_tag(tag: u8, rest: &mut &[u8]) -> Option<Answer> {
        Some(match tag {
            1 => Answer::Granted(fence(rest)?),
            2 => Answer::Busy {
                holder: holder(rest)?,
                fence: fence(rest)?,
            },
            3 => Answer::Released,
            4 => Answer::NotHeld,
            5 => Answer::Free(take(rest, 8).filter(|last| *last <= MAX_COUNT)?),
            6 => Answer::Held {
                holder: holder(rest)?,
                fence: fence(rest)?,
            },
            7 => Answer::Valid,
            8 => Answer::Stale,
            9 => Answer::NoRoom,
            10 => Answer::Bad,
            11 => Answer::Spent,
            12 => Answer::Shared(fence(rest)?),
            13 => Answer::HeldShared {
                holders: sharers(rest)?,
                fence: fence(rest)?,
            },
            14 => Answer::Broken,
            _ => return Answer::of_member_tag(tag),
        })
    }

    /// The answer of a tag that concerns members or the version of the table, without fields.
    fn of_member_tag(tag: u8) -> Option<Answer> {
        Some(match tag {
            32 => Answer::Joined,
            33 => Answer::Used,
            34 => Answer::Full,
            35 => Answer::Left,
            36 => Answer::NotMember,
            37 => Answer::Last,
            38 => Answer::Raised,
            39 => Answer::AlreadyRaised,
            _ => return None,
        })
    }
}

impl fmt::Display for Answer {
    fn fmt(&self, f: &mut fmt::Formatter<'_>) -> fmt::Result {
        match self {
            Answer::Granted(fence) => write!(f, "granted {fence}"),
            Answer::Busy { holder, fence } => write!(f, "busy {holder} {fence}"),
            Answer::Released => f.write_str("released"),
            Answer::NotHeld => f.write_str("not held"),
            Answer::Free(last) => write!(f, "free {last}"),
            Answer::Held { holder, fence } => write!(f, "held {holder} {fence}"),
            Answer::Valid => f.write_str("valid"),
            Answer::Stale => f.write_str("stale"),
            Answer::NoRoom => f.write_str("no room"),
            Answer::Bad => f.write_str("bad"),
            Answer::Spent => f.write_str("spent"),
            Answer::Shared(fence) => write!(f, "shared {fence}"),
            Answer::HeldShared { holders, fence } => write!(f, "held shared {holders} {fence}"),
            Answer::Broken => f.write_str("broken"),
            Answer::Joined => f.write_str("joined"),
            Answer::Used => f.write_str("used"),
            Answer::Full => f.write_str("full"),
            Answer::Left => f.write_str("left"),
            Answer::NotMember => f.write_str("not a member"),
            Answer::Last => f.write_str("last"),
            Answer::Raised => f.write_str("raised"),
            Answer::AlreadyRaised => f.write_str("already raised"),
        }
    }
}

#[cfg(test)]
mod tests {
    use super::Answer;
    use crate::ClientId;

    const FENCE_3: [u8; 8] = [0, 0, 0, 0, 0, 0, 0, 3];

    /// The answer of a tag and its fields.
    fn read(tag: u8, fields: &[&[u8]]) -> Option<Answer> {
        let mut bytes = vec![tag];
        bytes.extend(fields.concat());
        Answer::read(&bytes)
    }

    #[test]
    fn fields_are_read() {
        assert_eq!(read(1, &[&FENCE_3]), Some(Answer::Granted(3)));
        let busy = Answer::Busy {
            holder: ClientId::new(256).unwrap(),
            fence: 3,
        };
        assert_eq!(read(2, &[&[1, 0], &FENCE_3]), Some(busy));
        assert_eq!(read(5, &[&[0; 8]]), Some(Answer::Free(0)));
        let shared = Answer::HeldShared {
            holders: 8,
            fence: 3,
        };
        assert_eq!(read(13, &[&[8], &FENCE_3]), Some(shared));
        assert_eq!(read(39, &[]), Some(Answer::AlreadyRaised));
    }

    #[test]
    fn what_is_out_of_range_is_none() {
        assert_eq!(Answer::read(&[]), None);
        assert_eq!(read(1, &[&[0; 8]]), None);
        assert_eq!(read(1, &[&[0, 1, 0, 0, 0, 0, 0, 1]]), None);
        assert_eq!(read(2, &[&[0, 0], &FENCE_3]), None);
        assert_eq!(read(2, &[&[1, 1], &FENCE_3]), None);
        assert_eq!(read(13, &[&[0], &FENCE_3]), None);
        assert_eq!(read(13, &[&[9], &FENCE_3]), None);
        assert_eq!(read(15, &[]), None);
    }

    #[test]
    fn a_byte_too_few_or_too_many_is_none() {
        assert_eq!(read(1, &[&FENCE_3[1..]]), None);
        assert_eq!(read(1, &[&FENCE_3, &[0]]), None);
        assert_eq!(read(3, &[&[0]]), None);
    }
}
