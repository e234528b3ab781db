//! Who holds a lock.

use crate::ClientId;

/// Who holds a name.
///
/// ```
/// use locks_client::LockState;
///
/// fn last_fence(state: LockState) -> u64 {
///     match state {
///         LockState::Free { fence } => fence,
///         LockState::Held { fence, .. } | LockState::HeldShared { fence, .. } => fence,
///     }
/// }
/// assert_eq!(last_fence(LockState::Free { fence: 3 }), 3);
/// ```
#[derive(Clone, Copy, Debug, PartialEq, Eq)]
pub enum LockState {
    /// Nobody holds it.
    Free {
        /// The last fence, 0 where it was never granted.
        fence: u64,
    },
    /// One client holds it alone.
    Held {
        /// Who holds it.
        holder: ClientId,
        /// The fence at which it is held.
        fence: u64,
    },
    /// Several clients share it, or one that others may join.
    HeldShared {
        /// How many hold it, 1 to 8.
        holders: u8,
        /// The fence at which it is held.
        fence: u64,
    },
}

impl LockState {
    /// The last fence of the name, 0 where it was never granted.
    pub const fn fence(self) -> u64 {
        match self {
            LockState::Free { fence }
            | LockState::Held { fence, .. }
            | LockState::HeldShared { fence, .. } => fence,
        }
    }
}
