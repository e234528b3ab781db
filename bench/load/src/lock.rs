//! What a client of any service does.

use std::io;

/// A client, and the lock that it alone asks for.
pub trait Lock: Send {
    /// Acquires the lock.
    ///
    /// An error where it was held, or where nobody answered for a minute.
    fn acquire(&mut self) -> io::Result<()>;

    /// Gives the lock back.
    ///
    /// An error where it was not held, or where nobody answered for a minute.
    fn release(&mut self) -> io::Result<()>;

    /// How many requests had to be sent again.
    fn repeated(&self) -> u64;
}
