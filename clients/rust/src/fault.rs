//! What is wrong with a state file.

use crate::Error;
use std::path::Path;
use std::{fmt, io};

/// What is wrong with a state file.
///
/// ```
/// use locks_client::{Error, Numbers, StateFault};
///
/// match Numbers::kept_in("no-such-file") {
///     Err(Error::State { fault: StateFault::Missing, path }) => {
///         println!("{} is missing", path.display());
///     }
///     other => panic!("{other:?}"),
/// }
/// ```
#[derive(Debug)]
#[non_exhaustive]
pub enum StateFault {
    /// There is no file.
    Missing,
    /// The file does not hold one decimal number, 1 to 2^48 - 2^32, and a newline, but this at most
    /// at its front. Where the newline is missing, digits may be missing too.
    NoNumber(Vec<u8>),
    /// The path leads to something else than a regular file.
    NotAFile,
    /// The file has a second name (a hard link), which would part from it at the next write.
    Linked,
    /// Another client uses the file, in this process or in another one.
    InUse,
    /// Another program has written the file since this client opened it.
    Changed,
    /// The file, its folder or the lock file beside it cannot be read or written.
    Io(io::Error),
}

/// What to do where the number is not there.
const BEGIN: &str = "begin with a first number above all that this client used, as milliseconds()";

impl StateFault {
    /// The error of the file at that path.
    pub(crate) fn of(self, path: &Path) -> Error {
        Error::State {
            path: path.to_path_buf(),
            fault: self,
        }
    }
}

impl fmt::Display for StateFault {
    fn fmt(&self, f: &mut fmt::Formatter<'_>) -> fmt::Result {
        match self {
            StateFault::Missing => {
                write!(
                    f,
                    "it is not there; if this client is new or the file was lost, {BEGIN}"
                )
            }
            StateFault::NoNumber(text) => {
                let text = text.escape_ascii();
                write!(
                    f,
                    "it keeps no number but b'{text}'; remove it, and {BEGIN}"
                )
            }
            StateFault::NotAFile => f.write_str("it is not a regular file; name another one"),
            StateFault::Linked => {
                f.write_str("it has a second name (a hard link); remove that, and use one")
            }
            StateFault::InUse => f.write_str(
                "another client uses it; give each client a number and a file of its own",
            ),
            StateFault::Changed => {
                f.write_str("another program has written it; end that one, and open it again")
            }
            StateFault::Io(error) => write!(
                f,
                "{error}; see that its folder is there, may be written and has room"
            ),
        }
    }
}
