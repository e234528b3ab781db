//! The file that keeps the last number of a client.

use crate::numbers::MAX_NUMBER;
use crate::{Error, StateFault};
use std::ffi::OsString;
use std::fs::{self, File, OpenOptions, TryLockError};
use std::io::{self, ErrorKind, Read, Write};
use std::os::unix::fs::MetadataExt;
use std::path::{Path, PathBuf};
use std::process;

/// A state file, and the lock file beside it, which this client alone has locked.
#[derive(Debug)]
pub(crate) struct State {
    path: PathBuf,
    // no number in the file is greater, unless another program has written it
    greatest: u64,
    _lock: Lock,
}

/// A lock file that this process has locked.
#[derive(Debug)]
struct Lock {
    file: File,
    owner: u32,
}

impl Drop for Lock {
    /// Unlocks the file: closing it is not enough while a process that is being started has a copy
    /// of its descriptor. A forked child leaves the lock to its parent.
    fn drop(&mut self) {
        if process::id() == self.owner {
            let _ = self.file.unlock();
        }
    }
}

/// Appends a suffix to the file name.
fn beside(path: &Path, suffix: &str) -> PathBuf {
    let mut name = OsString::from(path);
    name.push(suffix);
    PathBuf::from(name)
}

/// The folder of a file.
fn folder(path: &Path) -> &Path {
    match path.parent() {
        Some(parent) if !parent.as_os_str().is_empty() => parent,
        _ => Path::new("."),
    }
}

/// The one path of a file that may have several, by symbolic links; also of a file that is missing.
fn resolved(path: &Path) -> io::Result<PathBuf> {
    match fs::canonicalize(path) {
        Err(error) if error.kind() == ErrorKind::NotFound => {}
        found => return found,
    }
    if let Ok(target) = fs::read_link(path) {
        return resolved(&folder(path).join(target));
    }
    let name = path.file_name().ok_or(ErrorKind::InvalidInput)?;
    Ok(fs::canonicalize(folder(path))?.join(name))
}

/// The number that the text of a state file is.
fn parsed(text: &[u8]) -> Option<u64> {
    let digits = text.strip_suffix(b"\n")?;
    if !digits.iter().all(u8::is_ascii_digit) {
        return None;
    }
    let number = str::from_utf8(digits).ok()?.parse().ok()?;
    (1..=MAX_NUMBER).contains(&number).then_some(number)
}

/// The number that a file keeps.
fn kept(path: &Path) -> Result<u64, StateFault> {
    let metadata = fs::metadata(path).map_err(|error| match error.kind() {
        ErrorKind::NotFound => StateFault::Missing,
        _ => StateFault::Io(error),
    })?;
    if !metadata.is_file() {
        return Err(StateFault::NotAFile);
    }
    if metadata.nlink() > 1 {
        return Err(StateFault::Linked);
    }
    let text = front(path).map_err(StateFault::Io)?;
    parsed(&text).ok_or_else(|| StateFault::NoNumber(text[..text.len().min(32)].to_vec()))
}

/// The same, or `None` for a file that is to be made.
fn found(path: &Path, or_new: bool) -> Result<Option<u64>, StateFault> {
    match kept(path) {
        Ok(number) => Ok(Some(number)),
        Err(StateFault::Missing) if or_new => Ok(None),
        Err(fault) => Err(fault),
    }
}

/// The first bytes of a file, more than a number has.
fn front(path: &Path) -> io::Result<Vec<u8>> {
    let mut text = Vec::new();
    File::open(path)?.take(64).read_to_end(&mut text)?;
    Ok(text)
}

/// Opens the lock file beside a state file, and locks it.
fn locked(path: &Path) -> Result<Lock, StateFault> {
    let file = OpenOptions::new()
        .write(true)
        .create(true)
        .truncate(false)
        .open(beside(path, ".lock"))
        .map_err(StateFault::Io)?;
    match file.try_lock() {
        Ok(()) => Ok(Lock {
            file,
            owner: process::id(),
        }),
        Err(TryLockError::WouldBlock) => Err(StateFault::InUse),
        Err(TryLockError::Error(error)) => Err(StateFault::Io(error)),
    }
}

/// Writes a number to a new file and puts that in place of the old one, so that one of the two
/// survives a power cut.
fn write(path: &Path, number: u64) -> io::Result<()> {
    let new = beside(path, ".new");
    let mut file = File::create(&new)?;
    writeln!(file, "{number}")?;
    file.sync_all()?;
    fs::rename(&new, path)?;
    File::open(folder(path))?.sync_all()
}

impl State {
    /// The state at a path, and the number that it keeps. Without `or_new` the file has to be
    /// there.
    pub(crate) fn open(path: &Path, or_new: bool) -> Result<(State, Option<u64>), Error> {
        let real = resolved(path).map_err(|error| match error.kind() {
            ErrorKind::NotFound if !or_new => StateFault::Missing.of(path),
            _ => StateFault::Io(error).of(path),
        })?;
        State::open_resolved(&real, or_new).map_err(|fault| fault.of(&real))
    }

    fn open_resolved(path: &Path, or_new: bool) -> Result<(State, Option<u64>), StateFault> {
        found(path, or_new)?; // so that no lock file is made beside what is refused
        let lock = locked(path)?;
        let number = found(path, or_new)?;
        let state = State {
            path: path.to_path_buf(),
            greatest: number.unwrap_or(0),
            _lock: lock,
        };
        Ok((state, number))
    }

    /// Keeps a number, unless another program has kept one meanwhile.
    pub(crate) fn keep(&mut self, number: u64) -> Result<(), Error> {
        match kept(&self.path) {
            Ok(found) if found > self.greatest => Err(StateFault::Changed),
            Ok(_) | Err(StateFault::Missing) => Ok(()),
            Err(fault) => Err(fault),
        }
        .map_err(|fault| fault.of(&self.path))?;
        self.greatest = self.greatest.max(number);
        write(&self.path, number).map_err(|error| StateFault::Io(error).of(&self.path))
    }
}

#[cfg(test)]
mod tests {
    use super::{locked, parsed};
    use crate::StateFault;
    use std::{env, fs, process};

    #[test]
    fn a_lock_ends_though_its_descriptor_was_copied() {
        let path = env::temp_dir().join(format!("locks-{}-copied", process::id()));
        let lock = locked(&path).unwrap();
        let copy = lock.file.try_clone().unwrap(); // as a process has that is being started
        assert!(matches!(locked(&path), Err(StateFault::InUse)));
        drop(lock);
        locked(&path).unwrap();
        drop(copy);
        fs::remove_file(super::beside(&path, ".lock")).unwrap();
    }

    #[test]
    fn a_text_is_a_number_and_a_newline() {
        assert_eq!(parsed(b"41\n"), Some(41));
        assert_eq!(parsed(b"281470681743360\n"), Some((1 << 48) - (1 << 32)));
        let rows: [&[u8]; 12] = [
            b"",
            b"41",
            b"\n",
            b"0\n",
            b"+41\n",
            b"-41\n",
            b" 41\n",
            b"41 \n",
            b"41\n\n",
            b"41\n42\n",
            b"99999999999999999999\n",
            b"281470681743361\n",
        ];
        for text in rows {
            assert_eq!(parsed(text), None, "{text:?}");
        }
    }
}
