//! The key of a client, and the frames of docs/FORMATS.md that it makes.

use crate::sha256::{DIGEST, Mac};
use crate::{ClientId, ClusterId, Error};
use std::fmt;

const HEAD: usize = 4;
const REQUEST: ([u8; HEAD], &[u8; 16]) = (*b"LS\x01\x02", b"locks v1 request");
const REPLY: ([u8; HEAD], &[u8; 16]) = (*b"LS\x01\x03", b"locks v1 replies");
/// A client knows its cluster by the number alone.
const NO_GENESIS: [u8; DIGEST] = [0; DIGEST];

/// The key of one client, or two while it changes: the first seals, and each of them opens.
///
/// `locks client-key` prints it, in the text that [`Keys::read`] takes.
///
/// ```
/// use locks_client::Keys;
///
/// let keys = Keys::read(&"11".repeat(32))?;
/// assert!(Keys::read("11").is_err());
/// # let _ = keys;
/// # Ok::<(), locks_client::Error>(())
/// ```
#[derive(Clone, PartialEq, Eq)]
pub struct Keys {
    keys: Vec<Mac>,
}

/// Shows how many there are, and none of them.
impl fmt::Debug for Keys {
    fn fmt(&self, to: &mut fmt::Formatter<'_>) -> fmt::Result {
        write!(to, "Keys({})", self.keys.len())
    }
}

/// The key of 64 hex digits.
fn key_of(line: &str) -> Option<Mac> {
    if line.len() != 2 * DIGEST || !line.bytes().all(|byte| byte.is_ascii_hexdigit()) {
        return None;
    }
    let mut key = [0; DIGEST];
    for (at, byte) in key.iter_mut().enumerate() {
        *byte = u8::from_str_radix(&line[2 * at..2 * at + 2], 16).ok()?;
    }
    Some(Mac::new(&key))
}

impl Keys {
    /// The keys of a text: one line of 64 hex digits, or two. Empty lines, and those that begin with
    /// `#`, say nothing.
    ///
    /// [`Error::Malformed`] where it is another text, which the error does not show.
    pub fn read(text: &str) -> Result<Keys, Error> {
        let lines = text
            .split('\n')
            .filter(|line| !line.is_empty() && !line.starts_with('#'));
        match lines.map(key_of).collect::<Option<Vec<_>>>() {
            Some(keys) if (1..=2).contains(&keys.len()) => Ok(Keys { keys }),
            _ => Err(Error::malformed(
                "key",
                format_args!("of {} bytes", text.len()),
                "one or two lines of 64 hex digits",
            )),
        }
    }
}

/// Which client asks, in which cluster, and its keys, if it has some.
#[derive(Clone, Debug)]
pub(crate) struct Seals {
    pub cluster: ClusterId,
    pub client: ClientId,
    pub keys: Option<Keys>,
}

impl Seals {
    /// The frame of a datagram under a key.
    fn frame(&self, (head, label): ([u8; HEAD], &[u8; 16]), key: &Mac, datagram: &[u8]) -> Vec<u8> {
        let cluster = self.cluster.get().to_be_bytes();
        let client = u32::from(self.client.get()).to_be_bytes();
        let message = [label, cluster.as_slice(), &NO_GENESIS, &client, datagram].concat();
        [head.as_slice(), &key.tag(&message), datagram].concat()
    }

    /// What is sent of a request.
    pub(crate) fn sealed(&self, datagram: Vec<u8>) -> Vec<u8> {
        match &self.keys {
            Some(keys) => self.frame(REQUEST, &keys.keys[0], &datagram),
            None => datagram,
        }
    }

    /// Whether a datagram is a frame that this client has no key for.
    pub(crate) fn is_closed(&self, frame: &[u8]) -> bool {
        match self.keys {
            Some(_) => self.opened(frame).is_none(),
            None => frame.starts_with(&REPLY.0),
        }
    }

    /// The datagram that a node has sealed for this client; what came, where it has no key.
    pub(crate) fn opened<'a>(&self, frame: &'a [u8]) -> Option<&'a [u8]> {
        let Some(keys) = &self.keys else {
            return Some(frame);
        };
        let datagram = frame.get(HEAD + DIGEST..)?;
        let is_its = |key| is_same(&self.frame(REPLY, key, datagram), frame);
        keys.keys.iter().any(is_its).then_some(datagram)
    }
}

#[cfg(test)]
impl Seals {
    /// What a node sends of a reply to this client.
    pub(crate) fn replied(&self, datagram: &[u8]) -> Vec<u8> {
        let keys = self.keys.as_ref().unwrap();
        self.frame(REPLY, &keys.keys[0], datagram)
    }
}

/// Whether two texts of one length are the same. It takes the same time for all that are not.
fn is_same(left: &[u8], right: &[u8]) -> bool {
    let pairs = left.iter().zip(right);
    left.len() == right.len() && pairs.fold(0, |all, (one, other)| all | (one ^ other)) == 0
}

#[cfg(test)]
mod tests {
    use super::{Keys, Seals};
    use crate::golden::{each, hex, text_of};
    use crate::sha256::Mac;

    /// The seals of the words CLUSTER CLIENT KEY.
    fn seals(words: &[String]) -> Seals {
        Seals {
            cluster: words[0].parse().unwrap(),
            client: words[1].parse().unwrap(),
            keys: Some(Keys::read(&words[2]).unwrap()),
        }
    }

    #[test]
    fn each_client_has_its_key() {
        each("client-key", |words| {
            let client: u16 = words[1].parse().unwrap();
            let label = [b"locks v1 client".as_slice(), &client.to_be_bytes()].concat();
            assert_eq!(text_of(&Mac::new(&hex(&words[2])).tag(&label)), words[0]);
        });
    }

    #[test]
    fn each_request_has_its_frame() {
        each("sealed", |words| {
            assert_eq!(
                text_of(&seals(&words[1..]).sealed(hex(&words[4]))),
                words[0]
            );
        });
    }

    #[test]
    fn each_reply_opens_under_one_key_or_the_other() {
        each("opened", |words| {
            let other = "33".repeat(32);
            for keys in [
                format!("{}\n{other}", words[3]),
                format!("{other}\n{}", words[3]),
            ] {
                let row = [words[1].clone(), words[2].clone(), keys];
                assert_eq!(
                    seals(&row).opened(&hex(&words[0])),
                    Some(hex(&words[4]).as_slice())
                );
            }
        });
    }

    #[test]
    fn all_else_is_dropped() {
        each("client-key", |known| {
            if known[1] == "7" {
                let seals = seals(&["5".into(), "7".into(), known[0].clone()]);
                each("closed", |words| {
                    assert_eq!(seals.opened(&hex(&words[0])), None, "{words:?}")
                });
            }
        });
    }

    #[test]
    fn one_key_or_two() {
        let key = "1f".repeat(32);
        assert!(Keys::read(&format!("# old\n{key}\n\n{}\n", key.to_uppercase())).is_ok());
        let three = [key.as_str(); 3].join("\n");
        for wrong in [
            "",
            "#\n",
            &three,
            &key[1..],
            &format!("{key} "),
            &"é".repeat(32),
        ] {
            assert!(Keys::read(wrong).is_err(), "{wrong:?}");
        }
    }
}
