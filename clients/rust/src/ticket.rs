//! The bytes of watches and notices.

/// What a watch and a notice begin with, and the length of both.
const WATCH: [u8; 4] = *b"LW\x01\x09";
const NOTICE: [u8; 4] = *b"LW\x01\x0a";
const LENGTH: usize = 71;
/// The bytes that a notice repeats of its watch, from the client to the name.
const FIELDS: std::ops::Range<usize> = 16..68;
/// The longest name.
const MAX_NAME: usize = 32;
/// How much longer a sealed datagram is, and what a sealed reply begins with.
const SEAL: usize = 36;
const SEALED: &[u8] = b"LS\x01\x03";

/// One watch of a client that waits for a lock. The notices that answer it repeat it.
#[derive(Clone, Debug)]
pub(crate) struct Ticket {
    pub(crate) cluster: u64,
    pub(crate) client: u16,
    // rises with each watch of the client for the name
    pub(crate) number: u64,
    // of the Busy that the watch follows
    pub(crate) fence: u64,
    pub(crate) is_shared: bool,
    pub(crate) name: String,
}

/// What a node says of a lock in a notice.
#[derive(Clone, Copy, Debug, PartialEq, Eq)]
pub(crate) enum News {
    Free,
    Held,
    /// Nothing: the node does not lead, or is behind the watch.
    NotHere,
}

/// What a node answers to a watch, and sends when the lock is free.
#[derive(Clone, Copy, Debug, PartialEq, Eq)]
pub(crate) struct Notice {
    pub(crate) news: News,
    // in the queue of the node, from 1; 0 if the client does not wait there
    pub(crate) place: u16,
}

impl Ticket {
    fn fields(&self) -> Vec<u8> {
        let mode = if self.is_shared { 2 } else { 1 };
        let mut name = self.name.clone().into_bytes();
        name.resize(MAX_NAME, 0);
        [
            &self.client.to_be_bytes()[..],
            &self.number.to_be_bytes(),
            &self.fence.to_be_bytes(),
            &[mode, self.name.len() as u8],
            &name,
        ]
        .concat()
    }

    /// The datagram that asks a node for a notice. It lives for that many periods; 0 withdraws it.
    pub(crate) fn watch(&self, periods: u8) -> Vec<u8> {
        let cluster = self.cluster.to_be_bytes();
        [
            &WATCH[..],
            &cluster,
            &[0; 4],
            &self.fields(),
            &[periods, 0, 0],
        ]
        .concat()
    }

    /// What a datagram says to this watch, if it is a notice to it.
    pub(crate) fn notice(&self, datagram: &[u8]) -> Option<Notice> {
        let cluster = self.cluster.to_be_bytes();
        let is_its =
            is_bare(datagram) && datagram[4..12] == cluster && datagram[FIELDS] == self.fields();
        let node = u32::from_be_bytes(datagram.get(12..16)?.try_into().ok()?);
        if !is_its || !(1..=crate::MAX_NODE).contains(&node) {
            return None;
        }
        let news = match datagram[68] {
            1 => News::Free,
            2 => News::Held,
            3 => News::NotHere,
            _ => return None,
        };
        let place = u16::from_be_bytes([datagram[69], datagram[70]]);
        Some(Notice { news, place })
    }
}

fn is_bare(datagram: &[u8]) -> bool {
    datagram.len() == LENGTH && datagram.starts_with(&NOTICE)
}

/// Whether a datagram looks like a notice, bare or sealed. No seal is checked.
pub(crate) fn is_notice(payload: &[u8]) -> bool {
    is_bare(payload) || payload.starts_with(SEALED) && payload.get(SEAL..).is_some_and(is_bare)
}

#[cfg(test)]
mod tests {
    use super::{News, Notice, Ticket, is_notice};
    use crate::golden::{each, hex, text_of};

    /// The ticket of the words CLUSTER, and CLIENT NUMBER FENCE MODE NAME.
    fn ticket(cluster: &str, words: &[String]) -> Ticket {
        Ticket {
            cluster: cluster.parse().unwrap(),
            client: words[0].parse().unwrap(),
            number: words[1].parse().unwrap(),
            fence: words[2].parse().unwrap(),
            is_shared: words[3] == "share",
            name: words[4].clone(),
        }
    }

    #[test]
    fn each_watch_has_its_bytes() {
        each("watch", |words| {
            let bytes = ticket(&words[1], &words[3..]).watch(words[8].parse().unwrap());
            assert_eq!(text_of(&bytes), words[0]);
        });
    }

    #[test]
    fn each_notice_is_read() {
        each("notice", |words| {
            let (ticket, bytes) = (ticket(&words[1], &words[3..]), hex(&words[0]));
            let news = match words[8].as_str() {
                "free" => News::Free,
                "held" => News::Held,
                _ => News::NotHere,
            };
            let place = words[9].parse().unwrap();
            assert_eq!(ticket.notice(&bytes), Some(Notice { news, place }));
            assert!(is_notice(&bytes));
            for length in 0..bytes.len() {
                assert_eq!(ticket.notice(&bytes[..length]), None);
            }
        });
    }

    #[test]
    fn all_else_is_no_notice() {
        let first = Ticket {
            cluster: 5,
            client: 7,
            number: 1,
            fence: 3,
            is_shared: false,
            name: "db".to_owned(),
        };
        each("unread", |words| {
            assert_eq!(first.notice(&hex(&words[0])), None, "{words:?}");
        });
    }

    #[test]
    fn a_notice_is_known_before_its_seal_is_checked() {
        each("opened", |words| {
            let is_one = words[4].starts_with("4c57");
            assert_eq!(is_notice(&hex(&words[0])), is_one);
        });
        for kind in [
            "request",
            "answer",
            "elsewhere",
            "passed",
            "sealed",
            "watch",
        ] {
            each(kind, |words| {
                assert!(!is_notice(&hex(&words[0])), "{words:?}")
            });
        }
        assert!(!is_notice(&[]));
    }
}
