//! Datagrams: the request that goes out, and what comes back.

use crate::op::Op;
use crate::{Answer, Error, MAX_COUNT, MAX_NODE};

const HEADER: usize = 16;
const REQUEST: u8 = 9;
const ANSWER: u8 = 10;
const ELSEWHERE: u8 = 11;
const PASSED: u8 = 12;

/// Which request it is: of which cluster and client, under which number.
#[derive(Clone, Copy, Debug, PartialEq, Eq)]
pub(crate) struct Label {
    pub cluster: u64,
    pub client: u16,
    pub number: u64,
}

/// What a node replies to a request.
#[derive(Clone, Copy, Debug, PartialEq, Eq)]
pub(crate) enum Reply {
    Answer(Answer),
    /// That node, at this port, may lead.
    Elsewhere {
        node: u32,
        port: u16,
    },
    /// A request of the client with this greater number was executed.
    Passed(u64),
}

impl Label {
    /// Magic and version, a kind, the cluster and the sender, and then the label's own two fields.
    fn header(&self, kind: u8, sender: u32) -> Vec<u8> {
        let mut out = vec![b'L', b'K', 1, kind];
        out.extend_from_slice(&self.cluster.to_be_bytes());
        out.extend_from_slice(&sender.to_be_bytes());
        out.extend_from_slice(&self.client.to_be_bytes());
        out.extend_from_slice(&self.number.to_be_bytes());
        out
    }

    /// The bytes of the request.
    pub(crate) fn request(&self, op: &Op) -> Result<Vec<u8>, Error> {
        let mut out = self.header(REQUEST, 0);
        op.write(&mut out)?;
        Ok(out)
    }

    /// What a datagram replies to the request, or `None`.
    pub(crate) fn reply(&self, bytes: &[u8]) -> Option<Reply> {
        let kind = *bytes.get(3)?;
        let sender = u32::from_be_bytes(*bytes.get(12..HEADER)?.first_chunk()?);
        let rest = bytes.strip_prefix(self.header(kind, sender).as_slice())?;
        if !(1..=MAX_NODE).contains(&sender) {
            return None;
        }
        match kind {
            ANSWER => Answer::read(rest).map(Reply::Answer),
            ELSEWHERE => elsewhere(rest),
            PASSED => self.passed(rest).map(Reply::Passed),
            _ => None,
        }
    }

    /// The last number that a Passed tells.
    fn passed(&self, rest: &[u8]) -> Option<u64> {
        let last = u64::from_be_bytes(rest.try_into().ok()?);
        (self.number < last && last <= MAX_COUNT).then_some(last)
    }
}

/// The node and the port that an Elsewhere tells.
fn elsewhere(rest: &[u8]) -> Option<Reply> {
    let [n0, n1, n2, n3, p0, p1] = *rest else {
        return None;
    };
    let node = u32::from_be_bytes([n0, n1, n2, n3]);
    let port = u16::from_be_bytes([p0, p1]);
    ((1..=MAX_NODE).contains(&node) && port > 0).then_some(Reply::Elsewhere { node, port })
}

#[cfg(test)]
mod tests {
    use super::{Label, Reply};
    use crate::Answer;
    use crate::op::Op;

    const LABEL: Label = Label {
        cluster: 5,
        client: 7,
        number: 1,
    };

    /// The bytes of hex digits with spaces between them.
    fn hex(text: &str) -> Vec<u8> {
        let digits: Vec<u32> = text.chars().filter_map(|it| it.to_digit(16)).collect();
        digits
            .chunks(2)
            .map(|pair| (pair[0] * 16 + pair[1]) as u8)
            .collect()
    }

    #[test]
    fn the_exchange_of_the_page() {
        let request = LABEL.request(&Op::Acquire("db".into())).unwrap();
        assert_eq!(
            request,
            hex("4c4b0109 0000000000000005 00000000 0007 0000000000000001 00 04 01026462")
        );
        let answer =
            hex("4c4b010a 0000000000000005 00000001 0007 0000000000000001 01 0000000000000001");
        assert_eq!(
            LABEL.reply(&answer),
            Some(Reply::Answer(Answer::Granted(1)))
        );
        let passed =
            hex("4c4b010c 0000000000000005 00000001 0007 0000000000000001 0000000000000002");
        assert_eq!(LABEL.reply(&passed), Some(Reply::Passed(2)));
        let elsewhere =
            hex("4c4b010b 0000000000000005 00000001 0007 0000000000000001 00000002 1b5a");
        let leads = Reply::Elsewhere {
            node: 2,
            port: 7002,
        };
        assert_eq!(LABEL.reply(&elsewhere), Some(leads));
    }

    #[test]
    fn what_is_no_reply_to_the_request() {
        let rows = [
            "00",
            "4c4b020a 0000000000000005 00000001 0007 0000000000000001 03",
            "4c4b010a 0000000000000006 00000001 0007 0000000000000001 03",
            "4c4b010a 0000000000000005 00000000 0007 0000000000000001 03",
            "4c4b010a 0000000000000005 80000001 0007 0000000000000001 03",
            "4c4b010a 0000000000000005 00000001 0008 0000000000000001 03",
            "4c4b010a 0000000000000005 00000001 0007 0000000000000002 03",
            "4c4b010a 0000000000000005 00000001 0007 0000000000000001",
            "4c4b010b 0000000000000005 00000001 0007 0000000000000001 00000000 1b5a",
            "4c4b010b 0000000000000005 00000001 0007 0000000000000001 00000002 0000",
            "4c4b010b 0000000000000005 00000001 0007 0000000000000001 00000002 1b5a 00",
            "4c4b010c 0000000000000005 00000001 0007 0000000000000001 0000000000000001",
            "4c4b010d 0000000000000005 00000001 0007 0000000000000001 03",
        ];
        for row in rows {
            assert_eq!(LABEL.reply(&hex(row)), None, "{row}");
        }
    }
}
