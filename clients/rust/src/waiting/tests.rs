use crate::golden::hex;
use crate::{Answer, ClientId, ClusterId, Keys, Numbers, Op, Session, Step};
use std::net::SocketAddr;
use std::time::{Duration, Instant};

const NODE: SocketAddr = SocketAddr::new(std::net::IpAddr::V4(std::net::Ipv4Addr::LOCALHOST), 7001);

/// A session with a key, and its clock.
struct Sealed {
    session: Session,
    now: Instant,
}

impl Sealed {
    /// The datagram in the frame that is sent next.
    fn sent(&mut self) -> Vec<u8> {
        match self.session.step(self.now) {
            Step::Send { bytes, .. } => {
                assert!(bytes.starts_with(b"LS\x01\x02"));
                bytes[36..].to_vec()
            }
            other => panic!("{other:?}"),
        }
    }

    /// Answers the request that is sent next, by a sealed reply with that number.
    fn answer(&mut self, number: u64, fields: &str) {
        assert!(self.sent().starts_with(b"LK"));
        let reply = hex(&format!(
            "4c4b010a0000000000000005000000010007{number:016x}{fields}"
        ));
        self.take(&reply);
    }

    /// Takes the frame of a node.
    fn take(&mut self, datagram: &[u8]) {
        let frame = self.session.seals.replied(datagram);
        assert!(frame.len() <= Session::LONGEST);
        self.session.take(&frame, NODE, self.now);
    }

    fn waits(&mut self) -> bool {
        matches!(self.session.step(self.now), Step::Wait { until } if until > self.now)
    }
}

/// A session with a key that waits for `db`, and the datagram of its watch.
fn waiting() -> (Sealed, Vec<u8>) {
    let numbers = Numbers::from_first(1).unwrap();
    let (cluster, id) = (ClusterId::new(5), ClientId::new(7).unwrap());
    let mut session = Session::new(cluster, id, &[NODE], numbers).unwrap();
    session.set_key(Keys::read(&"11".repeat(32)).unwrap());
    let now = Instant::now();
    let op = Op::Acquire("db".to_owned());
    session
        .begin_wait(op, now, Duration::MAX, Duration::MAX)
        .unwrap();
    let mut sealed = Sealed { session, now };
    sealed.answer(1, "050000000000000000");
    sealed.answer(2, "0200080000000000000003");
    let watch = sealed.sent();
    assert!(watch.starts_with(b"LW\x01\x09"));
    (sealed, watch)
}

/// What node 1 says to a watch: the lock is free.
fn free(watch: &[u8]) -> Vec<u8> {
    let mut bytes = watch.to_vec();
    (bytes[3], bytes[15], bytes[68], bytes[70]) = (10, 1, 1, 1);
    bytes
}

#[test]
fn a_sealed_notice_is_followed() {
    let (mut sealed, watch) = waiting();
    assert!(sealed.waits());
    sealed.take(&free(&watch));
    sealed.answer(3, "010000000000000004");
    assert!(matches!(
        sealed.session.step(sealed.now),
        Step::Done(Ok(Answer::Granted(4)))
    ));
}

#[test]
fn a_notice_without_a_seal_or_under_another_one_is_dropped() {
    let (mut sealed, watch) = waiting();
    let bare = free(&watch);
    let mut frame = sealed.session.seals.replied(&bare);
    frame[106] ^= 1;
    for forged in [bare, frame] {
        sealed.session.take(&forged, NODE, sealed.now);
        assert!(sealed.waits());
    }
}
