//! Where a client with a key asks next.

use super::Step;
use crate::golden::hex;
use crate::key::Keys;
use crate::{Answer, ClientId, ClusterId, Numbers, Op, Session};
use std::net::SocketAddr;
use std::time::{Duration, Instant};

fn at(port: u16) -> SocketAddr {
    ([127, 0, 0, 1], port).into()
}

/// A session with a key, whose requests are numbered from 1.
fn keyed() -> Session {
    let numbers = Numbers::from_first(1).unwrap();
    let (cluster, id) = (ClusterId::new(5), ClientId::new(7).unwrap());
    let mut session = Session::new(cluster, id, &[at(7001)], numbers).unwrap();
    session.set_key(Keys::read(&"11".repeat(32)).unwrap());
    session
}

/// Where the session sends next.
fn sent_to(session: &mut Session) -> SocketAddr {
    match session.step(Instant::now()) {
        Step::Send { to, .. } => to,
        other => panic!("{other:?}"),
    }
}

/// Takes a sealed answer that somebody else relays.
fn relay(session: &mut Session, number: u8, fields: &str) {
    let head = "4c4b010a0000000000000005000000010007";
    let answer = hex(&format!("{head}{number:016x}{fields}"));
    let frame = session.seals.replied(&answer);
    session.take(&frame, at(7009), Instant::now());
}

#[test]
fn an_address_that_was_not_asked_does_not_become_the_leader() {
    let (mut session, patience) = (keyed(), Duration::from_secs(10));
    let op = Op::Acquire("db".to_owned());
    session.begin(op, Instant::now(), patience).unwrap();
    assert_eq!(sent_to(&mut session), at(7001));
    relay(&mut session, 1, "050000000000000000");
    assert_eq!(sent_to(&mut session), at(7001));
    relay(&mut session, 2, "010000000000000001");
    let done = session.step(Instant::now());
    assert!(
        matches!(done, Step::Done(Ok(Answer::Granted(1)))),
        "{done:?}"
    );
    let op = Op::Release("db".to_owned(), 1);
    session.begin(op, Instant::now(), patience).unwrap();
    assert_eq!(sent_to(&mut session), at(7001));
}

#[test]
fn an_error_counts_the_datagrams_that_no_key_opens() {
    for (key, count) in [(Some("22".repeat(32)), 2), (None, 2)] {
        let (mut session, now) = (keyed(), Instant::now());
        let frame = session.seals.replied(&hex("4c4b"));
        session.seals.keys = key.map(|text| Keys::read(&text).unwrap());
        session.open(now, Duration::ZERO).unwrap();
        assert_eq!(sent_to(&mut session), at(7001));
        for _ in 0..count {
            session.take(&frame, at(7001), now);
        }
        let Step::Done(Err(error)) = session.step(now) else {
            panic!("not done");
        };
        let told = "; 2 datagrams arrived that the client's key does not open: check that it is the \
                    current one";
        assert!(error.to_string().ends_with(told), "{error}");
    }
}
