//! A session against a clock and nodes of the test's own: nothing here waits.

#[path = "support/scripted.rs"]
#[allow(dead_code)]
mod support;

use locks_client::{Answer, ClientId, ClusterId, Error, Event, Numbers, Op, Session, Step};
use std::net::SocketAddr;
use std::sync::{Arc, Mutex};
use std::time::{Duration, Instant};
use support::{FREE, GRANTED, RELEASED, answer, elsewhere};

const PORTS: [u16; 2] = [7001, 7002];

fn at(port: u16) -> SocketAddr {
    ([127, 0, 0, 1], port).into()
}

/// A session whose clock the test sets.
struct Timed {
    session: Session,
    now: Instant,
}

impl Timed {
    /// A session whose run has begun, so that the next request has number 2.
    fn new() -> Timed {
        let numbers = Numbers::from_first(1).unwrap();
        let (cluster, id) = (ClusterId::new(5), ClientId::new(7).unwrap());
        let session = Session::new(cluster, id, &PORTS.map(at), numbers).unwrap();
        let now = Instant::now();
        let mut timed = Timed { session, now };
        timed.session.open(now, Duration::MAX).unwrap();
        assert!(timed.answer_to_next(answer(1, FREE)).is_ok());
        timed
    }

    fn begin(&mut self, op: Op, patience: Duration) {
        self.session.begin(op, self.now, patience).unwrap();
    }

    /// What comes of a request whose first datagram is answered so.
    fn answer_to_next(&mut self, reply: Vec<u8>) -> Result<Answer, Error> {
        match self.session.step(self.now) {
            Step::Send { to, .. } => self.session.take(&reply, to, self.now),
            other => panic!("{other:?}"),
        }
        match self.session.step(self.now) {
            Step::Done(answer) => answer,
            other => panic!("{other:?}"),
        }
    }

    /// Steps to the end of the request, with the reply to each datagram. How many were sent.
    fn run(&mut self, reply_from: impl Fn(SocketAddr) -> Option<Vec<u8>>) -> (usize, Error) {
        let mut sent = 0;
        loop {
            match self.session.step(self.now) {
                Step::Send { to, .. } => {
                    sent += 1;
                    if let Some(reply) = reply_from(to) {
                        self.session.take(&reply, to, self.now);
                    }
                }
                Step::Wait { until } => self.now = until,
                Step::Done(done) => return (sent, done.unwrap_err()),
            }
        }
    }
}

fn acquire() -> Op {
    Op::Acquire("db".to_owned())
}

#[test]
fn elsewheres_are_counted_anew_after_each_wait() {
    let mut timed = Timed::new();
    // two rounds, at 0 and after 0.375 to 0.625 s, of one datagram and the seven that follow it;
    // the third one would begin 0.75 s later at the earliest
    timed.begin(acquire(), Duration::from_secs(1));
    let other = |to: SocketAddr| {
        if to == at(PORTS[0]) {
            PORTS[1]
        } else {
            PORTS[0]
        }
    };
    let (sent, error) = timed.run(|to| Some(elsewhere(other(to))));
    assert_eq!(sent, 16);
    assert!(matches!(error, Error::NoAnswer { is_sent: true, .. }));
}

#[test]
fn other_addresses_are_asked_at_once() {
    let mut timed = Timed::new();
    timed.session.set_addresses(&[at(7003)]).unwrap();
    timed.begin(acquire(), Duration::from_secs(1));
    match timed.session.step(timed.now) {
        Step::Send { to, .. } => assert_eq!(to, at(7003)), // not the node that answered last
        other => panic!("{other:?}"),
    }
}

#[test]
fn each_node_is_asked_in_turn() {
    let mut timed = Timed::new();
    timed.begin(acquire(), Duration::from_secs(60));
    let asked = Mutex::new(Vec::new());
    timed.run(|to| {
        asked.lock().unwrap().push(to.port());
        None
    });
    let asked = asked.into_inner().unwrap();
    assert!((14..=24).contains(&asked.len()), "{}", asked.len());
    assert!(asked.windows(2).all(|pair| pair[0] != pair[1]));
}

#[test]
fn a_wait_for_an_unreachable_cluster_is_told_every_five_seconds() {
    let mut timed = Timed::new();
    let told = Arc::new(Mutex::new(Vec::new()));
    let kept = Arc::clone(&told);
    timed.session.set_log(move |event| {
        if let Event::Unreachable { .. } = event {
            kept.lock().unwrap().push(event.to_string());
        }
    });
    timed.begin(acquire(), Duration::from_secs(21));
    timed.run(|_| None);
    let told = told.lock().unwrap();
    let text = |seconds| {
        format!(
            "no node has answered `acquire db` for {seconds} s; check that nodes run at the given \
             addresses"
        )
    };
    assert_eq!(*told, [5, 10, 15, 20].map(text));
}

#[test]
fn what_an_address_replies_that_was_not_asked_is_dropped() {
    let mut timed = Timed::new();
    timed.begin(acquire(), Duration::from_secs(10));
    assert!(matches!(timed.session.step(timed.now), Step::Send { .. }));
    timed.session.take(&answer(2, GRANTED), at(7009), timed.now);
    let next = timed.session.step(timed.now);
    assert!(matches!(next, Step::Wait { .. }), "{next:?}");
    timed.session.take(&answer(2, GRANTED), at(7001), timed.now);
    let next = timed.session.step(timed.now);
    assert!(
        matches!(next, Step::Done(Ok(Answer::Granted(1)))),
        "{next:?}"
    );
}

#[test]
fn a_request_that_its_caller_left_is_resumed() {
    let mut timed = Timed::new();
    timed.begin(acquire(), Duration::from_secs(10));
    assert!(matches!(timed.session.step(timed.now), Step::Send { .. }));
    let refused = timed.session.begin(acquire(), timed.now, Duration::ZERO);
    assert!(matches!(refused, Err(Error::Unanswered { .. })));
    let patience = Duration::from_secs(10);
    timed.session.resume(timed.now, patience).unwrap();
    let granted = timed.answer_to_next(answer(2, GRANTED)).unwrap();
    assert_eq!(granted, Answer::Granted(1));
    assert_eq!(timed.session.holds().next(), Some(("db", 1)));
    timed.begin(Op::Release("db".to_owned(), 1), patience);
    timed.answer_to_next(answer(3, RELEASED)).unwrap();
    assert_eq!(timed.session.holds().next(), None);
}

#[test]
fn an_acquire_that_is_open_at_the_drop_of_a_session_is_told() {
    let mut timed = Timed::new();
    let told = Arc::new(Mutex::new(Vec::new()));
    let kept = Arc::clone(&told);
    timed
        .session
        .set_log(move |event| kept.lock().unwrap().push(event.to_string()));
    timed.begin(acquire(), Duration::from_secs(10));
    assert!(matches!(timed.session.step(timed.now), Step::Send { .. }));
    drop(timed);
    let last = told.lock().unwrap().pop().unwrap();
    assert_eq!(last, "request 2 for db was given up without an answer");
}

#[test]
fn a_session_without_a_request_has_nothing_to_do() {
    let mut timed = Timed::new();
    timed
        .session
        .take(&answer(1, FREE), at(PORTS[0]), timed.now);
    let step = timed.session.step(timed.now);
    assert!(matches!(step, Step::Done(Err(Error::NothingAsked))));
    let resumed = timed.session.resume(timed.now, Duration::ZERO);
    assert!(matches!(resumed, Err(Error::NothingAsked)));
}
