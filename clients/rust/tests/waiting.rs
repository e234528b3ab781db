//! How a session and a client wait for a lock that another client holds.

#[path = "support/scripted.rs"]
#[allow(dead_code)]
mod support;

use locks_client::{Answer, ClientId, ClusterId, Error, Numbers, Op, Session, Step, milliseconds};
use std::net::SocketAddr;
use std::sync::mpsc::{Receiver, channel};
use std::thread;
use std::time::{Duration, Instant};
use support::{BUSY, FREE, GRANTED, OWN_BUSY, RELEASED, answer, bound, client};

const PORTS: [u16; 2] = [7001, 7002];
const PATIENCE: Duration = Duration::from_secs(10);
const FREE_NOW: u8 = 1;
const HELD: u8 = 2;

fn at(port: u16) -> SocketAddr {
    ([127, 0, 0, 1], port).into()
}

fn ms(milliseconds: u64) -> Duration {
    Duration::from_millis(milliseconds)
}

fn acquire() -> Op {
    Op::Acquire("db".to_owned())
}

fn is_watch(bytes: &[u8]) -> bool {
    bytes.starts_with(b"LW\x01\x09") && bytes.len() == 71
}

/// The number, the fence and the periods of a watch.
fn watch(bytes: &[u8]) -> (u64, u64, u8) {
    assert!(is_watch(bytes), "{bytes:?}");
    let number = |at: usize| u64::from_be_bytes(bytes[at..at + 8].try_into().unwrap());
    (number(18), number(26), bytes[68])
}

/// What node 1 says to a watch.
fn notice(watch: &[u8], news: u8, place: u8) -> Vec<u8> {
    let mut bytes = watch.to_vec();
    (bytes[3], bytes[15], bytes[68], bytes[70]) = (10, 1, news, place);
    bytes
}

/// A session whose clock the test sets.
struct Timed {
    session: Session,
    now: Instant,
}

impl Timed {
    /// A session whose run has begun, so that the next request has number 2.
    fn new() -> Timed {
        let numbers = Numbers::from_first(1).unwrap();
        let (cluster, id) = (ClusterId::new(5), ClientId::new(7).unwrap());
        let session = Session::new(cluster, id, &PORTS.map(at), numbers).unwrap();
        let now = Instant::now();
        let mut timed = Timed { session, now };
        timed.session.open(now, Duration::MAX).unwrap();
        timed.answer(answer(1, FREE));
        assert!(timed.done().is_ok());
        timed
    }

    /// The same session, which sends no watches.
    fn without_notices() -> Timed {
        let mut timed = Timed::new();
        timed.session.set_notices(false);
        timed
    }

    /// What is sent next, and where it goes.
    fn sent(&mut self) -> (Vec<u8>, SocketAddr) {
        match self.session.step(self.now) {
            Step::Send { bytes, to } => (bytes, to),
            other => panic!("{other:?}"),
        }
    }

    /// Until when it waits now.
    fn until(&mut self) -> Instant {
        match self.session.step(self.now) {
            Step::Wait { until } => until,
            other => panic!("{other:?}"),
        }
    }

    fn done(&mut self) -> Result<Answer, Error> {
        match self.session.step(self.now) {
            Step::Done(answer) => answer,
            other => panic!("{other:?}"),
        }
    }

    /// Answers the request that is sent next. It is no watch.
    fn answer(&mut self, reply: Vec<u8>) {
        let (bytes, to) = self.sent();
        assert!(!is_watch(&bytes));
        self.session.take(&reply, to, self.now);
    }

    /// The watch that goes to both nodes next.
    fn watches(&mut self) -> Vec<u8> {
        let (first, second) = (self.sent(), self.sent());
        assert_eq!((first.1, second.1), (at(PORTS[0]), at(PORTS[1])));
        assert_eq!(first.0, second.0);
        watch(&first.0);
        first.0
    }

    fn begin(&mut self, wait: Duration) {
        self.session
            .begin_wait(acquire(), self.now, wait, PATIENCE)
            .unwrap();
    }

    /// A session that waits for `db`, which client 8 holds at fence 3, and its watch.
    fn waiting() -> (Timed, Vec<u8>) {
        let mut timed = Timed::new();
        timed.begin(Duration::MAX);
        timed.answer(answer(2, BUSY));
        let watch = timed.watches();
        (timed, watch)
    }
}

#[test]
fn each_node_is_watched_at_the_fence_of_the_first_busy() {
    let (mut timed, first) = Timed::waiting();
    let (number, fence, periods) = watch(&first);
    assert_eq!((fence, periods), (3, 20));
    assert!(number >= (milliseconds() - 60_000) * 1_000_000); // nanoseconds
    let wait = timed.until() - timed.now;
    assert!((ms(37)..ms(63)).contains(&wait), "{wait:?}");
}

#[test]
fn a_lock_is_asked_for_at_once_after_a_notice() {
    let (mut timed, first) = Timed::waiting();
    timed
        .session
        .take(&notice(&first, FREE_NOW, 1), at(PORTS[1]), timed.now);
    timed.answer(answer(3, GRANTED));
    assert_eq!(timed.done().unwrap(), Answer::Granted(1)); // and nothing is withdrawn
    assert_eq!(timed.session.holds().next(), Some(("db", 1)));
}

#[test]
fn in_a_queue_watches_are_renewed() {
    let (mut timed, mut last) = Timed::waiting();
    let start = timed.now;
    for turn in 1..=2 {
        timed
            .session
            .take(&notice(&last, HELD, 1), at(PORTS[0]), timed.now);
        timed
            .session
            .take(&notice(&last, 3, 1), at(PORTS[1]), timed.now);
        assert_eq!(timed.until(), start + ms(800) * turn);
        timed.now = start + ms(800) * turn;
        let next = timed.watches();
        assert_eq!(watch(&next).0, watch(&last).0 + 1);
        last = next;
    }
}

#[test]
fn in_a_queue_the_lock_is_asked_for_once_a_minute() {
    let (mut timed, mut last) = Timed::waiting();
    let (start, mut asked) = (timed.now, Vec::new());
    while timed.now < start + ms(100_000) {
        for (port, news) in [(PORTS[0], HELD), (PORTS[1], 3)] {
            let heard = notice(&last, news, 1);
            timed.session.take(&heard, at(port), timed.now);
        }
        timed.now = timed.until();
        let (bytes, to) = timed.sent();
        if is_watch(&bytes) {
            timed.sent(); // to the other node
            last = bytes;
            continue;
        }
        asked.push(timed.now - start);
        timed.session.take(&answer(3, BUSY), to, timed.now);
        last = timed.watches();
    }
    assert!(asked.len() == 1 && asked[0] >= ms(45_000) && asked[0] <= ms(75_000));
    timed
        .session
        .take(&notice(&last, FREE_NOW, 1), at(PORTS[0]), timed.now);
    timed.answer(answer(4, GRANTED));
    assert_eq!(timed.done().unwrap(), Answer::Granted(1));
}

#[test]
fn old_nodes_are_asked_after_the_waits_of_before() {
    let (mut timed, _) = Timed::waiting();
    for (number, most) in [(3, 63), (4, 125), (5, 250)] {
        let until = timed.until();
        assert!(until - timed.now <= ms(most));
        timed.now = until;
        timed.answer(answer(number, BUSY));
        timed.watches();
    }
}

#[test]
fn a_watch_is_renewed_while_a_request_has_no_answer() {
    let (mut timed, first) = Timed::waiting();
    timed.now = timed.until();
    let asked = timed.sent();
    assert!(!is_watch(&asked.0));
    let start = timed.now;
    let mut renewed = Vec::new();
    for _ in 0..1_000 {
        if timed.now >= start + ms(2_000) {
            break;
        }
        match timed.session.step(timed.now) {
            Step::Send { bytes, to } if is_watch(&bytes) => {
                renewed.push(watch(&bytes).0);
                timed.session.take(&notice(&bytes, 3, 1), to, timed.now);
            }
            Step::Send { .. } => {} // the request again
            Step::Wait { until } => timed.now = until,
            other => panic!("{other:?}"),
        }
    }
    let number = watch(&first).0;
    assert_eq!(renewed, [1, 1, 2, 2].map(|more| number + more));
}

#[test]
fn a_request_goes_to_a_node_that_says_that_it_leads() {
    let (mut timed, first) = Timed::waiting();
    timed.now = timed.until();
    let (request, to) = timed.sent();
    assert_eq!(to, at(PORTS[0])); // it has answered last, and is silent now
    timed
        .session
        .take(&notice(&first, HELD, 1), at(PORTS[1]), timed.now);
    assert_eq!(timed.sent(), (request, at(PORTS[1])));
    timed
        .session
        .take(&answer(3, GRANTED), at(PORTS[1]), timed.now);
    assert_eq!(timed.done().unwrap(), Answer::Granted(1));
}

#[test]
fn the_node_that_told_a_client_is_asked_first() {
    let (mut timed, first) = Timed::waiting();
    timed
        .session
        .take(&notice(&first, FREE_NOW, 1), at(PORTS[1]), timed.now);
    assert_eq!(timed.sent().1, at(PORTS[1]));
}

#[test]
fn who_came_too_late_watches_again_at_the_new_fence() {
    let (mut timed, first) = Timed::waiting();
    timed
        .session
        .take(&notice(&first, FREE_NOW, 1), at(PORTS[0]), timed.now);
    timed.answer(answer(3, "02 0009 0000000000000004"));
    let second = timed.watches();
    assert_eq!(watch(&second), (watch(&first).0 + 1, 4, 20));
    // a notice that was late or doubled
    timed
        .session
        .take(&notice(&first, FREE_NOW, 1), at(PORTS[0]), timed.now);
    assert!(timed.until() > timed.now);
}

#[test]
fn a_notice_of_another_source_or_number_is_dropped() {
    let (mut timed, first) = Timed::waiting();
    timed
        .session
        .take(&notice(&first, FREE_NOW, 1), at(6666), timed.now);
    let mut other = notice(&first, FREE_NOW, 1);
    other[25] ^= 1;
    timed.session.take(&other, at(PORTS[0]), timed.now);
    timed
        .session
        .take(&notice(&first, FREE_NOW, 1)[..70], at(PORTS[0]), timed.now);
    assert!(timed.until() > timed.now);
}

#[test]
fn a_wait_that_is_over_asks_once_more_and_is_withdrawn() {
    let mut timed = Timed::new();
    timed.begin(ms(30));
    timed.answer(answer(2, BUSY));
    let first = timed.watches();
    assert_eq!(timed.until(), timed.now + ms(30));
    timed.now += ms(30);
    timed.answer(answer(3, BUSY));
    let withdrawn = timed.watches();
    assert_eq!(watch(&withdrawn), (watch(&first).0 + 1, 3, 0));
    assert!(matches!(timed.done(), Err(Error::Busy { fence: 3, .. })));
}

#[test]
fn a_wait_whose_request_has_no_answer_is_withdrawn() {
    let (mut timed, first) = Timed::waiting();
    timed
        .session
        .take(&notice(&first, FREE_NOW, 1), at(PORTS[0]), timed.now);
    timed.sent();
    timed.session.forget();
    assert_eq!(watch(&timed.watches()).2, 0);
    assert!(matches!(timed.done(), Err(Error::NothingAsked)));
}

#[test]
fn another_request_ends_a_wait() {
    let (mut timed, first) = Timed::waiting();
    let ask = Op::Ask("db".to_owned());
    timed.session.begin(ask, timed.now, PATIENCE).unwrap();
    assert_eq!(watch(&timed.watches()), (watch(&first).0 + 1, 3, 0));
    timed.answer(answer(3, FREE));
    assert_eq!(timed.done().unwrap(), Answer::Free(0));
}

#[test]
fn the_end_of_a_wait_is_no_answer_to_the_next_request() {
    let mut timed = Timed::new();
    timed.begin(ms(30));
    timed.answer(answer(2, BUSY));
    timed.watches();
    timed.now += ms(30);
    timed.answer(answer(3, BUSY));
    timed.sent(); // the first of two withdrawals: then its caller stops
    let ask = Op::Ask("db".to_owned());
    timed.session.begin(ask, timed.now, PATIENCE).unwrap();
    assert!(is_watch(&timed.sent().0));
    timed.answer(answer(4, FREE));
    assert_eq!(timed.done().unwrap(), Answer::Free(0));
}

#[test]
fn a_wait_does_not_give_up_a_request_that_is_open() {
    let mut timed = Timed::new();
    timed
        .session
        .begin(Op::Release("db".to_owned(), 1), timed.now, PATIENCE)
        .unwrap();
    let refused = timed
        .session
        .begin_wait(acquire(), timed.now, PATIENCE, PATIENCE);
    assert!(matches!(refused, Err(Error::Unanswered { .. })));
    timed.answer(answer(2, RELEASED));
    assert_eq!(timed.done().unwrap(), Answer::Released);
}

#[test]
fn what_the_client_holds_itself_is_not_watched() {
    let mut timed = Timed::new();
    timed.begin(Duration::MAX);
    timed.answer(answer(2, OWN_BUSY));
    assert!(matches!(
        timed.done(),
        Err(Error::Busy { is_own: true, .. })
    ));
}

#[test]
fn a_sharer_says_so() {
    let mut timed = Timed::new();
    let share = Op::Share("db".to_owned());
    timed
        .session
        .begin_wait(share, timed.now, PATIENCE, PATIENCE)
        .unwrap();
    timed.answer(answer(2, "06 0008 0000000000000003"));
    assert_eq!(timed.watches()[34], 2);
}

/// The session after it has released `db` at fence 1.
fn released(mut timed: Timed) -> Timed {
    timed.begin(Duration::ZERO);
    timed.answer(answer(2, GRANTED));
    timed.done().unwrap();
    timed
        .session
        .begin(Op::Release("db".to_owned(), 1), timed.now, PATIENCE)
        .unwrap();
    timed.answer(answer(3, RELEASED));
    timed.done().unwrap();
    timed
}

#[test]
fn who_released_a_lock_watches_before_it_asks() {
    let mut timed = released(Timed::new());
    timed.begin(PATIENCE);
    let first = timed.watches();
    assert_eq!(watch(&first).1, 1);
    timed
        .session
        .take(&notice(&first, FREE_NOW, 0), at(PORTS[0]), timed.now);
    timed.answer(answer(4, "01 0000000000000002"));
    assert_eq!(timed.done().unwrap(), Answer::Granted(2));
}

#[test]
fn a_try_and_a_later_wait_ask_first() {
    for (wait, pause) in [(Duration::ZERO, ms(0)), (PATIENCE, ms(1_001))] {
        let mut timed = released(Timed::new());
        timed.now += pause;
        timed.begin(wait);
        timed.answer(answer(4, "01 0000000000000002"));
        timed.done().unwrap();
    }
}

#[test]
fn old_nodes_are_watched_before_a_request_once() {
    let mut timed = released(Timed::new());
    timed.begin(PATIENCE);
    timed.watches();
    let until = timed.until();
    assert!(until - timed.now <= ms(63));
    timed.now = until;
    timed.answer(answer(4, "01 0000000000000002"));
    timed.done().unwrap();
    timed
        .session
        .begin(Op::Release("db".to_owned(), 2), timed.now, PATIENCE)
        .unwrap();
    timed.answer(answer(5, RELEASED));
    timed.done().unwrap();
    timed.begin(PATIENCE);
    timed.answer(answer(6, "01 0000000000000003")); // no watch before it
}

#[test]
fn other_nodes_are_watched_from_the_next_watch_on() {
    let (mut timed, first) = Timed::waiting();
    timed.session.set_addresses(&[at(7003)]).unwrap();
    timed
        .session
        .take(&notice(&first, FREE_NOW, 1), at(PORTS[0]), timed.now);
    timed.now = timed.until(); // no node that is left has said so
    let (bytes, to) = timed.sent();
    assert!(!is_watch(&bytes) && to == at(7003));
    timed
        .session
        .take(&answer(3, "02 0008 0000000000000004"), to, timed.now);
    let (bytes, to) = timed.sent();
    assert!(is_watch(&bytes) && to == at(7003));
}

#[test]
fn a_session_without_notices_sends_requests_alone_and_waits_at_intervals() {
    let mut timed = released(Timed::without_notices());
    timed.begin(ms(20_000));
    let waits = [50, 100, 200, 400, 800, 800, 800];
    for (number, wait) in (4..).zip(waits) {
        timed.answer(answer(number, BUSY));
        let until = timed.until();
        let scattered = ms(wait) * 3 / 4..=ms(wait) * 5 / 4;
        assert!(scattered.contains(&(until - timed.now)));
        timed.now = until;
    }
    let (request, _) = timed.sent();
    for _ in 0..3 {
        timed.now = timed.until(); // no watch is renewed before
        assert_eq!(timed.sent().0, request);
    }
    timed
        .session
        .take(&answer(11, GRANTED), at(PORTS[0]), timed.now);
    assert_eq!(timed.done().unwrap(), Answer::Granted(1));
}

#[test]
fn a_wait_without_notices_is_not_withdrawn() {
    let mut timed = Timed::without_notices();
    timed.begin(ms(30));
    timed.answer(answer(2, BUSY));
    assert_eq!(timed.until(), timed.now + ms(30));
    timed.now += ms(30);
    timed.answer(answer(3, BUSY));
    assert!(matches!(timed.done(), Err(Error::Busy { fence: 3, .. })));
}

#[test]
fn a_session_that_wants_no_more_notices_asks_at_intervals() {
    let (mut timed, first) = Timed::waiting();
    timed.session.set_notices(false);
    timed
        .session
        .take(&notice(&first, FREE_NOW, 1), at(PORTS[0]), timed.now);
    timed.answer(answer(3, BUSY)); // the last notice that is followed
    for number in 4..9 {
        timed.now = timed.until();
        timed.answer(answer(number, BUSY));
    }
}

/// A node that has client 7 in its queue while client 8 holds the lock, and grants it a second after
/// the first watch, if `is_freed`. It shows each watch to the test.
fn watched(is_freed: bool) -> (u16, Receiver<Vec<u8>>) {
    let (socket, port) = bound();
    socket.set_read_timeout(Some(ms(10))).unwrap();
    let (told, watches) = channel();
    thread::spawn(move || {
        let (mut buffer, mut first) = ([0; 150], None);
        let mut last: Option<(Vec<u8>, SocketAddr)> = None;
        loop {
            let is_free = is_freed && first.is_some_and(|it: Instant| it.elapsed() > ms(1_000));
            let news = if is_free { FREE_NOW } else { HELD };
            if let Some((watch, from)) = last.take_if(|_| is_free) {
                socket.send_to(&notice(&watch, news, 1), from).unwrap();
            }
            let Ok((length, from)) = socket.recv_from(&mut buffer) else {
                continue;
            };
            let bytes = buffer[..length].to_vec();
            if !is_watch(&bytes) {
                let number = u64::from_be_bytes(bytes[18..26].try_into().unwrap());
                let fields = if is_free { GRANTED } else { BUSY };
                socket.send_to(&answer(number, fields), from).unwrap();
                continue;
            }
            first.get_or_insert_with(Instant::now);
            socket.send_to(&notice(&bytes, news, 1), from).unwrap();
            last = Some((bytes.clone(), from));
            if told.send(bytes).is_err() {
                return;
            }
        }
    });
    (port, watches)
}

#[test]
fn a_client_takes_a_lock_at_once_when_a_notice_comes() {
    let (port, watches) = watched(true);
    let mut client = client(&[port]);
    let start = Instant::now();
    let lock = client.lock("db", Duration::MAX).unwrap();
    let took = start.elapsed();
    assert!((ms(1_000)..ms(2_300)).contains(&took), "{took:?}"); // the notice comes after 1 s
    std::mem::forget(lock);
    assert!(watches.try_iter().all(|watch| watch[68] > 0)); // no withdrawal
}

#[test]
fn a_client_withdraws_a_wait_that_ends() {
    let (port, watches) = watched(false);
    let refused = client(&[port]).lock("db", ms(300)).map(drop).unwrap_err();
    assert!(matches!(refused, Error::Busy { fence: 3, .. }));
    let next = || watches.recv_timeout(Duration::from_secs(20)).ok();
    assert!(std::iter::from_fn(next).any(|watch| watch[68] == 0));
}

#[test]
fn a_client_without_notices_sends_no_watch() {
    let (port, watches) = watched(false);
    let mut client = client(&[port]);
    client.set_notices(false);
    let refused = client.lock("db", ms(300)).map(drop).unwrap_err();
    assert!(matches!(refused, Error::Busy { fence: 3, .. }));
    assert!(watches.recv_timeout(ms(200)).is_err());
}
