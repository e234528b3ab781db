use super::{BELIEF, PERIODS, Sends, Waiter};
use crate::ticket::Ticket;
use std::net::SocketAddr;
use std::time::{Duration, Instant};

const FREE: u8 = 1;
const HELD: u8 = 2;
const NOT_HERE: u8 = 3;

fn at(port: u16) -> SocketAddr {
    SocketAddr::from(([127, 0, 0, 1], port))
}

/// The ticket of client 7 with these numbers.
fn ticket(number: u64, fence: u64) -> Ticket {
    Ticket {
        cluster: 5,
        client: 7,
        number,
        fence,
        is_shared: false,
        name: "db".to_owned(),
    }
}

/// A wait for `db` at nodes 7001 to 7003, whose watches are numbered from 1, and when it begins.
fn waiter() -> (Waiter, Instant) {
    let start = Instant::now();
    let mut waiter = Waiter::new(ticket(0, 0), start);
    waiter.set_nodes([at(7001), at(7002), at(7003)]);
    (waiter, start)
}

/// What node 1 says to a watch.
fn notice(to: &Ticket, news: u8, place: u8) -> Vec<u8> {
    let mut bytes = to.watch(news);
    (bytes[3], bytes[15], bytes[70]) = (10, 1, place);
    bytes
}

/// That watch for each of these ports.
fn watches(watch: &Ticket, periods: u8, ports: &[u16]) -> Sends {
    ports
        .iter()
        .map(|port| (watch.watch(periods), at(*port)))
        .collect()
}

fn ms(milliseconds: u64) -> Duration {
    Duration::from_millis(milliseconds)
}

/// Whether it asks again after about so many milliseconds, if no notice comes.
fn is_about(waiter: &Waiter, start: Instant, milliseconds: u32) -> bool {
    let wait = waiter.asks_at().saturating_duration_since(start);
    (0.75..=1.25).contains(&(wait.as_secs_f64() * 1000.0 / f64::from(milliseconds)))
}

const ALL: [u16; 3] = [7001, 7002, 7003];

#[test]
fn each_node_is_watched_after_the_first_busy_and_each_800_ms() {
    let (mut waiter, start) = waiter();
    assert!(waiter.renew(start).is_empty());
    let first = waiter.busy(start, 3);
    assert_eq!(first, watches(&ticket(1, 3), PERIODS, &ALL));
    for number in 2..20 {
        for port in ALL {
            let heard = waiter.hear(
                &notice(&ticket(number - 1, 3), NOT_HERE, 1),
                at(port),
                false,
                start + ms(800) * (number as u32 - 2),
            );
            assert_eq!(heard, Some(false));
        }
        let now = start + ms(800) * (number as u32 - 1);
        assert!(waiter.renew(now - ms(1)).is_empty());
        assert_eq!(
            waiter.renew(now),
            watches(&ticket(number, 3), PERIODS, &ALL)
        );
    }
}

#[test]
fn a_lock_is_asked_for_at_once_after_a_notice() {
    let (mut waiter, start) = waiter();
    waiter.busy(start, 3);
    assert!(is_about(&waiter, start, 50));
    let heard = waiter.hear(&notice(&ticket(1, 3), FREE, 1), at(7002), false, start);
    assert_eq!(heard, Some(true));
    assert_eq!(waiter.asks_at(), start);
}

#[test]
fn one_notice_of_each_watch_is_followed() {
    let (mut waiter, start) = waiter();
    waiter.busy(start, 3);
    let free = notice(&ticket(1, 3), FREE, 1);
    waiter.hear(&free, at(7002), false, start);
    waiter.ask();
    waiter.hear(&free, at(7002), false, start); // doubled
    let again = waiter.busy(start + ms(20), 3);
    assert_eq!(again, watches(&ticket(2, 3), PERIODS, &ALL));
    assert_eq!(waiter.hear(&free, at(7002), false, start), None); // late
    assert!(waiter.asks_at() > start + ms(20));
}

#[test]
fn a_waiter_that_comes_too_late_watches_again_at_once() {
    let (mut waiter, start) = waiter();
    waiter.busy(start, 3);
    waiter.hear(&notice(&ticket(1, 3), FREE, 1), at(7002), false, start);
    waiter.ask();
    let again = waiter.busy(start + ms(11), 4);
    assert_eq!(again, watches(&ticket(2, 4), PERIODS, &ALL));
    waiter.hear(&notice(&ticket(2, 4), FREE, 1), at(7002), false, start);
    assert_eq!(waiter.asks_at(), start + ms(11));
}

#[test]
fn a_lock_that_is_free_for_others_is_asked_for_when_its_turn_has_come() {
    let (mut waiter, start) = waiter();
    waiter.busy(start, 3);
    let free = notice(&ticket(1, 3), FREE, 2);
    waiter.hear(&free, at(7002), false, start); // answers the watch
    assert_eq!(waiter.asks_at(), start + BELIEF);
    waiter.hear(&free, at(7002), false, start);
    assert_eq!(waiter.asks_at(), start);
}

#[test]
fn a_node_that_is_wrong_about_a_held_lock_is_followed_twice() {
    let (mut waiter, start) = waiter();
    waiter.busy(start, 3);
    let mut asked = 0;
    for now in (0..10_000).map(|milliseconds| start + ms(milliseconds)) {
        // each millisecond a notice, and an answer Busy to each request
        let free = notice(&ticket(waiter.number(), 3), FREE, 1);
        waiter.hear(&free, at(7002), false, now);
        if now >= waiter.asks_at() {
            asked += 1;
            waiter.ask();
            waiter.busy(now, 3);
        }
        waiter.renew(now);
    }
    assert!(asked <= 22, "{asked}"); // the two, and polls
    let now = start + ms(10_000);
    waiter.busy(now, 4);
    let free = notice(&ticket(waiter.number(), 4), FREE, 1);
    waiter.hear(&free, at(7002), false, start);
    assert_eq!(waiter.asks_at(), now);
}

/// A wait for `db` until so many milliseconds after its start. Node 7002 gives this notice to each
/// watch sent before it falls silent. Returns after how many milliseconds it asked: each time in vain.
fn asked(news: u8, place: u8, silent_at: u64, end: u64) -> Vec<u64> {
    let (mut waiter, start) = waiter();
    let (mut now, mut asked) = (start, Vec::new());
    waiter.busy(now, 3);
    while now < start + ms(end) {
        if now < start + ms(silent_at) {
            let heard = notice(&ticket(waiter.number(), 3), news, place);
            waiter.hear(&heard, at(7002), false, now);
        }
        now = waiter.due();
        if now >= waiter.asks_at() {
            asked.push((now - start).as_millis() as u64);
            waiter.ask();
            waiter.busy(now, 3);
        }
        waiter.renew(now);
    }
    asked
}

#[test]
fn in_the_queue_of_a_node_a_lock_is_asked_for_once_a_minute() {
    for place in [1, 200] {
        let asked = asked(HELD, place, u64::MAX, 300_000);
        assert!((4..=6).contains(&asked.len()), "{asked:?}");
        for (last, next) in [0].iter().chain(&asked).zip(&asked) {
            assert!((45_000..=75_000).contains(&(next - last)), "{asked:?}");
        }
    }
}

#[test]
fn without_a_place_a_lock_is_asked_for_at_intervals() {
    // a full queue, and nodes that do not lead
    for (news, place) in [(HELD, 0), (NOT_HERE, 1), (NOT_HERE, 0)] {
        let asked = asked(news, place, u64::MAX, 10_000);
        assert!(
            asked[0] <= 63 && asked.len() > 10,
            "{news} {place}: {asked:?}"
        );
    }
}

#[test]
fn a_place_that_no_notice_keeps_is_believed_for_1700_ms() {
    let asked = asked(HELD, 1, 8_000, 12_000);
    assert_eq!(asked[0], 7_200 + 1_700); // after the last notice
    assert!(asked[1] <= asked[0] + 125 && asked.len() > 4, "{asked:?}");
}

#[test]
fn an_answer_that_a_lock_is_free_for_others_counts_as_free_at_the_same_place() {
    let rows: [(&[(u8, u8)], &[usize]); 3] = [
        (&[(FREE, 3), (FREE, 3), (FREE, 3), (FREE, 3)], &[1, 3]),
        (&[(FREE, 3), (FREE, 2), (FREE, 2)], &[2]),
        (&[(FREE, 3), (HELD, 3), (FREE, 3), (FREE, 3)], &[3]),
    ];
    for (answers, asked) in rows {
        let (mut waiter, start) = waiter();
        let (mut now, mut asks) = (start, Vec::new());
        waiter.busy(now, 3);
        for (turn, (news, place)) in answers.iter().enumerate() {
            let heard = notice(&ticket(waiter.number(), 3), *news, *place);
            waiter.hear(&heard, at(7002), false, now);
            if waiter.asks_at() <= now {
                asks.push(turn);
                waiter.ask();
                waiter.busy(now, 3);
            }
            now += ms(800);
            waiter.renew(now);
        }
        assert_eq!(asks, asked, "{answers:?}");
    }
}

#[test]
fn a_node_that_leaves_two_renewals_unanswered_is_gone() {
    let (mut waiter, start) = waiter();
    let hear = |waiter: &mut Waiter, number: u64, news: u8| {
        let now = start + ms(800) * (number as u32 - 1);
        for (port, news) in [(7001, NOT_HERE), (7003, news)] {
            let heard = notice(&ticket(number, 3), news, 1);
            waiter.hear(&heard, at(port), false, now);
        }
    };
    waiter.busy(start, 3);
    let kept = notice(&ticket(1, 3), HELD, 1);
    waiter.hear(&kept, at(7002), false, start);
    for number in 2..4 {
        hear(&mut waiter, number - 1, NOT_HERE);
        let sent = waiter.renew(start + ms(800) * (number as u32 - 1));
        assert_eq!(sent, watches(&ticket(number, 3), PERIODS, &ALL));
        assert_eq!(waiter.asks_at(), start + BELIEF);
    }
    hear(&mut waiter, 3, NOT_HERE);
    let fourth = waiter.renew(start + ms(2400));
    assert_eq!(fourth, watches(&ticket(4, 3), PERIODS, &[7001, 7003]));
    for number in 5..9 {
        hear(&mut waiter, number - 1, HELD); // another one leads
        let now = start + ms(800) * (number as u32 - 1);
        assert_eq!(waiter.asks_at(), now - ms(800) + BELIEF);
        let sent = waiter.renew(now);
        let asked = if number == 8 { &ALL[..] } else { &[7001, 7003] };
        assert_eq!(sent, watches(&ticket(number, 3), PERIODS, asked));
    }
}

#[test]
fn watches_that_follow_each_other_quickly_leave_no_node_behind() {
    let (mut waiter, start) = waiter();
    for turn in 0..10 {
        // the lock goes from hand to hand before a node has answered
        let sent = waiter.busy(start + ms(turn), 3 + turn);
        assert_eq!(sent, watches(&ticket(turn + 1, 3 + turn), PERIODS, &ALL));
    }
}

#[test]
fn old_nodes_are_asked_as_they_were_before() {
    let (mut waiter, start) = waiter();
    let (mut now, mut sent) = (start, waiter.busy(start, 3).len());
    let steps = [50, 100, 200, 400].into_iter().chain([800; 30]);
    for step in steps.chain([3200; 20]) {
        let busy_at = now;
        while waiter.due() < waiter.asks_at() {
            now = waiter.due();
            sent += waiter.renew(now).len();
        }
        assert!(is_about(&waiter, busy_at, step), "{step}");
        now = waiter.asks_at();
        waiter.ask();
        sent += waiter.busy(now, 3).len();
    }
    // each eighth of them, after the first six at most
    let most = 18.0 + (now - start).as_secs_f64() / 0.8 * 3.0 / 8.0 * 1.5;
    assert!((sent as f64) < most, "{sent} watches");
}

#[test]
fn a_notice_is_taken_from_a_watched_address_alone() {
    let (mut waiter, start) = waiter();
    let early = waiter.hear(&notice(&ticket(0, 0), FREE, 1), at(7001), false, start);
    assert_eq!(early, None);
    waiter.busy(start, 3);
    let forged = [
        (ticket(1, 3), 6666),
        (ticket(2, 3), 7001),
        (ticket(1, 4), 7001),
    ];
    for (ticket, port) in forged {
        assert_eq!(
            waiter.hear(&notice(&ticket, FREE, 1), at(port), false, start),
            None
        );
    }
    waiter.set_nodes([at(7001), at(7004)]);
    for port in [7002, 7004] {
        let heard = waiter.hear(&notice(&ticket(1, 3), FREE, 1), at(port), false, start);
        assert_eq!(heard, None);
    }
    assert!(waiter.asks_at() > start);
    // a seal suffices, and does not show who leads
    let sealed = waiter.hear(&notice(&ticket(1, 3), FREE, 1), at(6666), true, start);
    assert_eq!(sealed, Some(false));
    assert_eq!(waiter.asks_at(), start);
}

#[test]
fn a_wait_that_ends_is_withdrawn() {
    let (mut waiter, start) = waiter();
    assert!(waiter.withdraw().is_empty());
    waiter.busy(start, 3);
    waiter.set_nodes([at(7001), at(7003), at(7004)]);
    let withdrawn = waiter.withdraw();
    assert_eq!(withdrawn, watches(&ticket(2, 3), 0, &[7001, 7003]));
    assert!(waiter.withdraw().is_empty() && waiter.renew(start + ms(9000)).is_empty());
    let late = waiter.hear(&notice(&ticket(2, 3), FREE, 0), at(7001), false, start);
    assert_eq!(late, None);
}

#[test]
fn who_released_the_lock_watches_before_it_asks() {
    let (mut waiter, start) = waiter();
    let first = waiter.watch_first(start, 3);
    assert_eq!(first, watches(&ticket(1, 3), PERIODS, &ALL));
    assert!(is_about(&waiter, start, 50));
    waiter.hear(&notice(&ticket(1, 3), FREE, 0), at(7002), false, start);
    assert_eq!(waiter.asks_at(), start);
    waiter.ask();
    let again = waiter.busy(start + ms(2), 4);
    assert_eq!(again, watches(&ticket(2, 4), PERIODS, &ALL));
}
