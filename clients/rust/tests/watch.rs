//! A watch of one's own hold.

#[path = "support/scripted.rs"]
#[allow(dead_code)]
mod support;

use locks_client::{Client, Error, Event};
use std::panic::{AssertUnwindSafe, catch_unwind};
use std::sync::atomic::{AtomicU32, Ordering};
use std::sync::{Arc, Mutex};
use std::thread;
use std::time::{Duration, Instant};
use support::{GRANTED, Node, RELEASED, answer, client, op, reply};

const VALID: &str = "07";
const STALE: &str = "08";
const NOT_HELD: &str = "04";
const EACH: Duration = Duration::from_millis(20);
const HOUR: Duration = Duration::from_secs(3_600);

fn node(fields: &[&str]) -> Node {
    let rows = (2..).zip(fields);
    Node::new(rows.map(|(number, it)| vec![answer(number, it)]).collect())
}

#[test]
fn a_loss_is_told_once() {
    let node = node(&[GRANTED, VALID, STALE, NOT_HELD]);
    let mut client = client(&[node.port]);
    let mut lock = client.lock("db", Duration::ZERO).unwrap();
    let told = AtomicU32::new(0);
    let on_lost = || {
        told.fetch_add(1, Ordering::SeqCst);
    };
    let fence = lock.watch_every(EACH, on_lost, |watch| {
        while !watch.is_lost() {
            thread::sleep(Duration::from_millis(1));
        }
        thread::sleep(EACH * 3);
        watch.fence()
    });
    assert_eq!((fence.unwrap(), told.load(Ordering::SeqCst)), (1, 1));
    assert!(matches!(lock.release(), Err(Error::NotHeld { .. })));
    let check = op(4, Some(1));
    let ops = [op(1, None), check.clone(), check, op(2, Some(1))];
    assert_eq!(node.ops(), ops);
}

#[test]
fn a_wait_for_a_loss_ends_with_it_or_in_time() {
    let node = node(&[GRANTED, STALE, NOT_HELD]);
    let mut client = client(&[node.port]);
    let mut lock = client.lock("db", Duration::ZERO).unwrap();
    let found = lock.watch_every(
        Duration::from_secs(3),
        || (),
        |watch| {
            let soon = watch.wait_lost(Duration::from_millis(1));
            (soon, watch.wait_lost(Duration::from_secs(60)))
        },
    );
    assert_eq!(found.unwrap(), (false, true));
}

#[test]
fn a_watch_ends_with_its_work_at_once() {
    let node = node(&[GRANTED, RELEASED]);
    let mut client = client(&[node.port]);
    let mut lock = client.lock("db", Duration::ZERO).unwrap();
    let start = Instant::now();
    let lost = lock.watch_every(HOUR, || panic!("lost"), |watch| watch.is_lost());
    assert!(!lost.unwrap());
    assert!(start.elapsed() < Duration::from_secs(60));
    lock.release().unwrap();
    assert_eq!(node.ops(), [op(1, None), op(2, Some(1))]);
}

#[test]
fn a_panic_of_the_work_ends_the_watch_and_releases() {
    let node = node(&[GRANTED, RELEASED]);
    let mut client = client(&[node.port]);
    let panic = catch_unwind(AssertUnwindSafe(|| {
        let mut lock = client.lock("db", Duration::ZERO).unwrap();
        let _ = lock.watch_every(HOUR, || (), |_| panic!("the work's own"));
    }));
    assert_eq!(panic.unwrap_err().downcast_ref(), Some(&"the work's own"));
    assert_eq!(node.ops()[1], op(2, Some(1)));
}

/// What is logged of checks that failed.
fn unwatched(client: &mut Client) -> Arc<Mutex<Vec<String>>> {
    let told = Arc::new(Mutex::new(Vec::new()));
    let kept = Arc::clone(&told);
    client.set_log(move |event| {
        if let Event::Unwatched { .. } = event {
            kept.lock().unwrap().push(event.to_string());
        }
    });
    told
}

#[test]
fn a_check_without_an_answer_is_no_loss() {
    let node = Node::new(vec![
        vec![answer(2, GRANTED)],
        vec![],
        vec![answer(3, VALID)],
        vec![reply(12, 4, "0000000000000009")],
        vec![],
    ]);
    let mut client = client(&[node.port]);
    let told = unwatched(&mut client);
    client.set_drop_patience(Duration::ZERO);
    let mut lock = client.lock("db", Duration::ZERO).unwrap();
    let has_three = || told.lock().unwrap().len() >= 3;
    let lost = lock.watch_every(
        EACH,
        || panic!("lost"),
        |watch| {
            while !has_three() && !watch.is_lost() {
                thread::sleep(Duration::from_millis(1));
            }
            watch.is_lost()
        },
    );
    assert!(!lost.unwrap());
    assert!(!lock.client().is_waiting());
    let told = told.lock().unwrap().clone();
    assert!(told[0].starts_with("db could not be checked at fence 1: no answer to `check db"));
    assert!(told[1].contains("passed 9"), "{}", told[1]);
}

#[test]
fn a_watch_does_not_give_up_a_request_of_its_client() {
    let node = Node::new(vec![vec![answer(2, GRANTED)], vec![]]);
    let mut client = client(&[node.port]);
    client.set_drop_patience(Duration::ZERO);
    let mut lock = client.lock("db", Duration::ZERO).unwrap();
    lock.client().set_patience(Duration::from_millis(50));
    assert!(lock.client().acquire("other").is_err());
    let refused = lock.watch(|| (), |_| ());
    assert!(matches!(refused, Err(Error::Unanswered { .. })));
    assert!(lock.client().is_waiting());
}

#[test]
fn a_hold_is_checked_once() {
    let node = node(&[GRANTED, VALID, STALE, NOT_HELD]);
    let mut client = client(&[node.port]);
    let mut lock = client.lock("db", Duration::ZERO).unwrap();
    assert!(lock.is_held().unwrap());
    assert!(!lock.is_held().unwrap());
}
