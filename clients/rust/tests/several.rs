//! Locks that are tried, taken again after a failure, and taken several at once.

#[path = "support/scripted.rs"]
#[allow(dead_code)]
mod support;

use locks_client::{Error, Event};
use std::sync::atomic::{AtomicBool, Ordering};
use std::sync::{Arc, Mutex};
use std::thread::{self, JoinHandle};
use std::time::{Duration, Instant};
use support::{BUSY, FREE, GRANTED, Node, OWN_BUSY, RELEASED, answer, bound, client, hex, op};

const SECOND: &str = "01 0000000000000002";

/// The op of an acquire of a name of one letter, and of its release at a fence.
fn acquire(letter: &str) -> Vec<u8> {
    hex(&format!("00 03 01 01 {letter}"))
}

fn release(letter: &str, fence: u64) -> Vec<u8> {
    hex(&format!("00 0b 02 01 {letter} {fence:016x}"))
}

#[test]
fn a_lock_is_tried_once() {
    let node = Node::new(vec![vec![answer(2, BUSY)], vec![answer(3, OWN_BUSY)]]);
    let (mut client, start) = (client(&[node.port]), Instant::now());
    assert!(client.try_lock("db").unwrap().is_none());
    assert!(start.elapsed() < Duration::from_secs(9));
    let own = client.try_lock("db").unwrap_err();
    assert!(matches!(own, Error::Busy { is_own: true, .. }));
}

#[test]
fn a_lock_that_is_free_is_granted_to_a_try() {
    let node = Node::new(vec![vec![answer(2, GRANTED)], vec![answer(3, RELEASED)]]);
    let mut client = client(&[node.port]);
    let lock = client.try_lock("db").unwrap().unwrap();
    assert_eq!(lock.fence(), 1);
    lock.release().unwrap();
}

#[test]
fn a_share_is_tried_once() {
    let held = "06 0008 0000000000000003";
    let node = Node::new(vec![
        vec![answer(2, held)],
        vec![answer(3, FREE)],
        vec![answer(4, "0c 0000000000000004")],
        vec![answer(5, RELEASED)],
    ]);
    let mut client = client(&[node.port]);
    assert!(client.try_lock_shared("db").unwrap().is_none());
    assert_eq!(client.try_lock_shared("db").unwrap().unwrap().fence(), 4);
}

#[test]
fn a_lock_goes_on_with_its_own_acquire_that_has_no_answer() {
    let node = Node::new(vec![
        vec![],
        vec![answer(2, GRANTED)],
        vec![answer(3, RELEASED)],
    ]);
    let mut client = client(&[node.port]);
    client.set_patience(Duration::from_millis(100));
    assert!(client.acquire("db").is_err());
    let lock = client.lock("db", Duration::ZERO).unwrap();
    assert_eq!(lock.fence(), 1);
    drop(lock);
    assert_eq!(node.ops(), [op(1, None), op(1, None), op(2, Some(1))]);
}

#[test]
fn a_lock_settles_a_release_that_has_no_answer() {
    let node = Node::new(vec![
        vec![],
        vec![answer(2, "04")],
        vec![answer(3, GRANTED)],
        vec![answer(4, RELEASED)],
    ]);
    let mut client = client(&[node.port]);
    client.set_patience(Duration::from_millis(100));
    assert!(client.release("db", 1).is_err());
    client
        .lock("db", Duration::ZERO)
        .unwrap()
        .release()
        .unwrap();
    let ops = node.ops();
    assert_eq!(ops[..2], [op(2, Some(1)), op(2, Some(1))]);
}

#[test]
fn several_locks_are_taken_in_the_order_of_their_names() {
    let node = Node::new(vec![
        vec![answer(2, GRANTED)],
        vec![answer(3, SECOND)],
        vec![answer(4, RELEASED)],
        vec![answer(5, RELEASED)],
    ]);
    let mut client = client(&[node.port]);
    let locks = client.lock_all(&["b", "a"], Duration::ZERO).unwrap();
    assert_eq!((locks.fence("a"), locks.fence("b")), (Some(1), Some(2)));
    assert_eq!(locks.fence("c"), None);
    assert_eq!(locks.fences().count(), 2);
    locks.release().unwrap();
    let ops = [
        acquire("61"),
        acquire("62"),
        release("62", 2),
        release("61", 1),
    ];
    assert_eq!(node.ops(), ops);
}

#[test]
fn several_locks_are_released_with_the_value() {
    let node = Node::new(vec![vec![answer(2, GRANTED)], vec![answer(3, RELEASED)]]);
    let mut client = client(&[node.port]);
    drop(client.lock_all(&["a"], Duration::ZERO).unwrap());
    assert_eq!(node.ops(), [acquire("61"), release("61", 1)]);
}

#[test]
fn all_are_given_back_where_one_is_busy() {
    let node = Node::new(vec![
        vec![answer(2, GRANTED)],
        vec![answer(3, BUSY)],
        vec![answer(4, RELEASED)],
    ]);
    let mut client = client(&[node.port]);
    let refused = client.lock_all(&["a", "b"], Duration::ZERO).unwrap_err();
    assert!(matches!(refused, Error::Busy { name, .. } if name == "b"));
    assert_eq!(client.holds().count(), 0);
    assert_eq!(node.ops()[2], release("61", 1));
}

/// A node that grants what it is asked, but is silent to number 3 until that is set.
fn granting_after(is_late: Arc<AtomicBool>) -> (u16, JoinHandle<Vec<Vec<u8>>>) {
    let (socket, port) = bound();
    let heard = thread::spawn(move || {
        let mut ops = Vec::new();
        while ops.len() < 4 {
            let mut buffer = [0; 100];
            let (length, from) = socket.recv_from(&mut buffer).unwrap();
            let (number, asked) = (u64::from(buffer[25]), &buffer[26..length]);
            if number == 3 && !is_late.load(Ordering::SeqCst) {
                continue;
            }
            ops.push(asked.to_vec());
            let fields = if asked[2] == 1 { GRANTED } else { RELEASED };
            socket.send_to(&answer(number, fields), from).unwrap();
        }
        ops
    });
    (port, heard)
}

#[test]
fn all_are_given_back_where_one_has_no_answer() {
    let is_late = Arc::new(AtomicBool::new(false));
    let (port, heard) = granting_after(Arc::clone(&is_late));
    let mut client = client(&[port]);
    client.set_patience(Duration::from_millis(600));
    client.set_log(move |event| {
        if let Event::Unanswered { .. } = event {
            is_late.store(true, Ordering::SeqCst);
        }
    });
    let refused = client.lock_all(&["a", "b"], Duration::ZERO).unwrap_err();
    assert!(matches!(refused, Error::NoAnswer { .. }));
    assert_eq!(client.holds().count(), 0);
    let ops = [
        acquire("61"),
        acquire("62"),
        release("62", 1),
        release("61", 1),
    ];
    assert_eq!(heard.join().unwrap(), ops);
}

#[test]
fn a_lock_that_cannot_be_given_back_is_named() {
    let mut rows = vec![vec![]; 9];
    rows[0] = vec![answer(2, GRANTED)];
    rows[1] = vec![answer(3, BUSY)];
    let node = Node::new(rows);
    let mut client = client(&[node.port]);
    let told = Arc::new(Mutex::new(0));
    let kept = Arc::clone(&told);
    client.set_log(move |event| {
        *kept.lock().unwrap() += u32::from(matches!(event, Event::NotReleased { .. }));
    });
    client.set_patience(Duration::from_millis(200));
    let refused = client.lock_all(&["a", "b"], Duration::ZERO).unwrap_err();
    assert!(matches!(refused, Error::NotReleased { name, fence: 1, .. } if name == "a"));
    assert_eq!(*told.lock().unwrap(), 1);
    assert!(client.is_waiting());
}

#[test]
fn one_name_is_not_locked_twice() {
    let mut client = client(&[7001]);
    let refused = client.lock_all(&["a", "a"], Duration::ZERO).unwrap_err();
    let told = "invalid names [\"a\", \"a\"]: must be different from each other";
    assert_eq!(refused.to_string(), told);
}
