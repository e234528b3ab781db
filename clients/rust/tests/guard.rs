//! What becomes of a lock that a value guards.

#[path = "support/scripted.rs"]
#[allow(dead_code)]
mod support;

use locks_client::{Client, Error, Event};
use std::panic::{AssertUnwindSafe, catch_unwind};
use std::sync::{Arc, Mutex};
use std::time::{Duration, Instant};
use support::{FREE, GRANTED, Node, RELEASED, answer, client, op, reply};

const NOT_HELD: &str = "04";

/// What is logged of locks that were not released.
fn failures(client: &mut Client) -> Arc<Mutex<Vec<String>>> {
    let events = Arc::new(Mutex::new(Vec::new()));
    let kept = Arc::clone(&events);
    client.set_log(move |event| {
        if let Event::NotReleased { .. } = event {
            kept.lock().unwrap().push(event.to_string());
        }
    });
    events
}

/// A node that grants number 1, and answers number 2 so.
fn granting(second: &str) -> Node {
    Node::new(vec![vec![answer(2, GRANTED)], vec![answer(3, second)]])
}

/// A node that grants number 1, and is silent from then on.
fn silent() -> Node {
    let mut rows = vec![vec![]; 9];
    rows[0] = vec![answer(2, GRANTED)];
    Node::new(rows)
}

#[test]
fn a_lock_is_held_while_a_value_lives() {
    let node = granting(RELEASED);
    let mut client = client(&[node.port]);
    let lock = client.lock("db", Duration::ZERO).unwrap();
    assert_eq!((lock.name(), lock.fence()), ("db", 1));
    drop(lock);
    assert_eq!(node.ops()[1], op(2, Some(1)));
}

#[test]
fn a_shared_lock_is_held_while_a_value_lives() {
    let node = Node::new(vec![
        vec![answer(2, FREE)],
        vec![answer(3, "0c 0000000000000004")],
        vec![answer(4, RELEASED)],
    ]);
    let mut client = client(&[node.port]);
    let lock = client.lock_shared("db", Duration::ZERO).unwrap();
    lock.release().unwrap();
    assert_eq!(node.ops(), [op(3, None), op(5, None), op(2, Some(4))]);
}

#[test]
fn a_lock_is_released_though_a_request_has_no_answer() {
    // the node replies to no request of the block
    let node = Node::new(vec![
        vec![answer(2, GRANTED)],
        vec![],
        vec![answer(4, RELEASED)],
    ]);
    let mut client = client(&[node.port]);
    let mut lock = client.lock("db", Duration::ZERO).unwrap();
    lock.client().set_patience(Duration::from_millis(100));
    assert!(matches!(
        lock.client().ask("db"),
        Err(Error::NoAnswer { .. })
    ));
    lock.client().set_patience(Duration::from_secs(30));
    lock.release().unwrap();
    assert_eq!(node.ops()[2], op(2, Some(1)));
}

#[test]
fn a_request_that_a_release_gives_up_is_told() {
    let node = Node::new(vec![
        vec![answer(2, GRANTED)],
        vec![],
        vec![answer(4, RELEASED)],
    ]);
    let mut client = client(&[node.port]);
    let told = Arc::new(Mutex::new(Vec::new()));
    let kept = Arc::clone(&told);
    client.set_log(move |event| {
        if let Event::GivenUp { .. } = event {
            kept.lock().unwrap().push(event.to_string());
        }
    });
    let mut lock = client.lock("db", Duration::ZERO).unwrap();
    lock.client().set_patience(Duration::from_millis(100));
    assert!(lock.client().acquire("other").is_err());
    lock.client().set_patience(Duration::from_secs(30));
    lock.release().unwrap();
    let expected = "request 3 for other was given up without an answer";
    assert_eq!(*told.lock().unwrap(), [expected]);
    assert!(matches!(client.withdraw(), Err(Error::Unknown { name }) if name == "other"));
}

#[test]
fn a_drop_is_bounded_and_tells_the_log() {
    let node = silent();
    let mut client = client(&[node.port]);
    let events = failures(&mut client);
    client.set_drop_patience(Duration::from_millis(300));
    let start = Instant::now();
    drop(client.lock("db", Duration::ZERO).unwrap());
    assert!((300..9_000).contains(&start.elapsed().as_millis())); // the patience itself is 10 s
    let told = events.lock().unwrap().clone();
    assert_eq!(told.len(), 1);
    assert!(told[0].starts_with("db was not released at fence 1: no answer"));
    assert!(client.is_waiting());
}

#[test]
fn a_drop_leaves_the_patience_as_it_was() {
    let node = Node::new(vec![
        vec![answer(2, GRANTED)],
        vec![answer(3, RELEASED)],
        vec![],
        vec![],
    ]);
    let mut client = client(&[node.port]);
    client.set_patience(Duration::from_millis(700));
    client.set_drop_patience(Duration::from_millis(100));
    drop(client.lock("db", Duration::ZERO).unwrap());
    let start = Instant::now();
    assert!(matches!(client.ask("db"), Err(Error::NoAnswer { .. })));
    assert!(start.elapsed() >= Duration::from_millis(700));
}

#[test]
fn a_release_that_fails_names_the_lock() {
    let node = silent();
    let mut client = client(&[node.port]);
    let lock = client.lock("db", Duration::ZERO).unwrap();
    let mut lock = lock;
    lock.client().set_patience(Duration::from_millis(100));
    let refused = lock.release().unwrap_err();
    assert!(
        refused
            .to_string()
            .starts_with("db was not released at fence 1: no answer")
    );
    let Error::NotReleased { name, fence, cause } = refused else {
        panic!("{refused}");
    };
    assert_eq!((name.as_str(), fence), ("db", 1));
    assert!(matches!(*cause, Error::NoAnswer { .. }));
}

#[test]
fn a_lock_that_was_broken_is_not_held() {
    let node = granting(NOT_HELD);
    let mut client = client(&[node.port]);
    let lock = client.lock("db", Duration::ZERO).unwrap();
    assert!(matches!(lock.release(), Err(Error::NotHeld { .. })));
}

#[test]
fn a_release_that_was_passed_is_told() {
    let node = Node::new(vec![
        vec![answer(2, GRANTED)],
        vec![reply(12, 3, "0000000000000009")],
        vec![answer(10, FREE)],
        vec![answer(11, RELEASED)],
    ]);
    let mut client = client(&[node.port]);
    let lock = client.lock("db", Duration::ZERO).unwrap();
    let refused = lock.release().unwrap_err().to_string();
    assert!(refused.starts_with("db was not released at fence 1: passed 9: "));
    client.skip_to(10).unwrap();
    client.release("db", 1).unwrap();
}

#[test]
fn the_error_of_a_block_comes_first() {
    let node = granting(NOT_HELD);
    let mut client = client(&[node.port]);
    let events = failures(&mut client);
    let done = client.hold(
        "db",
        Duration::ZERO,
        |_| -> Result<(), Box<dyn std::error::Error>> { Err("the block's own".into()) },
    );
    assert_eq!(done.unwrap_err().to_string(), "the block's own");
    let told = events.lock().unwrap().clone();
    assert_eq!(told.len(), 1);
    assert!(told[0].starts_with("db was not released at fence 1: db is not held at fence 1"));
}

#[test]
fn the_error_of_a_release_comes_where_the_block_succeeds() {
    let node = granting(NOT_HELD);
    let done = client(&[node.port]).hold("db", Duration::ZERO, |lock| Ok(lock.fence()));
    assert!(matches!(done, Err(Error::NotHeld { .. })));
    let node = granting(RELEASED);
    let done: Result<u64, Error> =
        client(&[node.port]).hold("db", Duration::ZERO, |lock| Ok(lock.fence()));
    assert_eq!(done.unwrap(), 1);
}

#[test]
fn a_panic_is_not_hidden_and_the_lock_is_released() {
    let node = granting(RELEASED);
    let mut client = client(&[node.port]);
    let panic = catch_unwind(AssertUnwindSafe(|| {
        let _lock = client.lock("db", Duration::ZERO).unwrap();
        panic!("the block's own");
    }));
    assert_eq!(panic.unwrap_err().downcast_ref(), Some(&"the block's own"));
    assert_eq!(node.ops()[1], op(2, Some(1)));
}

#[test]
fn a_panic_is_not_hidden_by_a_release_that_fails_nor_by_the_log() {
    let node = silent();
    let mut client = client(&[node.port]);
    client.set_drop_patience(Duration::from_millis(100));
    client.set_log(|_| panic!("the log's own"));
    let panic = catch_unwind(AssertUnwindSafe(|| {
        let _lock = client.lock("db", Duration::ZERO).unwrap();
        panic!("the block's own");
    }));
    assert_eq!(panic.unwrap_err().downcast_ref(), Some(&"the block's own"));
}
