//! A client belongs to the process that made it.

#[path = "support/scripted.rs"]
#[allow(dead_code)]
mod support;

use locks_client::{Client, ClientId, ClusterId, Error, Numbers, Session, Step};
use std::panic::{AssertUnwindSafe, catch_unwind};
use std::time::{Duration, Instant};
use std::{env, fs, process};
use support::{GRANTED, Node, RELEASED, answer, client, client_of, op};

unsafe extern "C" {
    fn fork() -> i32;
    fn waitpid(process: i32, status: *mut i32, options: i32) -> i32;
    fn _exit(status: i32) -> !;
}

/// Whether the block returns true in a child of this process.
fn in_a_child(block: impl FnOnce() -> bool) -> bool {
    let child = unsafe { fork() };
    if child == 0 {
        let is_good = catch_unwind(AssertUnwindSafe(block)).unwrap_or(false);
        unsafe { _exit(i32::from(!is_good)) };
    }
    let mut status = -1;
    assert_eq!(unsafe { waitpid(child, &mut status, 0) }, child);
    status == 0
}

fn is_refused<T>(result: Result<T, Error>, parent: u32) -> bool {
    matches!(result, Err(Error::Forked { opened, here }) if opened == parent && here == process::id())
}

#[test]
fn a_child_is_refused() {
    let node = Node::new(vec![vec![answer(2, GRANTED)]]);
    let (mut client, parent) = (client(&[node.port]), process::id());
    assert!(in_a_child(|| is_refused(client.acquire("db"), parent)));
    assert!(in_a_child(|| is_refused(client.skip_to(9), parent)));
    assert_eq!(client.acquire("db").unwrap(), 1);
}

#[test]
fn a_child_is_refused_the_answer_of_an_open_request() {
    let node = Node::new(vec![vec![], vec![answer(2, GRANTED)]]);
    let (mut client, parent) = (client(&[node.port]), process::id());
    client.set_patience(Duration::from_millis(100));
    assert!(matches!(client.acquire("db"), Err(Error::NoAnswer { .. })));
    assert!(in_a_child(|| is_refused(client.again(), parent)));
    assert!(in_a_child(|| is_refused(client.withdraw(), parent)));
    assert!(in_a_child(|| is_refused(client.give_up("db"), parent)));
    client.again().unwrap();
    assert_eq!(node.heard().len(), 2);
}

#[test]
fn a_child_takes_no_step_of_a_session_of_its_parent() {
    let numbers = Numbers::from_first(1).unwrap();
    let id = ClientId::new(7).unwrap();
    let node = ([127, 0, 0, 1], 7001).into();
    let mut session = Session::new(ClusterId::new(5), id, &[node], numbers).unwrap();
    let (now, parent) = (Instant::now(), process::id());
    session.open(now, Duration::MAX).unwrap();
    assert!(in_a_child(|| match session.step(now) {
        Step::Done(refused) => is_refused(refused, parent),
        _ => false,
    }));
    assert!(matches!(session.step(now), Step::Send { .. }));
}

#[test]
fn a_child_makes_no_client_of_numbers_of_its_parent() {
    let numbers = Numbers::from_first(1).unwrap();
    let parent = process::id();
    assert!(in_a_child(|| {
        let id = ClientId::new(7).unwrap();
        is_refused(Client::new(ClusterId::new(5), id, &[7001], numbers), parent)
    }));
}

#[test]
fn a_child_leaves_the_state_file_as_it_is() {
    let path = env::temp_dir().join(format!("locks-fork-{}", process::id()));
    let numbers = Numbers::begun_in(&path, 1).unwrap();
    let node = Node::new(vec![vec![answer(2, GRANTED)]]);
    let mut client = Some(client_of(&[node.port], numbers));
    client.as_mut().unwrap().acquire("db").unwrap();
    assert!(in_a_child(|| {
        drop(client.take());
        true
    }));
    assert_eq!(fs::read_to_string(&path).unwrap(), "1000\n");
    assert!(matches!(Numbers::kept_in(&path), Err(Error::State { .. })));
    drop(client);
    assert_eq!(fs::read_to_string(&path).unwrap(), "2\n");
    fs::remove_file(format!("{}.lock", path.display())).unwrap();
    fs::remove_file(path).unwrap();
}

#[test]
fn a_child_does_not_release_a_lock_of_its_parent() {
    let node = Node::new(vec![vec![answer(2, GRANTED)], vec![answer(3, RELEASED)]]);
    let mut client = client(&[node.port]);
    let lock = client.lock("db", Duration::ZERO).unwrap();
    let mut lock = Some(lock);
    assert!(in_a_child(|| {
        drop(lock.take());
        true
    }));
    lock.unwrap().release().unwrap();
    assert_eq!(node.ops(), [op(1, None), op(2, Some(1))]);
}
