//! Shared holds, and those of earlier runs.

#[path = "support/scripted.rs"]
#[allow(dead_code)]
mod support;

use locks_client::{Error, Numbers};
use std::time::Duration;
use support::{FREE, Node, OWN_BUSY, RELEASED, answer, client, new_client, op};

const SHARED: &str = "0c 0000000000000004";
const ONE_SHARES: &str = "0d 01 0000000000000004";
const TWO_SHARE: &str = "0d 02 0000000000000004";

#[test]
fn a_nested_shared_lock_is_refused() {
    let node = Node::new(vec![
        vec![answer(2, FREE)],
        vec![answer(3, SHARED)],
        vec![answer(4, RELEASED)],
    ]);
    let mut client = client(&[node.port]);
    let mut outer = client.lock_shared("db", Duration::ZERO).unwrap();
    let nested = outer.client().lock_shared("db", Duration::MAX).unwrap_err();
    assert!(matches!(
        nested,
        Error::Busy {
            fence: 4,
            is_own: true,
            ..
        }
    ));
    assert!(outer.client().share("db").is_err());
    outer.release().unwrap();
    assert_eq!(node.ops(), [op(3, None), op(5, None), op(2, Some(4))]);
}

#[test]
fn a_lock_that_this_run_shares_with_others_is_not_waited_for() {
    let node = Node::new(vec![
        vec![answer(2, FREE)],
        vec![answer(3, SHARED)],
        vec![answer(4, "02 0001 0000000000000004")], // client 1 has the lowest number
    ]);
    let mut client = client(&[node.port]);
    client.share("db").unwrap();
    let refused = client.acquire_within("db", Duration::MAX).unwrap_err();
    assert!(
        matches!(refused, Error::Busy { fence: 4, is_own: true, holder, .. } if holder == client.id())
    );
}

#[test]
fn a_share_at_the_start_of_a_run_is_not_judged_by_a_stored_answer() {
    // the answer to number 1 may have been stored for an Ask of an earlier run
    let node = Node::new(vec![
        vec![answer(1, FREE)],
        vec![answer(2, ONE_SHARES)],
        vec![answer(3, SHARED)],
        vec![answer(4, ONE_SHARES)],
    ]);
    let numbers = Numbers::from_first(1).unwrap();
    let refused = new_client(&[node.port], numbers).share("db");
    let refused = refused.unwrap_err();
    assert!(matches!(refused, Error::SharedBefore { fence: 4, .. }));
}

/// What a share comes to where the two Asks beside it are answered so.
fn shared_between(before: &str, after: &str) -> (Result<u64, Error>, usize) {
    let node = Node::new(vec![
        vec![answer(2, before)],
        vec![answer(3, SHARED)],
        vec![answer(4, after)],
    ]);
    let mut client = client(&[node.port]);
    (client.share("db"), client.holds().count())
}

#[test]
fn a_share_of_an_earlier_run_is_told_and_left() {
    let (refused, held) = shared_between(ONE_SHARES, ONE_SHARES);
    let refused = refused.unwrap_err();
    assert!(matches!(refused, Error::SharedBefore { fence: 4, .. }));
    assert!(
        refused
            .to_string()
            .starts_with("db is shared at fence 4 by this client, perhaps")
    );
    assert_eq!(held, 0);
}

#[test]
fn a_share_beside_others_is_this_runs_own() {
    let (shared, held) = shared_between(ONE_SHARES, TWO_SHARE);
    assert_eq!((shared.unwrap(), held), (4, 1));
}

#[test]
fn a_share_of_an_earlier_run_is_adopted() {
    let node = Node::new(vec![
        vec![answer(2, ONE_SHARES)],
        vec![answer(3, SHARED)],
        vec![answer(4, RELEASED)],
    ]);
    let mut client = client(&[node.port]);
    client.adopt("db", 4).unwrap().release().unwrap();
    assert_eq!(node.ops(), [op(3, None), op(5, None), op(2, Some(4))]);
}

#[test]
fn a_share_of_an_earlier_run_is_not_withdrawn() {
    let node = Node::new(vec![
        vec![answer(2, ONE_SHARES)],
        vec![],
        vec![answer(3, SHARED)],
        vec![answer(4, ONE_SHARES)],
    ]);
    let mut client = client(&[node.port]);
    client.set_patience(Duration::from_millis(300));
    assert!(matches!(
        client.share("db"),
        Err(Error::NoAnswer { is_sent: true, .. })
    ));
    client.set_patience(Duration::from_secs(5));
    let refused = client.withdraw().unwrap_err();
    assert!(matches!(refused, Error::SharedBefore { fence: 4, .. }));
    assert_eq!(node.ops().len(), 4); // and no release
}

#[test]
fn what_another_holds_alone_is_not_shared() {
    let held = "06 0008 0000000000000003";
    let node = Node::new(vec![vec![answer(2, held)]]);
    let refused = client(&[node.port]).share("db").unwrap_err();
    assert!(matches!(
        refused,
        Error::Busy {
            fence: 3,
            is_own: false,
            ..
        }
    ));
}

#[test]
fn an_exclusive_lock_of_an_earlier_run_is_adopted_at_its_fence_alone() {
    let own = "06 0007 0000000000000003";
    let node = Node::new(vec![
        vec![answer(2, OWN_BUSY)],
        vec![answer(3, own)],
        vec![answer(4, own)],
        vec![answer(5, RELEASED)],
    ]);
    let mut client = client(&[node.port]);
    let busy = client.acquire("db").unwrap_err().to_string();
    assert!(
        busy.ends_with("release or adopt it at that fence"),
        "{busy}"
    );
    assert!(matches!(
        client.adopt("db", 2),
        Err(Error::NotHeld { fence: 2, .. })
    ));
    client.adopt("db", 3).unwrap().release().unwrap();
}
