//! What a client must not believe, and what it must not leave untold.

#[path = "support/scripted.rs"]
#[allow(dead_code)]
mod support;

use locks_client::{Client, ClientId, ClusterId, Error, Event, Level, Numbers};
use std::net::{IpAddr, SocketAddr, UdpSocket};
use std::sync::{Arc, Mutex};
use std::thread;
use std::time::Duration;
use support::{
    FREE, GRANTED, Node, RELEASED, answer, bound, client, elsewhere, new_client, op, reply,
};

const SHARED: &str = "0c 0000000000000004";
const PASSED: &str = "0000000000000009";

/// A client whose first request has number 1.
fn unopened(port: u16) -> Client {
    new_client(&[port], Numbers::from_first(1).unwrap())
}

#[test]
fn a_run_begins_with_an_ask() {
    let node = Node::new(vec![vec![answer(1, FREE)], vec![answer(2, GRANTED)]]);
    assert_eq!(unopened(node.port).acquire("db").unwrap(), 1);
    let opening = support::hex("00 09 03 07 6f70656e696e67");
    assert_eq!(node.ops(), [opening, op(1, None)]);
}

#[test]
fn a_stored_answer_to_an_earlier_run_is_not_believed() {
    for stored in [GRANTED, RELEASED, "0a", SHARED] {
        let node = Node::new(vec![vec![answer(1, stored)]]);
        let mut client = unopened(node.port);
        let refused = client.acquire("rb").unwrap_err();
        assert!(matches!(refused, Error::OtherAnswer { .. }), "{refused}");
        let told = refused.to_string();
        assert!(told.starts_with("`acquire rb` was answered"), "{told}");
        assert!(told.contains("state file was restored; ") && told.contains("skip_to(1000001)"));
        assert!(!client.is_waiting() && client.holds().count() == 0);
        assert_eq!(node.heard().len(), 1);
    }
}

#[test]
fn a_run_begins_again_after_a_stored_answer_and_after_a_passed() {
    let node = Node::new(vec![
        vec![answer(1, GRANTED)],
        vec![reply(12, 2, PASSED)],
        vec![answer(3, GRANTED)],
    ]);
    let mut client = unopened(node.port);
    for _ in 0..3 {
        assert!(client.acquire("db").is_err());
    }
    assert!(node.ops().iter().all(|asked| asked[2] == 3)); // nothing but an Ask
}

#[test]
fn a_run_that_cannot_begin_has_asked_for_nothing() {
    let node = Node::new(vec![
        vec![],
        vec![],
        vec![answer(1, FREE)],
        vec![answer(2, GRANTED)],
    ]);
    let mut client = unopened(node.port);
    client.set_patience(Duration::from_millis(100));
    let refused = client.acquire("db").unwrap_err();
    assert!(matches!(refused, Error::NoAnswer { is_sent: false, .. }));
    assert!(refused.to_string().contains("`acquire db` was not sent"));
    assert!(client.again().is_err());
    client.set_patience(Duration::from_secs(5));
    client.again().unwrap();
    assert_eq!(client.holds().next(), Some(("db", 1)));
}

#[test]
fn what_was_not_sent_is_withdrawn_without_an_answer() {
    let node = Node::new(vec![vec![]]);
    let mut client = unopened(node.port);
    client.set_patience(Duration::from_millis(100));
    assert!(client.acquire("db").is_err());
    assert!(!client.withdraw().unwrap());
    assert!(!client.is_waiting());
}

#[test]
fn a_reply_from_another_address_is_dropped() {
    let ((node, port), forger) = (bound(), UdpSocket::bind("127.0.0.1:0").unwrap());
    thread::spawn(move || {
        let (_, from) = node.recv_from(&mut [0; 100]).unwrap();
        forger.send_to(&answer(2, GRANTED), from).unwrap();
        thread::sleep(Duration::from_millis(100));
        node.send_to(&answer(2, "02 0008 0000000000000003"), from)
            .unwrap();
    });
    let refused = client(&[port]).acquire("db").unwrap_err();
    assert!(matches!(refused, Error::Busy { fence: 3, .. }), "{refused}");
}

#[test]
fn a_passed_acquire_may_have_been_granted() {
    let node = Node::new(vec![vec![reply(12, 2, PASSED)]]);
    let mut client = client(&[node.port]);
    let told = client.acquire("db").unwrap_err().to_string();
    let expected = "passed 9: `acquire db` will not be executed any more, but it may have been \
                    granted before; another process uses this client number, or its last number \
                    was lost: end that process, or skip_to(1000009), and then ask who holds db";
    assert_eq!(told, expected);
    let unknown = client.withdraw().unwrap_err().to_string();
    assert!(unknown.starts_with("unknown whether db was granted: "));
    assert!(unknown.contains("ask who holds db"));
}

#[test]
fn an_acquire_that_was_given_up_is_not_told_as_withdrawn() {
    let node = Node::new(vec![vec![], vec![answer(3, FREE)], vec![answer(4, FREE)]]);
    let mut client = client(&[node.port]);
    client.set_patience(Duration::from_millis(100));
    assert!(client.acquire("db").is_err());
    client.set_patience(Duration::from_secs(5));
    client.give_up("other").unwrap();
    assert!(matches!(client.withdraw(), Err(Error::Unknown { name }) if name == "db"));
    client.ask("db").unwrap();
    assert!(matches!(client.withdraw(), Err(Error::NothingAsked)));
}

#[test]
fn a_passed_acquire_stays_unknown_while_other_requests_fail() {
    let node = Node::new(vec![
        vec![reply(12, 2, PASSED)],
        vec![answer(10, FREE)],
        vec![],
        vec![answer(12, FREE)],
    ]);
    let mut client = client(&[node.port]);
    assert!(client.acquire("db").is_err());
    client.skip_to(10).unwrap();
    client.set_patience(Duration::from_millis(100));
    assert!(client.check("other", 1).is_err());
    client.set_patience(Duration::from_secs(5));
    client.give_up("other").unwrap();
    assert!(matches!(client.withdraw(), Err(Error::Unknown { name }) if name == "db"));
}

#[test]
fn a_number_that_was_passed_is_not_skipped_to() {
    let node = Node::new(vec![vec![reply(12, 2, PASSED)]]);
    let mut client = client(&[node.port]);
    assert!(client.acquire("db").is_err());
    let refused = client.skip_to(9).unwrap_err().to_string();
    assert_eq!(
        refused,
        "invalid number 9: must be above 9, the last one that was executed"
    );
    client.skip_to(10).unwrap();
}

#[test]
fn numbers_near_the_end_need_another_client_number() {
    let node = Node::new(vec![vec![reply(12, 2, "0001000000000000")]]);
    let told = client(&[node.port]).acquire("db").unwrap_err().to_string();
    assert!(told.contains("so use another client number"), "{told}");
    assert!(!told.contains("skip_to"), "{told}");
}

/// The locks that stay held as the log is told.
fn left_held(client: &mut Client) -> Arc<Mutex<Vec<String>>> {
    let told = Arc::new(Mutex::new(Vec::new()));
    let kept = Arc::clone(&told);
    client.set_log(move |event| {
        if let Event::LeftHeld { .. } = event {
            kept.lock().unwrap().push(event.to_string());
        }
    });
    told
}

#[test]
fn a_lock_that_is_held_at_the_drop_of_the_client_is_told() {
    let node = Node::new(vec![vec![answer(2, GRANTED)]]);
    let mut client = client(&[node.port]);
    let told = left_held(&mut client);
    std::mem::forget(client.lock("db", Duration::ZERO).unwrap());
    drop(client);
    let expected = "db is still held at fence 1, as far as its client knew when it was dropped; \
                    release it at that fence in the next run";
    assert_eq!(*told.lock().unwrap(), [expected]);
}

#[test]
fn a_lock_that_was_released_or_lost_is_not_told_as_held() {
    for (fields, is_release) in [(RELEASED, true), ("04", true), ("08", false)] {
        let node = Node::new(vec![vec![answer(2, GRANTED)], vec![answer(3, fields)]]);
        let mut client = client(&[node.port]);
        let told = left_held(&mut client);
        client.acquire("db").unwrap();
        let _ = match is_release {
            true => client.release("db", 1),
            false => client.check("db", 1).map(drop),
        };
        drop(client);
        assert!(told.lock().unwrap().is_empty());
    }
}

#[test]
fn addresses_of_two_families_are_refused_by_name() {
    let (four, six) = ("127.0.0.1:7001", "[::1]:7002");
    let addresses = [four.parse().unwrap(), six.parse().unwrap()];
    let numbers = Numbers::from_first(1).unwrap();
    let id = ClientId::new(7).unwrap();
    let refused = Client::at(ClusterId::new(5), id, &addresses, numbers).unwrap_err();
    let told =
        "invalid address ::1: must be of the family of 127.0.0.1, since a client has one socket";
    assert_eq!(refused.to_string(), told);
    let mut client = unopened(7001);
    assert!(client.set_addresses(&addresses[1..]).is_err());
    assert!(client.set_hosts([(1, "::1".parse().unwrap())]).is_err());
}

#[test]
fn ports_are_changed_at_run_time() {
    let (first, second) = (
        Node::new(vec![vec![answer(2, GRANTED)]]),
        Node::new(vec![vec![answer(3, RELEASED)]]),
    );
    let mut client = client(&[first.port]);
    client.acquire("db").unwrap();
    assert!(client.set_ports(&[]).is_err());
    client.set_ports(&[second.port]).unwrap();
    client.release("db", 1).unwrap();
    assert_eq!(second.ops(), [op(2, Some(1))]);
}

/// Where the next request comes from, which is answered so.
fn source_of(client: &mut Client, node: UdpSocket, reply: Vec<u8>) -> SocketAddr {
    let heard = thread::spawn(move || {
        let (_, from) = node.recv_from(&mut [0; 100]).unwrap();
        node.send_to(&reply, from).unwrap();
        from
    });
    client.ask("db").unwrap();
    heard.join().unwrap()
}

#[test]
fn nodes_beyond_loopback_are_asked_from_a_socket_that_reaches_them() {
    let (near, port) = bound();
    let far = UdpSocket::bind("127.0.0.2:0").unwrap();
    let address = far.local_addr().unwrap();
    let mut client = client(&[port]);
    let local = source_of(&mut client, near, answer(2, FREE));
    client.set_addresses(&[address]).unwrap();
    assert_ne!(source_of(&mut client, far, answer(3, FREE)), local);
}

#[test]
fn hosts_beyond_loopback_are_asked_from_a_socket_that_reaches_them() {
    let (node, port) = bound();
    let far = UdpSocket::bind("127.0.0.2:0").unwrap();
    let told = elsewhere(far.local_addr().unwrap().port());
    let mut client = client(&[port]);
    client
        .set_hosts([(2, "127.0.0.2".parse().unwrap())])
        .unwrap();
    thread::spawn(move || {
        let (_, from) = node.recv_from(&mut [0; 100]).unwrap();
        node.send_to(&told, from).unwrap();
    });
    source_of(&mut client, far, answer(2, FREE));
    let own = client.own_address().unwrap().ip();
    assert_eq!(own, IpAddr::from([0, 0, 0, 0]));
}

/// What is logged of a join of node 7 by a client with these hosts, which has to be sent.
fn logged_of_a_join(hosts: &[u32]) -> Vec<String> {
    let node = Node::new(vec![vec![answer(2, "20")]]);
    let mut client = client(&[node.port]);
    let local = IpAddr::from([127, 0, 0, 1]);
    client
        .set_hosts(hosts.iter().map(|host| (*host, local)))
        .unwrap();
    let told = Arc::new(Mutex::new(Vec::new()));
    let kept = told.clone();
    client.set_log(move |event| {
        if event.level() == Level::Warn {
            kept.lock().unwrap().push(event.to_string());
        }
    });
    client.join(7, 7001).unwrap();
    let told = told.lock().unwrap();
    told.clone()
}

#[test]
fn a_join_far_above_the_hosts_is_logged() {
    let far = "node 7 is above twice the greatest other node of the hosts: no smaller number can join after it";
    assert_eq!(logged_of_a_join(&[1, 3]), [far]);
    assert_eq!(logged_of_a_join(&[1, 3, 7]), [far]);
    for hosts in [&[1, 3, 4][..], &[], &[7]] {
        assert!(logged_of_a_join(hosts).is_empty());
    }
}

/// The text of the error of a request that is answered so.
fn told(fields: &str, ask: impl FnOnce(&mut Client) -> Result<(), Error>) -> String {
    let node = Node::new(vec![vec![answer(2, fields)]]);
    ask(&mut client(&[node.port])).unwrap_err().to_string()
}

#[test]
fn each_refusal_names_the_lock_and_what_to_do() {
    let acquire = |client: &mut Client| client.acquire("db").map(drop);
    assert!(told("09", acquire).starts_with("no room for db: "));
    assert!(told("0b", acquire).starts_with("the fences of db are used up; "));
    let not_held = told("04", |client| client.release("db", 3));
    assert!(not_held.starts_with("db is not held at fence 3 by this client: "));
    assert!(
        told("0a", |client| client.break_lock("db", 3).map(drop)).contains("`break db at fence 3`")
    );
    assert!(told("21", |client| client.join(4, 7004)).starts_with("node 4 is used: "));
}
