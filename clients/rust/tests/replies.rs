//! A client against nodes that reply what a test says.

#[path = "support/scripted.rs"]
mod support;

use locks_client::{Client, ClientId, ClusterId, Error, LockState, Numbers};
use std::sync::{Arc, Mutex};
use std::time::{Duration, Instant};
use support::{
    BUSY, FREE, GRANTED, Node, OWN_BUSY, RELEASED, answer, client, elsewhere, hex, op, reply,
};

const ACQUIRE: &str = "4c4b0109 0000000000000005 00000000 0007 0000000000000002 00 04 01026462";

#[test]
fn the_exchange_of_the_page() {
    let node = Node::new(vec![vec![answer(2, GRANTED)], vec![answer(3, RELEASED)]]);
    let mut client = client(&[node.port]);
    assert_eq!(client.acquire("db").unwrap(), 1);
    client.release("db", 1).unwrap();
    let release =
        "4c4b0109 0000000000000005 00000000 0007 0000000000000003 00 0c 02026462 0000000000000001";
    assert_eq!(node.heard(), [hex(ACQUIRE), hex(release)]);
}

#[test]
fn a_silent_node_is_left_for_the_next() {
    let silent = Node::new(vec![vec![answer(10, GRANTED)]]);
    let node = Node::new(vec![vec![answer(2, GRANTED)], vec![answer(3, RELEASED)]]);
    let mut client = client(&[silent.port, node.port]);
    assert_eq!(client.acquire("db").unwrap(), 1);
    client.release("db", 1).unwrap();
    assert_eq!(silent.heard(), [hex(ACQUIRE)]);
    assert_eq!(node.heard().len(), 2);
}

#[test]
fn elsewhere_is_followed() {
    let leader = Node::new(vec![vec![answer(2, GRANTED)]]);
    let node = Node::new(vec![vec![elsewhere(leader.port)]]);
    assert_eq!(client(&[node.port]).acquire("db").unwrap(), 1);
    assert_eq!(leader.heard(), [hex(ACQUIRE)]);
}

#[test]
fn refusals_and_states_are_told() {
    let asked = |fields: &str| client(&[Node::new(vec![vec![answer(2, fields)]]).port]);
    let busy = asked(BUSY).acquire("db");
    let told = "db is held at fence 3 by client 8; ";
    assert!(busy.unwrap_err().to_string().starts_with(told));
    let free = asked("05 0000000000000000").ask("db").unwrap();
    assert_eq!(free, LockState::Free { fence: 0 });
    let shared = asked("0d 02 0000000000000001").ask("db").unwrap();
    let both = LockState::HeldShared {
        holders: 2,
        fence: 1,
    };
    assert_eq!(shared, both);
    assert!(matches!(
        asked("04").release("db", 1),
        Err(Error::NotHeld { .. })
    ));
    assert!(!asked("08").break_lock("db", 1).unwrap());
    assert!(asked("26").raise_table().unwrap());
    assert!(matches!(
        asked("03").acquire("db"),
        Err(Error::OtherAnswer { .. })
    ));
}

#[test]
fn a_number_that_was_passed_ends_the_request() {
    let node = Node::new(vec![vec![reply(12, 2, "0000000000000009")]]);
    let mut client = client(&[node.port]);
    assert!(matches!(
        client.acquire("db"),
        Err(Error::Passed { last: 9, .. })
    ));
    assert!(!client.is_waiting());
}

#[test]
fn a_lock_is_asked_for_until_it_is_granted() {
    let node = Node::new(vec![vec![answer(2, BUSY)], vec![answer(3, GRANTED)]]);
    let mut client = client(&[node.port]);
    let fence = client.acquire_within("db", Duration::from_secs(10));
    assert_eq!(fence.unwrap(), 1);
}

#[test]
fn a_lock_is_asked_for_until_a_deadline() {
    let node = Node::new((2..10).map(|number| vec![answer(number, BUSY)]).collect());
    let (mut client, start) = (client(&[node.port]), Instant::now());
    let busy = client.acquire_within("db", Duration::from_millis(300));
    assert!(matches!(busy, Err(Error::Busy { .. })));
    assert!((300..20_000).contains(&start.elapsed().as_millis()));
}

#[test]
fn a_short_wait_asks_again_too() {
    let node = Node::new(vec![vec![answer(2, BUSY)], vec![answer(3, GRANTED)]]);
    let mut client = client(&[node.port]);
    client.set_patience(Duration::from_millis(100));
    let fence = client.acquire_within("db", Duration::from_secs(5));
    assert_eq!(fence.unwrap(), 1);
}

#[test]
fn a_wait_ends_in_time_where_no_answer_comes() {
    let node = Node::new(vec![vec![]; 9]);
    let (mut client, start) = (client(&[node.port]), Instant::now());
    client.set_patience(Duration::from_millis(1500));
    let refused = client.acquire_within("db", Duration::from_millis(1600));
    assert!(matches!(refused, Err(Error::NoAnswer { .. })));
    assert!((1600..20_000).contains(&start.elapsed().as_millis()));
    assert!(client.is_waiting());
}

#[test]
fn what_this_client_holds_itself_is_not_waited_for() {
    let node = Node::new(vec![vec![answer(2, OWN_BUSY)]]);
    let busy = client(&[node.port]).acquire_within("db", Duration::MAX);
    let told = "db is held at fence 3 by this client itself (7), ";
    assert!(busy.unwrap_err().to_string().starts_with(told));
}

#[test]
fn what_has_no_answer_is_asked_again_or_given_up() {
    let held = answer(3, "06 0007 0000000000000003");
    let node = Node::new(vec![vec![], vec![], vec![held], vec![answer(4, RELEASED)]]);
    let mut client = client(&[node.port]);
    client.set_patience(Duration::from_millis(100));
    assert!(matches!(client.acquire("db"), Err(Error::NoAnswer { .. })));
    assert!(matches!(client.ask("db"), Err(Error::Unanswered { .. })));
    assert!(matches!(client.again(), Err(Error::NoAnswer { .. })));
    client.set_patience(Duration::from_secs(5));
    let held = LockState::Held {
        holder: client.id(),
        fence: 3,
    };
    assert_eq!(client.give_up("db").unwrap(), held);
    assert!(matches!(client.again(), Err(Error::NothingAsked)));
    assert!(matches!(client.withdraw(), Err(Error::NothingAsked)));
    client.release("db", 3).unwrap();
    assert_eq!(node.ops()[2..], [op(3, None), op(2, Some(3))]);
}

/// What a withdraw comes to where the request without an answer is answered so, and the ops that
/// the node hears by it. A share is preceded by an Ask.
fn withdrawn(is_shared: bool, fields: &str) -> (bool, Vec<Vec<u8>>) {
    let asks = u64::from(is_shared);
    let mut rows = vec![vec![answer(2, FREE)]; asks as usize];
    rows.extend([vec![], vec![answer(2 + asks, fields)]]);
    if fields != OWN_BUSY {
        rows.push(vec![answer(3 + asks, RELEASED)]);
    }
    let node = Node::new(rows);
    let mut client = client(&[node.port]);
    client.set_patience(Duration::from_millis(300));
    let asked = match is_shared {
        true => client.share("db"),
        false => client.acquire("db"),
    };
    assert!(matches!(asked, Err(Error::NoAnswer { is_sent: true, .. })));
    client.set_patience(Duration::from_secs(5));
    let was_granted = client.withdraw().unwrap();
    assert!(!client.is_waiting());
    (was_granted, node.ops()[1 + asks as usize..].to_vec())
}

#[test]
fn a_grant_is_withdrawn() {
    let ops = vec![op(1, None), op(2, Some(1))];
    assert_eq!(withdrawn(false, GRANTED), (true, ops));
}

#[test]
fn a_share_is_withdrawn() {
    let ops = vec![op(5, None), op(2, Some(4))];
    let shared = "0c 0000000000000004";
    assert_eq!(withdrawn(true, shared), (true, ops));
}

#[test]
fn a_grant_of_an_earlier_run_is_not_withdrawn() {
    assert_eq!(withdrawn(false, OWN_BUSY), (false, vec![op(1, None)]));
    assert_eq!(withdrawn(true, OWN_BUSY), (false, vec![op(5, None)]));
}

#[test]
fn a_grant_that_was_broken_meanwhile_is_withdrawn() {
    let rows = vec![vec![], vec![answer(2, GRANTED)], vec![answer(3, "04")]];
    let node = Node::new(rows);
    let mut client = client(&[node.port]);
    client.set_patience(Duration::from_millis(200));
    assert!(matches!(client.acquire("db"), Err(Error::NoAnswer { .. })));
    client.set_patience(Duration::from_secs(5));
    assert!(client.withdraw().unwrap());
}

#[test]
fn a_withdraw_goes_on_where_its_release_has_no_answer() {
    let node = Node::new(vec![
        vec![],
        vec![answer(2, GRANTED)],
        vec![],
        vec![answer(3, RELEASED)],
    ]);
    let mut client = client(&[node.port]);
    client.set_patience(Duration::from_millis(300));
    assert!(matches!(client.acquire("db"), Err(Error::NoAnswer { .. })));
    assert!(matches!(client.withdraw(), Err(Error::NoAnswer { .. })));
    client.set_patience(Duration::from_secs(5));
    assert!(client.withdraw().unwrap());
    assert_eq!(node.ops()[2..], [op(2, Some(1)), op(2, Some(1))]);
}

#[test]
fn numbers_that_were_passed_are_skipped() {
    let node = Node::new(vec![
        vec![reply(12, 2, "0000000000000009")],
        vec![answer(10, FREE)],
        vec![answer(11, GRANTED)],
    ]);
    let mut client = client(&[node.port]);
    assert!(matches!(
        client.acquire("db"),
        Err(Error::Passed { last: 9, .. })
    ));
    client.skip_to(10).unwrap();
    assert_eq!(client.acquire("db").unwrap(), 1);
}

#[test]
fn a_client_has_a_number_and_ports() {
    for number in [0, 257] {
        let refused = ClientId::new(number).unwrap_err().to_string();
        assert_eq!(
            refused,
            format!("invalid client {number}: must be 1 to 256")
        );
    }
    for ports in [&[][..], &[0], &[7001, 0]] {
        let (numbers, id) = (Numbers::from_first(1).unwrap(), ClientId::new(7).unwrap());
        let refused = Client::new(ClusterId::new(5), id, ports, numbers);
        assert!(matches!(refused, Err(Error::Malformed(_))));
    }
}

/// What the client logs.
fn logged(client: &mut Client) -> Arc<Mutex<Vec<String>>> {
    let events = Arc::new(Mutex::new(Vec::new()));
    let kept = Arc::clone(&events);
    client.set_log(move |event| kept.lock().unwrap().push(event.to_string()));
    events
}

#[test]
fn events_are_told() {
    let node = Node::new(vec![vec![answer(2, BUSY)], vec![answer(3, GRANTED)]]);
    let mut client = client(&[node.port]);
    let events = logged(&mut client);
    client
        .acquire_within("db", Duration::from_secs(10))
        .unwrap();
    let port = node.port;
    let mut events = events.lock().unwrap().clone();
    assert!(
        events
            .remove(2)
            .starts_with("db is held at fence 3 by client 8: asks again in ")
    );
    let expected = [
        format!("request 2 sent to port {port}"),
        format!("request 2: port {port} answers busy 8 3"),
        format!("request 3 sent to port {port}"),
        format!("request 3: port {port} answers granted 1"),
    ];
    assert_eq!(events, expected);
}

#[test]
fn a_client_and_its_errors_may_go_to_another_thread() {
    fn may_go<T: Send + Sync + 'static>() {}
    may_go::<Client>();
    may_go::<Numbers>();
    may_go::<Error>();
}
