//! A client against nodes of the program that `LOCKS_PROGRAM` names.

#[path = "support/cluster.rs"]
mod support;

use locks_client::{
    Answer, Client, ClientId, ClusterId, Error, LockState, Numbers, Op, Session, Step, milliseconds,
};
use std::collections::BTreeSet;
use std::net::{SocketAddr, UdpSocket};
use std::sync::atomic::{AtomicU32, Ordering};
use std::time::{Duration, Instant};
use std::{env, fs, process};
use support::{Cluster, free_ports};

#[test]
#[cfg_attr(not(locks_program), ignore = "LOCKS_PROGRAM names no program")]
fn a_lock_goes_from_hand_to_hand() {
    let cluster = Cluster::start(3);
    let (mut one, mut two) = (cluster.client(1), cluster.client(2));
    assert_eq!(one.acquire("db").unwrap(), 1);
    let held = LockState::Held {
        holder: one.id(),
        fence: 1,
    };
    let refused = two.acquire("db").unwrap_err();
    assert!(
        refused
            .to_string()
            .starts_with("db is held at fence 1 by client 1; ")
    );
    assert_eq!(two.ask("db").unwrap(), held);
    assert!(two.check("db", 1).unwrap());
    one.release("db", 1).unwrap();
    assert!(matches!(one.release("db", 1), Err(Error::NotHeld { .. })));
    let lock = two.lock("db", Duration::from_secs(5)).unwrap();
    assert_eq!(lock.fence(), 2);
    assert!(!one.check("db", 1).unwrap());
    lock.release().unwrap();
    assert_eq!(one.ask("db").unwrap(), LockState::Free { fence: 2 });
}

/// Carries a session's steps out until it has an answer. `sees` sees each datagram that it sends.
fn run(session: &mut Session, socket: &UdpSocket, mut sees: impl FnMut(&[u8])) -> Answer {
    let mut buffer = [0; Session::LONGEST];
    loop {
        match session.step(Instant::now()) {
            Step::Send { bytes, to } => {
                sees(&bytes);
                socket.send_to(&bytes, to).unwrap();
            }
            Step::Wait { until } => {
                let left = until.saturating_duration_since(Instant::now());
                let left = left.max(Duration::from_millis(1));
                socket.set_read_timeout(Some(left)).unwrap();
                if let Ok((length, from)) = socket.recv_from(&mut buffer) {
                    session.take(&buffer[..length], from, Instant::now());
                }
            }
            Step::Done(answer) => return answer.unwrap(),
        }
    }
}

/// With a place in the queue of the leader a client asks 2.4 seconds after a Busy at the earliest, and
/// so sends three watches before; without, it asks within a second, after two.
#[test]
#[cfg_attr(not(locks_program), ignore = "LOCKS_PROGRAM names no program")]
fn who_waits_has_a_place_in_the_queue_of_the_leader() {
    let cluster = Cluster::start(3);
    let mut holder = cluster.client(1);
    assert_eq!(holder.acquire("db").unwrap(), 1);
    let socket = UdpSocket::bind(("127.0.0.1", 0)).unwrap();
    let nodes: Vec<_> = (cluster.ports().iter())
        .map(|port| SocketAddr::from(([127, 0, 0, 1], *port)))
        .collect();
    let (id, numbers) = (ClientId::new(2).unwrap(), Numbers::from_first(1).unwrap());
    let mut session = Session::new(ClusterId::new(5), id, &nodes, numbers).unwrap();
    session.open(Instant::now(), Duration::MAX).unwrap();
    run(&mut session, &socket, |_| {});
    let op = Op::Acquire("db".to_owned());
    let wait = Duration::from_secs(120);
    session.begin_wait(op, Instant::now(), wait, wait).unwrap();
    let mut watches = BTreeSet::new();
    let answer = run(&mut session, &socket, |bytes| {
        if !bytes.starts_with(b"LW") {
            watches.clear();
        } else if watches.insert(bytes[18..26].to_vec()) && watches.len() == 3 {
            drop(holder.release("db", 1));
        }
    });
    assert_eq!(answer, Answer::Granted(2));
}

#[test]
#[cfg_attr(not(locks_program), ignore = "LOCKS_PROGRAM names no program")]
fn each_node_may_be_asked() {
    let cluster = Cluster::start(3);
    assert_eq!(cluster.client(1).acquire("db").unwrap(), 1);
    for (number, port) in (2..).zip(cluster.ports()) {
        let numbers = Numbers::from_first(1).unwrap();
        let id = ClientId::new(number).unwrap();
        let mut client = Client::new(ClusterId::new(5), id, &[port], numbers).unwrap();
        assert!(client.check("db", 1).unwrap());
    }
}

#[test]
#[cfg_attr(not(locks_program), ignore = "LOCKS_PROGRAM names no program")]
fn the_death_of_each_node_is_survived() {
    let mut cluster = Cluster::start(3);
    let mut client = cluster.client(1);
    for (fence, node) in (1..).zip(1..=3) {
        assert_eq!(client.acquire("db").unwrap(), fence);
        cluster.down(node);
        client.release("db", fence).unwrap();
        cluster.up(node);
    }
}

#[test]
#[cfg_attr(not(locks_program), ignore = "LOCKS_PROGRAM names no program")]
fn members_join_and_leave() {
    let mut cluster = Cluster::start(3);
    let (mut client, port) = (cluster.client(1), free_ports(1)[0]);
    assert!(matches!(client.join(3, port), Err(Error::Used { .. })));
    client.join(4, port).unwrap();
    cluster.add(port);
    client.leave(4).unwrap();
    assert!(matches!(client.leave(9), Err(Error::NotMember { .. })));
}

#[test]
#[cfg_attr(not(locks_program), ignore = "LOCKS_PROGRAM names no program")]
fn a_raised_table_is_shared_and_broken() {
    let cluster = Cluster::start(3);
    let (mut one, mut two) = (cluster.client(1), cluster.client(2));
    assert!(matches!(one.share("db"), Err(Error::Bad { .. })));
    assert!(one.raise_table().unwrap());
    assert!(!two.raise_table().unwrap());
    assert_eq!(one.share("db").unwrap(), 1);
    assert_eq!(two.share_within("db", Duration::ZERO).unwrap(), 1);
    let both = LockState::HeldShared {
        holders: 2,
        fence: 1,
    };
    assert_eq!(two.ask("db").unwrap(), both);
    assert!(matches!(two.acquire("db"), Err(Error::Busy { .. })));
    assert!(two.break_lock("db", 1).unwrap());
    assert!(!two.break_lock("db", 1).unwrap());
    assert_eq!(two.acquire("db").unwrap(), 2);
}

#[test]
#[cfg_attr(not(locks_program), ignore = "LOCKS_PROGRAM names no program")]
fn a_number_that_was_used_is_noticed() {
    let cluster = Cluster::start(3);
    // number 1 is the Ask with which the run begins, and number 2 the acquire
    assert_eq!(cluster.client_from(1, 1).acquire("db").unwrap(), 1);
    let mut again = cluster.client_from(1, 2);
    let refused = again.acquire("other").unwrap_err();
    assert!(matches!(refused, Error::OtherAnswer { .. }), "{refused}");
    assert_eq!(again.ask("other").unwrap(), LockState::Free { fence: 0 });
    assert!(again.check("db", 1).unwrap());
    assert!(matches!(
        cluster.client_from(1, 1).ask("db"),
        Err(Error::Passed { last: 5, .. })
    ));
}

#[test]
#[cfg_attr(not(locks_program), ignore = "LOCKS_PROGRAM names no program")]
fn a_share_that_was_not_sent_is_withdrawn_alone() {
    let mut cluster = Cluster::start(1);
    let (mut one, mut two) = (cluster.client(1), cluster.client(2));
    one.raise_table().unwrap();
    assert_eq!(one.share("db").unwrap(), 1);
    cluster.down(1);
    two.set_patience(Duration::from_millis(100));
    assert!(matches!(
        two.share("db"),
        Err(Error::NoAnswer { is_sent: false, .. })
    ));
    assert!(!two.withdraw().unwrap());
    cluster.up(1);
    two.set_patience(Duration::from_secs(30));
    let alone = LockState::HeldShared {
        holders: 1,
        fence: 1,
    };
    assert_eq!(two.ask("db").unwrap(), alone);
}

#[test]
#[cfg_attr(not(locks_program), ignore = "LOCKS_PROGRAM names no program")]
fn a_share_of_an_earlier_run_is_left_until_it_is_adopted() {
    let cluster = Cluster::start(1);
    let (mut other, mut earlier) = (cluster.client(2), cluster.client_from(1, 1_000));
    other.raise_table().unwrap();
    assert_eq!(earlier.share("db").unwrap(), 1);
    assert_eq!(other.share("db").unwrap(), 1);
    let mut later = cluster.client(1);
    let refused = later.lock_shared("db", Duration::MAX).unwrap_err();
    assert!(matches!(refused, Error::SharedBefore { fence: 1, .. }));
    let both = LockState::HeldShared {
        holders: 2,
        fence: 1,
    };
    assert_eq!(other.ask("db").unwrap(), both);
    later.adopt("db", 1).unwrap().release().unwrap();
    let mut lock = later.lock_shared("db", Duration::MAX).unwrap();
    assert_eq!(lock.client().ask("db").unwrap(), both);
    lock.release().unwrap();
}

#[test]
#[cfg_attr(not(locks_program), ignore = "LOCKS_PROGRAM names no program")]
fn a_restored_state_file_gives_no_lock() {
    let cluster = Cluster::start(1);
    let folder = env::temp_dir().join(format!("locks-restored-{}", process::id()));
    fs::create_dir_all(&folder).unwrap();
    let (path, copy) = (folder.join("number"), folder.join("copy"));
    let numbers = Numbers::begun_in(&path, milliseconds()).unwrap();
    cluster.client_of(7, numbers).open().unwrap();
    fs::copy(&path, &copy).unwrap();
    let mut killed = cluster.client_of(7, Numbers::kept_in(&path).unwrap());
    killed.acquire("ra").unwrap();
    let mut restored = cluster.client_of(7, Numbers::kept_in(&copy).unwrap());
    let refused = restored.acquire("rb").unwrap_err();
    assert!(matches!(refused, Error::Passed { is_sent: false, .. }));
    assert_eq!(restored.holds().count(), 0);
    let rb = cluster.client(8).ask("rb").unwrap();
    assert_eq!(rb, LockState::Free { fence: 0 });
    drop((killed, restored));
    fs::remove_dir_all(folder).unwrap();
}

#[test]
#[cfg_attr(not(locks_program), ignore = "LOCKS_PROGRAM names no program")]
fn a_grant_of_an_earlier_run_is_not_withdrawn() {
    let mut cluster = Cluster::start(1);
    assert_eq!(cluster.client(1).acquire("db").unwrap(), 1);
    let mut later = cluster.client(1);
    later.ask("db").unwrap();
    cluster.down(1);
    later.set_patience(Duration::from_millis(100));
    assert!(matches!(later.acquire("db"), Err(Error::NoAnswer { .. })));
    cluster.up(1);
    later.set_patience(Duration::from_secs(30));
    assert!(!later.withdraw().unwrap());
    assert!(later.check("db", 1).unwrap());
}

#[test]
#[cfg_attr(not(locks_program), ignore = "LOCKS_PROGRAM names no program")]
fn a_lost_number_has_a_way_out() {
    let cluster = Cluster::start(1);
    assert_eq!(cluster.client_from(1, 5_000).acquire("db").unwrap(), 1);
    let mut lost = cluster.client_from(1, 1);
    assert!(matches!(
        lost.release("db", 1),
        Err(Error::Passed { last: 5_001, .. })
    ));
    assert!(matches!(
        lost.release("db", 1),
        Err(Error::Passed { last: 5_001, .. })
    ));
    lost.skip_to(5_002).unwrap();
    lost.release("db", 1).unwrap();
}

#[test]
#[cfg_attr(not(locks_program), ignore = "LOCKS_PROGRAM names no program")]
fn a_lock_that_is_broken_is_noticed_by_its_watch() {
    let cluster = Cluster::start(1);
    let (mut client, mut other) = (cluster.client(1), cluster.client(2));
    other.raise_table().unwrap();
    let mut lock = client.lock("db", Duration::ZERO).unwrap();
    let losses = AtomicU32::new(0);
    let on_lost = || {
        losses.fetch_add(1, Ordering::SeqCst);
    };
    let lost = lock.watch_every(Duration::from_millis(50), on_lost, |watch| {
        let is_lost_before = watch.wait_lost(Duration::from_millis(200));
        assert!(other.break_lock("db", watch.fence()).unwrap());
        (is_lost_before, watch.wait_lost(Duration::from_secs(30)))
    });
    assert_eq!(lost.unwrap(), (false, true));
    assert_eq!(losses.into_inner(), 1);
    assert!(matches!(lock.release(), Err(Error::NotHeld { .. })));
}
