//! Elections, against nodes of the program that `LOCKS_PROGRAM` names.

#[path = "support/cluster.rs"]
#[allow(dead_code)]
mod support;

use locks_client::{Client, Error, Leader};
use std::sync::atomic::{AtomicBool, Ordering};
use std::sync::mpsc;
use std::thread;
use std::time::{Duration, Instant};
use support::Cluster;

const BEAT: Duration = Duration::from_millis(100);
const DEAD: Duration = Duration::from_millis(600);
const PATIENT: Duration = Duration::from_secs(4); // no beat is so late on a busy machine

/// A raised cluster of one node.
fn cluster() -> Cluster {
    let cluster = Cluster::start(1);
    cluster.client(256).raise_table().unwrap();
    cluster
}

/// The worked example: a candidate that leads, works with its fence as long as it leads, and resigns.
fn candidate(client: &mut Client, is_over: &AtomicBool, tell: impl Fn(u64)) -> Result<(), Error> {
    let mut election = client.election("job")?;
    election.set_times(BEAT, PATIENT);
    while !is_over.load(Ordering::SeqCst) {
        let fence = match election.lead(Duration::from_millis(200)) {
            Ok(fence) => fence,
            Err(Error::Busy { .. }) => continue, // another one leads
            Err(error) => return Err(error),
        };
        while election.beat()? && !is_over.load(Ordering::SeqCst) {
            tell(fence); // a part of the work, for which the resource gets the fence
            thread::sleep(BEAT);
        }
    }
    election.resign()
}

#[test]
#[cfg_attr(not(locks_program), ignore = "LOCKS_PROGRAM names no program")]
fn one_candidate_leads_and_another_one_follows_it() {
    let cluster = cluster();
    let is_over = [(); 2].map(|()| AtomicBool::new(false));
    let (told, heard) = mpsc::channel();
    thread::scope(|scope| {
        for (number, is_over) in (1..).zip(&is_over) {
            let (mut client, told) = (cluster.client(number), told.clone());
            scope.spawn(move || {
                let tell = |fence| told.send((number, fence)).unwrap();
                candidate(&mut client, is_over, tell).unwrap();
            });
        }
        let (first, fence) = heard.recv().unwrap();
        assert_eq!(fence, 1);
        is_over[usize::from(first) - 1].store(true, Ordering::SeqCst);
        let start = Instant::now();
        let second = heard.iter().find(|(number, _)| *number != first);
        assert_eq!(second, Some((3 - first, 2)));
        assert!(start.elapsed() < Duration::from_secs(60));
        is_over[2 - usize::from(first)].store(true, Ordering::SeqCst);
    });
    assert!(cluster.client(3).ask("job").unwrap().fence() >= 2);
}

#[test]
#[cfg_attr(not(locks_program), ignore = "LOCKS_PROGRAM names no program")]
fn a_leader_that_no_longer_beats_is_deposed() {
    let cluster = cluster();
    let (mut dead, mut next) = (cluster.client(1), cluster.client(2));
    let mut leader = dead.election("job").unwrap();
    assert_eq!(leader.lead(Duration::ZERO).unwrap(), 1);
    let mut candidate = next.election("job").unwrap();
    candidate.set_times(BEAT, DEAD);
    let start = Instant::now();
    assert_eq!(candidate.lead(Duration::from_secs(60)).unwrap(), 2);
    assert!(start.elapsed() >= DEAD);
    let now = Leader {
        client: candidate.client().id(),
        fence: 2,
    };
    assert_eq!(leader.leader().unwrap(), Some(now));
    assert!(!leader.beat().unwrap());
    assert_eq!(leader.fence(), None);
    assert!(candidate.beat().unwrap());
    candidate.resign().unwrap();
    assert_eq!(leader.leader().unwrap(), None);
}

#[test]
#[cfg_attr(not(locks_program), ignore = "LOCKS_PROGRAM names no program")]
fn a_leader_that_beats_is_not_deposed() {
    let cluster = cluster();
    let (mut one, mut two) = (cluster.client(1), cluster.client(2));
    let mut leader = one.election("job").unwrap();
    leader.lead(Duration::ZERO).unwrap();
    thread::scope(|scope| {
        let waits = scope.spawn(|| {
            let mut candidate = two.election("job").unwrap();
            candidate.set_times(BEAT, PATIENT);
            candidate.lead(PATIENT * 2).unwrap_err()
        });
        while !waits.is_finished() {
            assert!(leader.beat().unwrap());
            thread::sleep(BEAT);
        }
        let refused = waits.join().unwrap();
        assert!(matches!(refused, Error::Busy { fence: 1, .. }), "{refused}");
    });
}

#[test]
#[cfg_attr(not(locks_program), ignore = "LOCKS_PROGRAM names no program")]
fn a_restarted_leader_leads_again_once_its_lock_is_dead() {
    let cluster = cluster();
    let mut killed = cluster.client_from(1, 1_000);
    assert_eq!(killed.acquire("job").unwrap(), 1);
    assert_eq!(killed.acquire("job/b").unwrap(), 1); // killed in the midst of a beat
    let mut restarted = cluster.client(1);
    let mut candidate = restarted.election("job").unwrap();
    candidate.set_times(BEAT, DEAD);
    assert_eq!(candidate.lead(Duration::from_secs(60)).unwrap(), 2);
    assert!(candidate.beat().unwrap());
    assert!(candidate.beat().unwrap());
    let pulse = candidate.client().ask("job/b").unwrap();
    assert!(pulse.fence() >= 2, "{pulse:?}");
}

#[test]
#[cfg_attr(not(locks_program), ignore = "LOCKS_PROGRAM names no program")]
fn a_candidate_that_was_granted_the_lock_late_leads() {
    let mut cluster = cluster();
    let mut client = cluster.client(1);
    client.open().unwrap();
    cluster.down(1);
    let mut candidate = client.election("job").unwrap();
    candidate.client().set_patience(Duration::from_millis(100));
    assert!(matches!(
        candidate.lead(Duration::ZERO),
        Err(Error::NoAnswer { .. })
    ));
    assert!(matches!(
        candidate.lead(Duration::ZERO),
        Err(Error::NoAnswer { .. })
    ));
    cluster.up(1);
    candidate.client().set_patience(Duration::from_secs(30));
    assert_eq!(candidate.lead(Duration::ZERO).unwrap(), 1);
    assert!(candidate.beat().unwrap());
}

#[test]
#[cfg_attr(not(locks_program), ignore = "LOCKS_PROGRAM names no program")]
fn an_election_has_a_short_name() {
    let cluster = cluster();
    let mut client = cluster.client(1);
    assert!(matches!(client.election(""), Err(Error::Malformed(_))));
    assert!(matches!(
        client.election(&"x".repeat(31)),
        Err(Error::Malformed(_))
    ));
    assert!(
        client
            .election(&"x".repeat(30))
            .unwrap()
            .lead(Duration::ZERO)
            .is_ok()
    );
}
