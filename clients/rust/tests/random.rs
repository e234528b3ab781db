//! Random runs of a session against a node in memory: datagrams are lost, doubled and late, notices say
//! anything, calls are cancelled, locks are broken, and runs are killed and begin again with numbers of
//! any age.

#[path = "support/model.rs"]
mod support;

use locks_client::{Answer, ClientId, ClusterId, Error, Event, Numbers, Op, Session, Step};
use std::collections::BTreeSet;
use std::net::SocketAddr;
use std::sync::{Arc, Mutex};
use std::time::{Duration, Instant};
use support::Model;

const OWN: u16 = 7;
const OTHER: u16 = 8;
const NAMES: [&str; 3] = ["a", "b", "c"];

/// Random numbers, the same for the same seed.
struct Random(u64);

impl Random {
    fn below(&mut self, limit: u64) -> u64 {
        self.0 ^= self.0 << 13;
        self.0 ^= self.0 >> 7;
        self.0 ^= self.0 << 17;
        (self.0 >> 20) % limit
    }

    fn is_one_in(&mut self, count: u64) -> bool {
        self.below(count) == 0
    }

    fn name(&mut self) -> String {
        NAMES[self.below(3) as usize].to_owned()
    }
}

struct World {
    random: Random,
    model: Model,
    session: Session,
    now: Instant,
    // requests and notices that may arrive again
    late: Vec<Vec<u8>>,
    notices: Vec<Vec<u8>>,
    // what runs before this one hold; what was broken, or may be released already
    earlier: BTreeSet<(String, u64)>,
    broken: BTreeSet<(String, u64)>,
    // the locks of which the caller was told that they may be held
    told: Arc<Mutex<BTreeSet<String>>>,
}

fn node() -> SocketAddr {
    ([127, 0, 0, 1], 7001).into()
}

/// A session whose given up requests are told.
fn session(first: u64, told: &Arc<Mutex<BTreeSet<String>>>) -> Session {
    let numbers = Numbers::from_first(first.max(1)).unwrap();
    let id = ClientId::new(OWN).unwrap();
    let mut session = Session::new(ClusterId::new(5), id, &[node()], numbers).unwrap();
    let told = Arc::clone(told);
    session.set_log(move |event| {
        if let Event::GivenUp {
            name: Some(name), ..
        } = event
        {
            told.lock().unwrap().insert((*name).to_owned());
        }
    });
    session
}

impl World {
    fn new(seed: u64) -> World {
        let told = Arc::default();
        World {
            random: Random(seed),
            model: Model::default(),
            session: session(1, &told),
            now: Instant::now(),
            late: Vec::new(),
            notices: Vec::new(),
            earlier: BTreeSet::new(),
            broken: BTreeSet::new(),
            told,
        }
    }

    /// What the model says that this client holds.
    fn held(&self) -> BTreeSet<(String, u64)> {
        let rows = self.model.table.iter();
        let own = rows.filter(|(_, row)| row.holders.contains(&OWN));
        own.map(|(name, row)| (name.clone(), row.fence)).collect()
    }

    /// One datagram to the node, and its reply back, if neither is lost.
    fn deliver(&mut self, bytes: Vec<u8>) {
        if self.random.is_one_in(4) {
            return;
        }
        if bytes.starts_with(b"LW") {
            return self.notify(bytes);
        }
        let reply = self.model.reply(&bytes);
        self.late.push(bytes);
        if !self.random.is_one_in(4) {
            self.session.take(&reply, node(), self.now);
        }
        if self.random.is_one_in(8) {
            let again = self.random.below(self.late.len() as u64) as usize;
            let reply = self.model.reply(&self.late[again].clone());
            self.session.take(&reply, node(), self.now);
        }
    }

    /// Answers a watch by a notice that says anything, true or not, and sometimes by an earlier one.
    fn notify(&mut self, watch: Vec<u8>) {
        let mut notice = watch;
        (notice[3], notice[15]) = (10, 1);
        notice[68] = 1 + self.random.below(3) as u8;
        notice[70] = self.random.below(3) as u8;
        self.session.take(&notice, node(), self.now);
        self.notices.push(notice);
        if self.random.is_one_in(4) {
            let again = self.random.below(self.notices.len() as u64) as usize;
            let notice = self.notices[again].clone();
            self.session.take(&notice, node(), self.now);
        }
    }

    /// Steps until the request is done, or the caller leaves it.
    fn run(&mut self) -> Option<Result<Answer, Error>> {
        loop {
            match self.session.step(self.now) {
                Step::Done(done) => return Some(done),
                Step::Send { bytes, .. } => self.deliver(bytes),
                Step::Wait { until } => self.now = until,
            }
            if !self.session.is_waiting() && self.random.is_one_in(6) {
                self.other(); // between two requests for a lock that is waited for
            }
            if self.random.is_one_in(30) {
                return None;
            }
        }
    }

    /// What the caller is told by the end of a request.
    fn hear(&mut self, done: &Option<Result<Answer, Error>>, wanted: Option<String>) {
        let mut told = self.told.lock().unwrap();
        match done {
            // the caller knows that its own request is open
            None => told.extend(wanted),
            Some(Err(Error::NoAnswer { op, .. } | Error::Passed { op, .. })) => {
                told.extend(op.name().map(str::to_owned));
            }
            Some(Err(Error::SharedBefore { name, .. })) => drop(told.insert(name.clone())),
            _ => {}
        }
    }

    fn ask(&mut self, op: Op) {
        let wanted = match &op {
            Op::Acquire(name) | Op::Share(name) => Some(name.clone()),
            _ => None,
        };
        if let Op::Release(name, fence) = &op {
            self.broken.insert((name.clone(), *fence));
        }
        let patience = Duration::from_secs(self.random.below(9));
        let begun = match wanted.is_some() && self.random.is_one_in(2) {
            true => {
                let wait = Duration::from_secs(self.random.below(9));
                self.session.begin_wait(op, self.now, wait, patience)
            }
            false => self.session.begin(op, self.now, patience),
        };
        if begun.is_ok() {
            let done = self.run();
            self.hear(&done, wanted.clone());
            self.recover(done);
        }
        if !self.session.is_waiting() && self.random.is_one_in(3) {
            let done = self.run(); // goes on with a wait that the caller has left
            self.hear(&done, wanted);
            self.recover(done);
        }
    }

    /// Does what the texts of errors say.
    fn recover(&mut self, done: Option<Result<Answer, Error>>) {
        match done {
            Some(Err(Error::Passed { last, .. })) => self.session.skip_to(last + 1_000).unwrap(),
            Some(Err(Error::OtherAnswer { .. })) => {
                let last = self.model.last[&OWN].0;
                self.session.skip_to(last + 1_000).unwrap();
            }
            _ => {}
        }
    }

    fn go_on(&mut self) {
        if self.random.is_one_in(3) {
            return self.session.forget();
        }
        let patience = Duration::from_secs(9);
        if self.session.resume(self.now, patience).is_ok() {
            let done = self.run();
            self.hear(&done, None);
            self.recover(done);
        }
    }

    fn some_op(&mut self) -> Op {
        let name = self.random.name();
        let held = self
            .session
            .holds()
            .map(|(name, fence)| (name.to_owned(), fence))
            .next();
        match (self.random.below(6), held) {
            (0 | 1, _) => Op::Acquire(name),
            (2, _) => Op::Share(name),
            (3, _) => Op::Ask(name),
            (4, Some((name, fence))) => Op::Check(name, fence),
            (_, Some((name, fence))) => Op::Release(name, fence),
            (_, None) => Op::Share(name),
        }
    }

    /// Another client comes, goes, or breaks what is held.
    fn other(&mut self) {
        let name = self.random.name();
        let row = self.model.row(&name);
        let held = (name.clone(), row.fence);
        let body = |kind: u8, fence: u64| {
            let mut body = vec![kind, 1, name.as_bytes()[0]];
            body.extend(fence.to_be_bytes());
            body
        };
        match self.random.below(4) {
            0 => drop(self.model.executed(OTHER, &body(5, 0))),
            1 => drop(self.model.executed(OTHER, &body(1, 0))),
            2 => drop(self.model.executed(OTHER, &body(2, held.1))),
            _ => {
                self.model.row(&name).clear();
                self.broken.insert(held);
            }
        }
    }

    /// Kills this run. The next one begins above all numbers, or with those of an old state file.
    fn restart(&mut self) {
        self.earlier = self.held();
        let last = self.model.last.get(&OWN).map_or(0, |(last, _)| *last);
        let first = match self.random.below(3) {
            0 => last + 1 + self.random.below(9),
            _ => (last + 1).saturating_sub(self.random.below(5)),
        };
        self.session = session(first, &self.told);
        self.told.lock().unwrap().clear();
    }

    fn check(&self, step: usize) {
        for (name, fence) in self.session.holds() {
            let hold = (name.to_owned(), fence);
            let is_held = self.model.is_held(OWN, name, fence) || self.broken.contains(&hold);
            assert!(is_held, "step {step}: believes {hold:?}");
            assert!(
                !self.earlier.contains(&hold),
                "step {step}: took {hold:?} of an earlier run"
            );
        }
        let told = self.told.lock().unwrap();
        for hold in self.held() {
            let is_known = self.session.holds().any(|(name, _)| name == hold.0)
                || told.contains(&hold.0)
                || self.earlier.contains(&hold);
            assert!(is_known, "step {step}: {hold:?} is held untold");
        }
    }
}

#[test]
fn nothing_is_believed_that_is_not_held_and_nothing_held_untold() {
    let mut notices = 0;
    for seed in 1..400 {
        let mut world = World::new(seed * 7_919);
        for step in 0..200 {
            match world.random.below(20) {
                0 => world.restart(),
                // no client joins while a share is open, so that counting sharers is exact
                1..4 if !world.session.is_waiting() => world.other(),
                _ if world.session.is_waiting() => world.go_on(),
                _ => {
                    let op = world.some_op();
                    world.ask(op);
                }
            }
            world.check(step + 1_000 * seed as usize);
        }
        notices += world.notices.len();
    }
    assert!(notices > 5_000, "{notices}");
}
