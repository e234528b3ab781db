//! The open request, and the handling of its answers.

use crate::exchange::Exchange;
use crate::numbers::Use;
use crate::{Answer, Error, Event, Op, Session};
use std::time::{Duration, Instant};

/// The name in the Ask that begins a run.
const OPENING: &str = "opening";

/// The part of a request that awaits its answer.
#[derive(Clone, Copy, Debug, PartialEq, Eq)]
enum Part {
    /// The Ask that begins a run. Its answer may be one that was stored for an earlier Ask.
    Opening,
    /// The Ask that precedes a share.
    Before,
    /// The op itself.
    Op,
    /// The Ask that follows a share at this fence, which others held before.
    Counting(u64),
}

/// A request that has no answer yet.
#[derive(Debug)]
pub(crate) struct Open {
    pub(crate) op: Op,
    part: Part,
    number: u64,
    used_for: Use,
    // how many clients shared the name before, and at which fence
    before: Option<(u8, u64)>,
}

impl Open {
    /// The number of the current part.
    pub(crate) fn number(&self) -> u64 {
        self.number
    }

    /// Whether a node may have received the op itself.
    pub(crate) fn is_sent(&self) -> bool {
        matches!(self.part, Part::Op | Part::Counting(_))
    }

    /// The op of the current part.
    pub(crate) fn asked(&self) -> Op {
        match (self.part, &self.op) {
            (Part::Before | Part::Counting(_), Op::Share(name)) => Op::Ask(name.clone()),
            (Part::Opening, _) => Op::Ask(OPENING.to_owned()),
            (_, op) => op.clone(),
        }
    }
}

type Done = Option<Result<Answer, Error>>;

/// The first part of a request of a run that has begun.
fn first_part(op: &Op) -> Part {
    match op {
        Op::Share(_) => Part::Before,
        _ => Part::Op,
    }
}

/// A share that may be one of an earlier run.
fn shared_before(op: &Op, fence: u64) -> Error {
    let name = op.name().unwrap_or_default().to_owned();
    Error::SharedBefore { name, fence }
}

impl Session {
    /// Begins a request under a new number, which waits for its answer for `patience`.
    ///
    /// The first one of a run, and the first after [`Error::Passed`], [`Error::OtherAnswer`] and
    /// [`Session::skip_to`], is preceded by an Ask, whose answer shows whether the numbers were used
    /// before. A share is always preceded by an Ask and may be followed by another one: they show
    /// whether an earlier run took it ([`Error::SharedBefore`]).
    ///
    /// Nothing is sent after an error: [`Error::Unanswered`] if another request is open,
    /// [`Error::Malformed`] if the op is out of range, [`Error::Busy`] if it is a share of a name that
    /// this run already holds, [`Error::State`] if the number cannot be saved.
    pub fn begin(&mut self, op: Op, now: Instant, patience: Duration) -> Result<(), Error> {
        if let Op::Share(name) = &op
            && let Some(fence) = self.holds.get(name)
        {
            let busy = Error::busy(name, self.id(), *fence);
            return Err(busy.seen_by(self.id()));
        }
        let part = match self.is_begun {
            true => first_part(&op),
            false => Part::Opening,
        };
        self.begin_at(part, op.used_for(), op)?;
        self.warn_of_join();
        self.resume(now, patience)
    }

    /// Logs an open join whose node is far above the hosts.
    fn warn_of_join(&mut self) {
        let Some(Open {
            op: Op::Join(node, _),
            ..
        }) = self.open
        else {
            return;
        };
        if self.is_far(node) {
            self.log.tell(&Event::FarJoin { node });
        }
    }

    /// Whether a number is above twice that of each other host. Not where there is none.
    fn is_far(&self, node: u32) -> bool {
        let others = self.hosts.keys().filter(|host| **host != node);
        others
            .max()
            .is_some_and(|greatest| node > greatest.saturating_mul(2))
    }

    /// Begins an Ask that may use the numbers reserved for freeing locks.
    pub(crate) fn begin_ask(
        &mut self,
        used_for: Use,
        name: &str,
        now: Instant,
        patience: Duration,
    ) -> Result<(), Error> {
        let part = match self.is_begun {
            true => Part::Op,
            false => Part::Opening,
        };
        self.begin_at(part, used_for, Op::Ask(name.to_owned()))?;
        self.resume(now, patience)
    }

    /// Begins a share without the check for an earlier run.
    pub(crate) fn begin_adoption(
        &mut self,
        name: &str,
        now: Instant,
        patience: Duration,
    ) -> Result<(), Error> {
        self.begin_at(Part::Op, Use::Request, Op::Share(name.to_owned()))?;
        self.resume(now, patience)
    }

    fn begin_at(&mut self, part: Part, used_for: Use, op: Op) -> Result<(), Error> {
        if let Some(open) = &self.open {
            let op = open.op.clone();
            return Err(Error::Unanswered { op });
        }
        op.write(&mut Vec::new())?; // so that nothing malformed uses a number up
        let number = self.numbers.take(used_for)?;
        if op.wanted().is_some() {
            self.unknown = None;
        }
        let before = None;
        self.open = Some(Open {
            op,
            part,
            number,
            used_for,
            before,
        });
        Ok(())
    }

    /// Sends the Ask that begins a run now. If a request is open, resumes that one instead.
    pub fn open(&mut self, now: Instant, patience: Duration) -> Result<(), Error> {
        if !self.is_waiting() {
            self.begin_at(Part::Op, Use::Request, Op::Ask(OPENING.to_owned()))?;
        }
        self.resume(now, patience)
    }

    /// Resumes the open request with this patience. It takes effect at most once. A wait for its lock
    /// ends: this yields the one answer.
    ///
    /// [`Error::NothingAsked`] if none is open.
    pub fn resume(&mut self, now: Instant, patience: Duration) -> Result<(), Error> {
        self.end_wait();
        if self.open.is_none() {
            return Err(Error::NothingAsked);
        }
        self.numbers.of_this_process()?;
        let address = self.leader.unwrap_or(self.addresses[self.turn]);
        self.exchange = Some(Exchange::new(address, now, patience));
        Ok(())
    }

    /// Gives up the open request, if any. Once the next request is answered, it has taken effect or
    /// never will.
    pub fn forget(&mut self) {
        self.end_wait();
        self.exchange = None;
        let Some(open) = self.open.take().filter(Open::is_sent) else {
            return;
        };
        let (number, name) = (open.number, open.op.wanted());
        self.log.tell(&Event::GivenUp { number, name });
        self.doubt(&open.op);
    }

    /// Records that it is unknown whether an acquire or a share was granted.
    fn doubt(&mut self, op: &Op) {
        if let Some(name) = op.wanted() {
            self.unknown = Some(name.to_owned());
        }
    }

    /// The result of the request, or nothing if its next part is sent now.
    pub(crate) fn answered(&mut self, answer: Answer, now: Instant) -> Done {
        let open = self.open.take()?;
        let asked = open.asked();
        if let (Op::Release(name, fence), Answer::Released) = (&asked, answer) {
            self.waiting.released(name, *fence, now);
        }
        let is_state = matches!(
            answer,
            Answer::Free(_) | Answer::Held { .. } | Answer::HeldShared { .. }
        );
        self.is_begun = match asked {
            Op::Ask(_) => is_state,
            _ => self.is_begun && asked.fits(&answer),
        };
        if !self.is_begun {
            let (op, number) = (open.op, open.number);
            return Some(Err(Error::OtherAnswer { op, answer, number }));
        }
        match open.part {
            Part::Opening => {
                let part = first_part(&open.op);
                self.go_on(open, part)
            }
            Part::Before => self.found_before(open, answer),
            Part::Op => self.carried_out(open, answer),
            Part::Counting(fence) => Some(self.counted(open, fence, answer)),
        }
    }

    /// Proceeds to a share after the Ask before it, unless another client holds the lock alone.
    fn found_before(&mut self, mut open: Open, answer: Answer) -> Done {
        match answer {
            Answer::Held { holder, fence } => {
                let name = open.op.name().unwrap_or_default();
                let busy = Error::busy(name, holder, fence);
                return Some(Err(busy.seen_by(self.id())));
            }
            Answer::HeldShared { holders, fence } => open.before = Some((holders, fence)),
            _ => {}
        }
        self.go_on(open, Part::Op)
    }

    /// Proceeds to the next part, under a new number.
    fn go_on(&mut self, mut open: Open, part: Part) -> Done {
        match self.numbers.take(open.used_for) {
            Ok(number) => open.number = number,
            Err(error) => return Some(Err(error)),
        }
        open.part = part;
        self.open = Some(open);
        None
    }

    /// Handles the answer to the op. A share at a fence that was shared before may be an earlier one.
    fn carried_out(&mut self, mut open: Open, answer: Answer) -> Done {
        match (answer, open.before) {
            (Answer::Shared(fence), Some((_, before))) if fence == before => {
                open.used_for = Use::Freeing;
                let shared = shared_before(&open.op, fence);
                let done = self.go_on(open, Part::Counting(fence));
                done.map(|_| Err(shared)) // no number is left to count with
            }
            _ => Some(self.judged(open.op, answer)),
        }
    }

    /// Accepts a share if more clients share the name than before.
    fn counted(&mut self, open: Open, fence: u64, answer: Answer) -> Result<Answer, Error> {
        let before = open.before.map_or(0, |(holders, _)| holders);
        match answer {
            Answer::HeldShared { holders, .. } if holders > before => {
                self.judged(open.op, Answer::Shared(fence))
            }
            _ => Err(shared_before(&open.op, fence)),
        }
    }

    fn judged(&mut self, op: Op, answer: Answer) -> Result<Answer, Error> {
        self.note(&op, &answer);
        let id = self.id();
        op.judged(answer).map_err(|error| match error {
            // of those who share a name the answer tells the lowest
            Error::Busy { name, fence, .. } if self.holds.get(&name) == Some(&fence) => {
                Error::busy(&name, id, fence).seen_by(id)
            }
            error => error.seen_by(id),
        })
    }

    /// Records what this run holds.
    fn note(&mut self, op: &Op, answer: &Answer) {
        use Answer::*;
        let Some(name) = op.name() else { return };
        if self.unknown.as_deref() == Some(name) {
            self.unknown = None;
        }
        let held = self.holds.get(name).copied();
        let is_lost = match *answer {
            Granted(fence) | Shared(fence) => {
                self.holds.insert(name.to_owned(), fence);
                return;
            }
            Held { fence, .. } | HeldShared { fence, .. } => held != Some(fence),
            Released | NotHeld | Stale | Broken => held == op.fence(),
            Free(_) => true,
            _ => false,
        };
        if is_lost {
            self.holds.remove(name);
        }
    }

    /// The error of a request that a greater number has passed.
    pub(crate) fn passed_by(&mut self, last: u64) -> Option<Error> {
        let open = self.open.take()?;
        let is_sent = open.is_sent();
        self.is_begun = false;
        self.passed = self.passed.max(last);
        if is_sent {
            self.doubt(&open.op);
        }
        let op = open.op;
        Some(Error::Passed { op, is_sent, last })
    }
}
