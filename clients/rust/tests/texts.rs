//! The texts of errors: each names the lock, its fence where it is known, and what to do.

use locks_client::{Answer, ClientId, Error, Op};

fn db() -> String {
    "db".to_owned()
}

/// Checks that a text has all of these parts.
#[track_caller]
fn says(error: &Error, parts: &[&str]) {
    let text = error.to_string();
    for part in parts {
        assert!(text.contains(part), "{text:?} is without {part:?}");
    }
}

fn busy(holder: u16, is_own: bool) -> Error {
    let holder = ClientId::new(holder).unwrap();
    Error::Busy {
        name: db(),
        holder,
        fence: 3,
        is_own,
    }
}

fn no_answer(op: Op, is_sent: bool, closed: u32) -> Error {
    Error::NoAnswer {
        op,
        is_sent,
        closed,
    }
}

fn passed(op: Op, is_sent: bool, last: u64) -> Error {
    Error::Passed { op, is_sent, last }
}

#[test]
fn a_lock_that_is_held_is_told_with_its_holder() {
    let remedy = "wait, or check what that client is doing";
    says(
        &busy(8, false),
        &["db is held at fence 3 by client 8; ", remedy],
    );
    let remedy = "once nothing of that run works any more, release or adopt it at that fence";
    says(&busy(7, true), &["db is held at fence 3", "itself", remedy]);
    let shared = Error::SharedBefore {
        name: db(),
        fence: 3,
    };
    says(
        &shared,
        &[
            "db is shared at fence 3",
            "adopt or release it at that fence",
        ],
    );
}

#[test]
fn a_lock_that_is_lost_or_kept_is_told_with_its_fence() {
    let lost = Error::NotHeld {
        name: db(),
        fence: 3,
    };
    says(
        &lost,
        &["db is not held at fence 3", "stop writing with that fence"],
    );
    let kept = Error::NotReleased {
        name: db(),
        fence: 3,
        cause: Box::new(no_answer(Op::Release(db(), 3), true, 0)),
    };
    let parts = [
        "db was not released at fence 3",
        "the lock may still be held; call again, withdraw or give_up",
    ];
    says(&kept, &parts);
    let unknown = Error::Unknown { name: db() };
    let remedy = "release it at that fence";
    says(
        &unknown,
        &["unknown whether db was granted", "ask who holds db", remedy],
    );
}

#[test]
fn a_request_without_an_answer_is_told_with_what_it_may_have_done() {
    let settle = "call again, withdraw or give_up";
    let acquire = Op::Acquire(db());
    let may = "it may have been granted, or may still be";
    says(
        &no_answer(acquire.clone(), true, 0),
        &["no answer to `acquire db`", may, settle],
    );
    says(
        &no_answer(Op::Release(db(), 3), true, 0),
        &[
            "`release db at fence 3`",
            "the lock may still be held",
            settle,
        ],
    );
    says(
        &no_answer(acquire.clone(), false, 2),
        &["`acquire db` was not sent", settle, "2 datagrams", "key"],
    );
    says(
        &Error::Unanswered { op: acquire },
        &["`acquire db` has no answer yet", settle],
    );
}

#[test]
fn a_number_that_was_used_is_told_with_one_that_helps() {
    let acquire = Op::Acquire(db());
    let parts = [
        "`acquire db`",
        "it may have been granted before",
        "skip_to(1000009), and then ask who holds db",
    ];
    says(&passed(acquire.clone(), true, 9), &parts);
    says(
        &passed(acquire.clone(), false, 9),
        &["`acquire db` was not sent", "skip_to(1000009)"],
    );
    says(
        &passed(Op::Release(db(), 3), true, 9),
        &["`release db at fence 3`", "or the lock may still be held"],
    );
    says(
        &passed(acquire.clone(), true, 1 << 48),
        &["use another client number"],
    );
    let other = |number| Error::OtherAnswer {
        op: acquire.clone(),
        answer: Answer::Granted(3),
        number,
    };
    let answered = "`acquire db` was answered `granted 3`";
    says(
        &other(5),
        &[answered, "number 5 was used before", "skip_to(1000005)"],
    );
    says(&other(1 << 48), &[answered, "use another client number"]);
}

#[test]
fn a_refusal_is_told_with_what_helps() {
    let name = db();
    says(
        &Error::NoRoom { name },
        &["no room for db", "512 other names; use one of them"],
    );
    let name = db();
    says(
        &Error::Spent { name },
        &["fences of db", "use another name"],
    );
    let op = Op::Share(db());
    says(&Error::Bad { op }, &["`share db`", "raise it once"]);
    let node = 4;
    says(&Error::Used { node }, &["node 4", "choose a greater one"]);
    says(&Error::Full { node }, &["node 4", "remove one first"]);
    says(&Error::NotMember { node }, &["node 4", "check its number"]);
    says(&Error::Last { node }, &["node 4", "add another one first"]);
    let (opened, here) = (1, 2);
    says(&Error::Forked { opened, here }, &["another client number"]);
    says(&Error::OutOfNumbers, &["use another client number"]);
}
