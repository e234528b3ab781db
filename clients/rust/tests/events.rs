//! What events tell a log or a tracing library.

use locks_client::{Answer, ClientId, Error, Event, Level, Op};
use std::time::Duration;

#[test]
fn each_event_has_a_level_a_target_a_name_and_fields() {
    let sent = Event::Sent {
        number: 3,
        port: 7001,
    };
    assert_eq!(sent.level(), Level::Debug);
    assert_eq!(sent.target(), "locks_client::request");
    assert_eq!(sent.name(), "sent");
    let fields = sent.fields().map(|(name, value)| format!("{name}={value}"));
    assert_eq!(fields.collect::<Vec<_>>(), ["number=3", "port=7001"]);
}

/// The level, the target, the name and the fields of an event, as one line.
fn line(event: &Event<'_>) -> String {
    let mut line = format!("{} {} {}", event.level(), event.target(), event.name());
    for (name, value) in event.fields() {
        line += &format!(" {name}={value}");
    }
    line
}

#[test]
fn events_of_requests_are_lines() {
    let (number, port, name) = (3, 7001, "db");
    let answer = Answer::Granted(4);
    assert_eq!(
        line(&Event::Answered {
            number,
            port,
            answer
        }),
        "DEBUG locks_client::request answered number=3 port=7001 answer=granted 4"
    );
    assert_eq!(
        line(&Event::Passed { number, last: 9 }),
        "WARN locks_client::request passed number=3 last=9"
    );
    let name = Some(name);
    assert_eq!(
        line(&Event::GivenUp { number, name }),
        "WARN locks_client::request given_up number=3 lock=db"
    );
    let (op, since) = (&Op::Acquire("db".to_owned()), Duration::from_secs(5));
    assert_eq!(
        line(&Event::Unreachable { op, since }),
        "WARN locks_client::request unreachable op=acquire db seconds=5"
    );
}

#[test]
fn a_request_that_is_given_up_matters_if_it_was_for_a_lock() {
    let (number, name) = (3, None);
    assert_eq!(
        line(&Event::GivenUp { number, name }),
        "DEBUG locks_client::request given_up number=3"
    );
}

#[test]
fn an_event_of_a_join_is_a_line() {
    let far = Event::FarJoin { node: 7 };
    assert_eq!(line(&far), "WARN locks_client::request far_join node=7");
}

#[test]
fn events_of_locks_are_lines() {
    let (name, fence, cause) = ("db", 3, &Error::NothingAsked);
    let waiting = Event::Waiting {
        name,
        holder: ClientId::new(8).unwrap(),
        fence,
        pause: Duration::from_millis(50),
    };
    assert_eq!(
        line(&waiting),
        "INFO locks_client::lock waiting lock=db holder=8 fence=3 milliseconds=50"
    );
    assert_eq!(
        line(&Event::NotReleased { name, fence, cause }),
        "WARN locks_client::lock not_released lock=db fence=3 cause=no request is open"
    );
    assert_eq!(
        line(&Event::LeftHeld { name, fence }),
        "WARN locks_client::lock left_held lock=db fence=3"
    );
}

#[test]
fn levels_are_ordered() {
    assert!(Level::Debug < Level::Info && Level::Info < Level::Warn);
}
