//! Events in the terms of a logging library.

use crate::Event;
use std::fmt::{self, Display, Formatter};

/// The severity of an event.
#[derive(Clone, Copy, Debug, PartialEq, Eq, PartialOrd, Ord, Hash)]
pub enum Level {
    /// Each datagram and each answer.
    Debug,
    /// A wait for a lock.
    Info,
    /// Something that needs attention, such as a lock that may stay held.
    Warn,
}

impl Display for Level {
    fn fmt(&self, f: &mut Formatter<'_>) -> fmt::Result {
        f.write_str(match self {
            Level::Debug => "DEBUG",
            Level::Info => "INFO",
            Level::Warn => "WARN",
        })
    }
}

/// The fields of an event: each has a name, and a value as text.
type Fields = Vec<(&'static str, String)>;

/// The fields of these variables, under these names.
macro_rules! fields {
    ($($name:literal: $value:expr),*) => {
        vec![$(($name, $value.to_string())),*]
    };
}

impl Event<'_> {
    /// Its severity.
    pub fn level(&self) -> Level {
        match self {
            Event::Sent { .. } | Event::Elsewhere { .. } | Event::Answered { .. } => Level::Debug,
            Event::Unanswered { .. } | Event::GivenUp { name: None, .. } => Level::Debug,
            Event::Waiting { .. } => Level::Info,
            _ => Level::Warn,
        }
    }

    /// Its target, in the sense of the `log` crate: `locks_client::request` or `locks_client::lock`.
    pub fn target(&self) -> &'static str {
        match self {
            Event::Waiting { .. } | Event::NotReleased { .. } => "locks_client::lock",
            Event::Unwatched { .. } | Event::LeftHeld { .. } => "locks_client::lock",
            _ => "locks_client::request",
        }
    }

    /// Its name, in small letters.
    pub fn name(&self) -> &'static str {
        match self {
            Event::Sent { .. } => "sent",
            Event::Elsewhere { .. } => "elsewhere",
            Event::Answered { .. } => "answered",
            Event::Passed { .. } => "passed",
            Event::Unanswered { .. } => "unanswered",
            Event::GivenUp { .. } => "given_up",
            Event::Unreachable { .. } => "unreachable",
            Event::FarJoin { .. } => "far_join",
            Event::Waiting { .. } => "waiting",
            Event::NotReleased { .. } => "not_released",
            Event::Unwatched { .. } => "unwatched",
            Event::LeftHeld { .. } => "left_held",
        }
    }

    /// Its fields, each a name and a value as text. The field `lock` is the name of a lock.
    pub fn fields(&self) -> impl Iterator<Item = (&'static str, String)> {
        let fields = match self {
            Event::Waiting { .. } | Event::NotReleased { .. } => self.lock_fields(),
            Event::Unwatched { .. } | Event::LeftHeld { .. } => self.lock_fields(),
            _ => self.request_fields(),
        };
        fields.into_iter()
    }

    fn request_fields(&self) -> Fields {
        match self {
            Event::Sent { number, port } => fields!("number": number, "port": port),
            Event::Elsewhere {
                number,
                port,
                other,
            } => fields!("number": number, "port": port, "other": other),
            Event::Answered {
                number,
                port,
                answer,
            } => fields!("number": number, "port": port, "answer": answer),
            Event::Passed { number, last } => fields!("number": number, "last": last),
            Event::Unanswered { number } | Event::GivenUp { number, name: None } => {
                fields!("number": number)
            }
            Event::GivenUp {
                number,
                name: Some(name),
            } => fields!("number": number, "lock": name),
            Event::Unreachable { op, since } => fields!("op": op, "seconds": since.as_secs()),
            Event::FarJoin { node } => fields!("node": node),
            _ => Fields::new(),
        }
    }

    fn lock_fields(&self) -> Fields {
        match self {
            Event::Waiting {
                name,
                holder,
                fence,
                pause,
            } => fields!(
                "lock": name, "holder": holder, "fence": fence, "milliseconds": pause.as_millis()
            ),
            Event::NotReleased { name, fence, cause } | Event::Unwatched { name, fence, cause } => {
                fields!("lock": name, "fence": fence, "cause": cause)
            }
            Event::LeftHeld { name, fence } => fields!("lock": name, "fence": fence),
            _ => Fields::new(),
        }
    }
}
