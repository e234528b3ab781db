#![doc = include_str!("../README.md")]
#![deny(missing_docs)]
#![forbid(unsafe_code)]

/// The first line of an example that asks a node. `cargo test` reports such an example as ignored
/// where it has no program.
#[cfg(all(doctest, not(locks_program)))]
macro_rules! asks_a_node {
    () => {
        "```ignore"
    };
}
#[cfg(not(all(doctest, not(locks_program))))]
macro_rules! asks_a_node {
    () => {
        "```"
    };
}

mod answer;
mod client;
mod election;
mod error;
mod exchange;
mod fault;
#[cfg(test)]
mod golden;
mod holding;
mod ids;
mod key;
mod level;
mod lock;
mod lock_state;
mod locks;
mod log;
mod members;
mod numbers;
mod op;
mod open;
mod raised;
mod reply;
mod request;
mod session;
mod sha256;
mod socket;
mod state;
mod text;
mod ticket;
mod waiter;
mod waiting;
mod waits;
mod watch;

pub use answer::Answer;
pub use client::Client;
pub use election::{Election, Leader};
pub use error::Error;
pub use exchange::Step;
pub use fault::StateFault;
pub use ids::{ClientId, ClusterId};
pub use key::Keys;
pub use level::Level;
pub use lock::Lock;
pub use lock_state::LockState;
pub use locks::Locks;
pub use log::Event;
pub use numbers::{Numbers, milliseconds};
pub use op::Op;
pub use session::Session;
pub use waits::{BusyWaits, Waits};
pub use watch::Watch;

/// The greatest number of a request, and the greatest fence.
const MAX_COUNT: u64 = 1 << 48;
/// The greatest number of a node.
const MAX_NODE: u32 = 1 << 31;
