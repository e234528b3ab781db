//! A client of Redis: a key is set where it does not exist, and deleted by a script where it still
//! has the client's value, as Redis's own page on locks has it.

use crate::tcp::{Protocol, Wire};
use std::io::{self, BufRead, Write};

const LEASE: &str = "30000";
const GIVE: &str = "if redis.call('get', KEYS[1]) == ARGV[1] \
                    then return redis.call('del', KEYS[1]) else return 0 end";

/// A client of Redis.
pub struct Redis {
    name: String,
}

impl Redis {
    /// A client whose lock is the key of that name.
    pub fn new(name: &str) -> Redis {
        Redis {
            name: name.to_owned(),
        }
    }
}

/// The line that answers a command.
fn ask(wire: &mut Wire, words: &[&str]) -> io::Result<String> {
    let mut command = format!("*{}\r\n", words.len());
    for word in words {
        command += &format!("${}\r\n{word}\r\n", word.len());
    }
    wire.get_mut().write_all(command.as_bytes())?;
    let mut line = String::new();
    wire.read_line(&mut line)?;
    Ok(line.trim_end().to_owned())
}

/// Whether a command took effect, by its answer.
fn took_effect(answer: &str) -> io::Result<bool> {
    match answer {
        "+OK" | ":1" => Ok(true),
        "$-1" | ":0" => Ok(false),
        _ => Err(io::Error::other(format!("the answer {answer:?}"))),
    }
}

impl Protocol for Redis {
    fn begin(&mut self, _: &mut Wire) -> io::Result<()> {
        Ok(())
    }

    fn acquire(&mut self, wire: &mut Wire) -> io::Result<bool> {
        let words = ["SET", &self.name, &self.name, "NX", "PX", LEASE];
        took_effect(&ask(wire, &words)?)
    }

    fn release(&mut self, wire: &mut Wire) -> io::Result<bool> {
        let words = ["EVAL", GIVE, "1", &self.name, &self.name];
        took_effect(&ask(wire, &words)?)
    }
}
