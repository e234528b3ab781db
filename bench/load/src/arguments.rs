//! The command line.

use crate::course::Length;
use crate::etcd::Etcd;
use crate::lock::Lock;
use crate::locks::Locks;
use crate::redis::Redis;
use crate::tcp::OverTcp;
use crate::zookeeper::ZooKeeper;
use std::path::PathBuf;
use std::str::FromStr;
use std::time::Duration;

/// What `--help` prints.
pub const HELP: &str = "\
Loads a lock service with pairs of an acquire and a release, and prints one line of JSON.

Usage: load SYSTEM --ports PORT[,PORT..] [--clients N] [--seconds S | --pairs N] [--keys FOLDER]

SYSTEM is locks, etcd, zookeeper or redis, at these ports of 127.0.0.1; the first is asked first.
N clients (1 if not given), each in a thread, acquire and release a lock of their own, for
S seconds (5 if not given) or until they have done so many pairs together. A cluster of locks has
the number 5 (--cluster); the key of its client N is FOLDER/N.";

/// A service that can be loaded.
#[derive(Clone, Copy, Debug)]
enum System {
    Locks,
    Etcd,
    ZooKeeper,
    Redis,
}

impl FromStr for System {
    type Err = String;

    fn from_str(word: &str) -> Result<System, String> {
        match word {
            "locks" => Ok(System::Locks),
            "etcd" => Ok(System::Etcd),
            "zookeeper" => Ok(System::ZooKeeper),
            "redis" => Ok(System::Redis),
            _ => Err(format!("unknown system {word:?}")),
        }
    }
}

/// What the command line asks for.
#[derive(Debug)]
pub struct Arguments {
    system: System,
    ports: Vec<u16>,
    cluster: u64,
    keys: Option<PathBuf>,
    /// The number of clients.
    pub clients: u16,
    /// How long the run lasts.
    pub length: Length,
}

impl Arguments {
    /// The arguments that these words are, or none where they ask for help.
    pub fn of(words: impl Iterator<Item = String>) -> Result<Option<Arguments>, String> {
        let words: Vec<String> = words.collect();
        if words.iter().any(|it| it == "--help") {
            return Ok(None);
        }
        let (system, options) = words.split_first().ok_or("a system is required")?;
        let mut made = Arguments::standard(system.parse()?);
        for option in options.chunks(2) {
            made.set(&option[0], option.get(1).map_or("", String::as_str))?;
        }
        if made.ports.is_empty() {
            return Err("--ports is required".to_owned());
        }
        Ok(Some(made))
    }

    fn standard(system: System) -> Arguments {
        Arguments {
            system,
            ports: Vec::new(),
            cluster: 5,
            keys: None,
            clients: 1,
            length: Length::Time(Duration::from_secs(5)),
        }
    }

    fn set(&mut self, option: &str, value: &str) -> Result<(), String> {
        match option {
            "--ports" => self.ports = value.split(',').map(number).collect::<Result<_, _>>()?,
            "--cluster" => self.cluster = number(value)?,
            "--keys" => self.keys = Some(PathBuf::from(value)),
            "--clients" => self.clients = number(value)?,
            "--pairs" => self.length = Length::Pairs(number(value)?),
            "--seconds" => {
                let time = Duration::try_from_secs_f64(number(value)?);
                self.length = Length::Time(time.map_err(|error| error.to_string())?);
            }
            _ => return Err(format!("unknown option {option:?}")),
        }
        Ok(())
    }

    /// The client of that number.
    pub fn lock(&self, number: u16) -> Box<dyn Lock> {
        let (ports, name) = (&self.ports, format!("load-{number}"));
        match self.system {
            System::Locks => {
                let keys = self.keys.as_deref();
                Box::new(Locks::new(self.cluster, ports, number, &name, keys))
            }
            System::Etcd => Box::new(OverTcp::new(ports, Etcd::new(&name))),
            System::ZooKeeper => Box::new(OverTcp::new(ports, ZooKeeper::new(&name))),
            System::Redis => Box::new(OverTcp::new(ports, Redis::new(&name))),
        }
    }
}

fn number<N: FromStr>(word: &str) -> Result<N, String> {
    word.parse().map_err(|_| format!("invalid number {word:?}"))
}
