//! Loads a lock service with pairs of an acquire and a release, each client of a lock of its own,
//! and prints what came of it as one line of JSON.

mod arguments;
mod course;
mod etcd;
mod grpc;
mod lock;
mod locks;
mod redis;
mod tally;
mod tcp;
mod zookeeper;

use arguments::{Arguments, HELP};
use course::Course;
use std::process::ExitCode;
use std::time::Instant;
use std::{env, thread};
use tally::{Record, Summary};

/// Runs all clients, each in a thread of its own, and sums up what they did.
fn run(arguments: &Arguments) -> Summary {
    let begun = Instant::now();
    let course = Course::new(arguments.clients.into(), arguments.length);
    let records: Vec<Record> = thread::scope(|scope| {
        let clients = (1..=arguments.clients).map(|number| {
            let course = &course;
            scope.spawn(move || course::work(arguments.lock(number), course, begun))
        });
        let threads: Vec<_> = clients.collect();
        course.keep_time();
        let joined = threads.into_iter().map(|it| it.join().unwrap_or_default());
        joined.collect()
    });
    Summary::of(&records, course.begun())
}

fn main() -> ExitCode {
    match Arguments::of(env::args().skip(1)) {
        Ok(None) => println!("{HELP}"),
        Ok(Some(arguments)) => println!("{}", run(&arguments).json(&arguments)),
        Err(what) => {
            eprintln!("load: {what}; try --help");
            return ExitCode::from(2);
        }
    }
    ExitCode::SUCCESS
}
