//! Processes that hold a lock and are killed or stopped. This test program starts itself as a child.

#[path = "support/cluster.rs"]
#[allow(dead_code)]
mod support;

use locks_client::{Client, ClientId, ClusterId};
use locks_client::{Error, LockState, Numbers, milliseconds};
use std::io::{BufRead, BufReader, Read, Write, stdin};
use std::path::{Path, PathBuf};
use std::process::{self, Child, ChildStdout, Command, Stdio};
use std::time::Duration;
use std::{env, fs, thread};
use support::Cluster;

const CHILD: &str = "LOCKS_TEST_CHILD";
const WAIT: Duration = Duration::from_secs(30);

/// Client 7, whose numbers are kept in that file.
fn client(port: u16, path: &Path) -> Client {
    let numbers = numbers_in(path);
    let id = ClientId::new(7).unwrap();
    let mut client = Client::new(ClusterId::new(5), id, &[port], numbers).unwrap();
    client.set_patience(WAIT);
    client
}

/// The numbers of that file. A process that another test is about to start may still share its lock.
fn numbers_in(path: &Path) -> Numbers {
    for _ in 0..500 {
        if let Ok(numbers) = Numbers::begun_in(path, milliseconds()) {
            return numbers;
        }
        thread::sleep(Duration::from_millis(10));
    }
    Numbers::begun_in(path, milliseconds()).unwrap()
}

/// What a child does: it holds `db`, prints the fence, and releases it after a line on its input.
#[test]
#[ignore = "a child of the other tests"]
fn child() {
    let Ok(text) = env::var(CHILD) else { return };
    let (port, path) = text.split_once(' ').unwrap();
    let mut client = client(port.parse().unwrap(), Path::new(path));
    let lock = client.lock("db", WAIT).unwrap();
    println!("fence {}", lock.fence());
    stdin().read_line(&mut String::new()).unwrap();
    match lock.release() {
        Ok(()) => println!("released"),
        Err(error) => println!("error {error}"),
    }
}

/// A child that holds `db`, or is about to.
struct Holder {
    child: Child,
    printed: BufReader<ChildStdout>,
}

impl Holder {
    fn start(port: u16, path: &Path) -> Holder {
        let child = Command::new(env::current_exe().unwrap())
            .args(["child", "--exact", "--ignored", "--nocapture"])
            .env(CHILD, format!("{port} {}", path.display()))
            .stdin(Stdio::piped())
            .stdout(Stdio::piped())
            .stderr(Stdio::null())
            .spawn();
        let mut child = child.unwrap();
        let printed = BufReader::new(child.stdout.take().unwrap());
        Holder { child, printed }
    }

    /// The next line that it prints which begins so.
    fn line(&mut self, front: &str) -> String {
        let lines = self.printed.by_ref().lines();
        let mut found = lines.map_while(Result::ok).filter_map(|line| {
            let (_, rest) = line.split_once(front)?;
            Some(rest.to_owned())
        });
        found.next().unwrap()
    }

    fn signal(&self, name: &str) {
        let status = Command::new("kill")
            .args([name, &self.child.id().to_string()])
            .status();
        assert!(status.unwrap().success());
    }

    fn kill(&mut self) {
        self.child.kill().unwrap();
        self.child.wait().unwrap();
    }
}

impl Drop for Holder {
    fn drop(&mut self) {
        let _ = self.child.kill();
        let _ = self.child.wait();
    }
}

fn folder(name: &str) -> PathBuf {
    let folder = env::temp_dir().join(format!("locks-{name}-{}", process::id()));
    fs::create_dir_all(&folder).unwrap();
    folder
}

#[test]
#[cfg_attr(not(locks_program), ignore = "LOCKS_PROGRAM names no program")]
fn what_a_killed_process_held_is_told_to_the_next_run() {
    let (cluster, folder) = (Cluster::start(1), folder("killed"));
    let (port, path) = (cluster.ports()[0], folder.join("number"));
    let mut holds = 0;
    for moment in 0..12 {
        let mut holder = Holder::start(port, &path);
        thread::sleep(Duration::from_millis(4 * moment));
        if moment % 4 == 3 {
            holder.line("fence ");
        }
        holder.kill();
        let mut next = client(port, &path);
        match next.acquire("db") {
            Ok(fence) => next.release("db", fence).unwrap(),
            Err(Error::Busy {
                fence,
                is_own: true,
                ..
            }) => {
                holds += 1;
                next.adopt("db", fence).unwrap().release().unwrap();
            }
            Err(error) => panic!("{error}"),
        }
        assert!(matches!(next.ask("db").unwrap(), LockState::Free { .. }));
    }
    assert!(holds >= 3, "{holds}");
    fs::remove_dir_all(folder).unwrap();
}

#[test]
#[cfg_attr(not(locks_program), ignore = "LOCKS_PROGRAM names no program")]
fn a_stopped_process_releases_nothing_of_the_next_holder() {
    let (cluster, folder) = (Cluster::start(1), folder("stopped"));
    let mut other = cluster.client(8);
    other.raise_table().unwrap();
    let mut holder = Holder::start(cluster.ports()[0], &folder.join("number"));
    assert_eq!(holder.line("fence "), "1");
    holder.signal("-STOP");
    assert!(other.break_lock("db", 1).unwrap());
    assert_eq!(other.acquire("db").unwrap(), 2);
    holder.signal("-CONT");
    writeln!(holder.child.stdin.as_mut().unwrap()).unwrap();
    let told = holder.line("error ");
    assert!(
        told.starts_with("db is not held at fence 1 by this client: "),
        "{told}"
    );
    assert!(other.check("db", 2).unwrap());
    holder.kill(); // so that it writes no file while the folder is removed
    fs::remove_dir_all(folder).unwrap();
}
