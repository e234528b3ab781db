//! A client with a key against nodes with keys.

#[path = "support/cluster.rs"]
#[allow(dead_code)] // it starts no node anew
mod support;

use locks_client::{Error, Keys};
use std::os::unix::fs::OpenOptionsExt;
use std::path::{Path, PathBuf};
use std::process::Command;
use std::time::Duration;
use std::{env, fs, io::Write, process};
use support::Cluster;

/// A file of that key, which its owner alone may have.
fn key_file(folder: &Path, name: &str, key: &str) -> String {
    let path = folder.join(name);
    let mut how = fs::OpenOptions::new();
    let file = how.write(true).create_new(true).mode(0o600).open(&path);
    writeln!(file.unwrap(), "{key}").unwrap();
    path.to_str().unwrap().to_owned()
}

/// The key of a client, as the program prints it.
fn client_key(master: &str, client: u16) -> Keys {
    let ran = Command::new(env::var("LOCKS_PROGRAM").unwrap())
        .args([
            "client-key",
            "--master",
            master,
            "--client",
            &client.to_string(),
        ])
        .output();
    Keys::read(&String::from_utf8(ran.unwrap().stdout).unwrap()).unwrap()
}

fn folder() -> PathBuf {
    let folder = env::temp_dir().join(format!("locks-keys-{}", process::id()));
    fs::create_dir_all(&folder).unwrap();
    folder
}

#[test]
#[cfg_attr(not(locks_program), ignore = "LOCKS_PROGRAM names no program")]
fn a_client_is_answered_by_its_own_key_alone() {
    let folder = folder();
    let key = key_file(&folder, "key", &"11".repeat(32));
    let master = key_file(&folder, "master", &"22".repeat(32));
    let options = ["--key", &key, "--client-key", &master].map(str::to_owned);
    let cluster = Cluster::start_with(3, options.to_vec());
    let mut client = cluster.client(7);
    client.set_key(client_key(&master, 7));
    assert_eq!(client.acquire("db").unwrap(), 1);
    let mut other = cluster.client(8);
    other.set_patience(Duration::from_secs(1));
    assert!(matches!(other.acquire("db"), Err(Error::NoAnswer { .. })));
    other.set_key(client_key(&master, 7));
    assert!(matches!(other.again(), Err(Error::NoAnswer { .. })));
    fs::remove_dir_all(&folder).unwrap();
}
