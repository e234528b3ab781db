// Nodes of the program that LOCKS_PROGRAM names. Examples include this file too.

use locks_client::{Client, ClientId, ClusterId, Numbers, milliseconds};
use std::net::UdpSocket;
use std::path::PathBuf;
use std::process::{Child, Command, Stdio};
use std::sync::atomic::{AtomicU32, Ordering};
use std::sync::{LazyLock, Mutex};
use std::time::Duration;
use std::{env, fs, process};

static CLUSTERS: AtomicU32 = AtomicU32::new(0);

/// The free ports of this process that no test has yet. All are tried before the first node starts: until it runs its
/// program, a process that is being started has a copy of each open socket, so that a port would stay bound.
static PORTS: LazyLock<Mutex<Vec<u16>>> = LazyLock::new(|| {
    let first = 20_000 + (process::id() % 60) as u16 * 200;
    let is_free = |port: &u16| UdpSocket::bind(("127.0.0.1", *port)).is_ok();
    Mutex::new((first..first + 200).filter(is_free).collect())
});

/// Ports of 127.0.0.1 that nothing is bound to, below those that the system gives to whoever asks for any port.
pub fn free_ports(count: usize) -> Vec<u16> {
    let mut ports = PORTS.lock().unwrap();
    let rest = ports.len().checked_sub(count).expect("ports are left");
    ports.split_off(rest)
}

/// Processes of `locks node`, numbered from 1, whose stores stand in a folder of their own.
pub struct Cluster {
    program: String,
    folder: PathBuf,
    genesis: String,
    options: Vec<String>,
    nodes: Vec<(u16, Option<Child>)>,
}

impl Cluster {
    /// So many nodes, all running.
    pub fn start(count: usize) -> Cluster {
        Cluster::start_with(count, Vec::new())
    }

    /// The same, each with these options.
    pub fn start_with(count: usize, options: Vec<String>) -> Cluster {
        let number = CLUSTERS.fetch_add(1, Ordering::Relaxed);
        let ports = free_ports(count);
        let members = (1..)
            .zip(&ports)
            .map(|(node, port)| format!(",{node}:{port}"));
        let mut cluster = Cluster {
            program: env::var("LOCKS_PROGRAM").unwrap(),
            folder: env::temp_dir().join(format!("locks-cluster-{}-{number}", process::id())),
            genesis: format!("5,8{}", members.collect::<String>()),
            options,
            nodes: Vec::new(),
        };
        for port in ports {
            cluster.add(port);
        }
        cluster
    }

    /// Starts a further node.
    pub fn add(&mut self, port: u16) {
        self.nodes.push((port, None));
        self.up(self.nodes.len());
    }

    /// Starts a node, on what its folder holds.
    pub fn up(&mut self, node: usize) {
        let folder = self.folder.join(node.to_string());
        fs::create_dir_all(&folder).unwrap();
        let (port, process) = &mut self.nodes[node - 1];
        let child = Command::new(&self.program)
            .args(["node", "--genesis", &self.genesis])
            .args(["--number", &node.to_string(), "--port", &port.to_string()])
            .arg("--dir")
            .arg(folder)
            .args(&self.options)
            .stdin(Stdio::null())
            .spawn();
        *process = Some(child.unwrap());
    }

    /// Kills a node: it has no time to do anything more.
    pub fn down(&mut self, node: usize) {
        if let Some(mut child) = self.nodes[node - 1].1.take() {
            child.kill().unwrap();
            child.wait().unwrap();
        }
    }

    pub fn ports(&self) -> Vec<u16> {
        self.nodes.iter().map(|(port, _)| *port).collect()
    }

    pub fn client(&self, number: u16) -> Client {
        self.client_from(number, milliseconds())
    }

    /// A client whose numbers go on from that one.
    pub fn client_from(&self, number: u16, first: u64) -> Client {
        self.client_of(number, Numbers::from_first(first).unwrap())
    }

    pub fn client_of(&self, number: u16, numbers: Numbers) -> Client {
        let id = ClientId::new(number).unwrap();
        let mut client = Client::new(ClusterId::new(5), id, &self.ports(), numbers).unwrap();
        client.set_patience(Duration::from_secs(30));
        client
    }
}

impl Drop for Cluster {
    fn drop(&mut self) {
        for node in 1..=self.nodes.len() {
            self.down(node);
        }
        let _ = fs::remove_dir_all(&self.folder);
    }
}
