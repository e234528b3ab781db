"""The services that bench/compare.py compares: how each is started, who leads it, and how it is loaded.

A system is three nodes (Redis: one) as processes on loopback, each with a folder of its own. All run with their own
defaults, except for what is needed to run three on one machine and to sync before they answer.
"""
import contextlib
import json
import os
import pathlib
import re
import shutil
import signal
import socket
import subprocess
import time
import urllib.error
import urllib.request

from cluster import TOP, free_ports, genesis_text, locks_client

LOAD = pathlib.Path(TOP) / "bench" / "load"
ZOOKEEPER = pathlib.Path("/usr/share/java/zookeeper.jar")
DELAY = 2  # milliseconds that a slow disk's sync takes longer
SYNCS = "fsync,fdatasync"
# strace stops a program at these calls alone. With -D the program keeps its process number; strace is its grandchild.
SLOWED = ["strace", "-D", "-f", "-qq", "--seccomp-bpf", "-o", "/dev/null", "-e", "signal=none", "-e", f"trace={SYNCS}"]
SLOWED += ["-e", f"inject={SYNCS}:delay_exit={DELAY * 1000}"]


def generator():
    """The path of the load generator, which cargo builds where its sources are newer."""
    words = ["cargo", "build", "--release", "--offline", "--quiet", "--manifest-path", str(LOAD / "Cargo.toml")]
    # cargo builds clients/rust anew where LOCKS_PROGRAM has changed
    known = {name: it for name, it in os.environ.items() if name != "LOCKS_PROGRAM"}
    subprocess.run(words, check=True, stdin=subprocess.DEVNULL, env=known)
    return LOAD / "target" / "release" / "load"


class System(contextlib.AbstractContextManager):
    """Nodes of one service, numbered from 1. A subclass has the words that start a node."""

    name = kind = command = install = ""
    size, inner = 3, 0  # the nodes, and the ports of each that only the others use
    versioned = ()  # the words that print the version, where it is not the option of the command

    def __init__(self, folder, before=()):
        self.folder, self.before, self.processes = pathlib.Path(folder), list(before), {}
        ports = iter(free_ports(self.size * (1 + self.inner)))
        self.ports = {node: next(ports) for node in range(1, self.size + 1)}
        self.peers = {node: [next(ports) for _ in range(self.inner)] for node in self.ports}

    @classmethod
    def missing(cls):
        """What has to be installed before the service can run, if anything."""
        return None if shutil.which(cls.command) else f"{cls.command} is not on the path; {cls.install}"

    @classmethod
    def version(cls):
        """The version that is installed."""
        words = cls.versioned or [cls.command, "--version"]
        run = subprocess.run(words, stdin=subprocess.DEVNULL, stdout=subprocess.PIPE, text=True)
        found = re.search(r"\d+\.\d+\.\d+", run.stdout)
        return found[0] if found else "of an unknown version"

    def __enter__(self):
        for node in self.ports:
            self.start(node)
        return self

    def __exit__(self, *_):
        for node in list(self.processes):
            self.kill(node)

    def start(self, node):
        """Starts a node, on what its folder holds."""
        (self.folder / str(node)).mkdir(parents=True, exist_ok=True)
        with open(self.folder / f"{node}.log", "a") as log:
            quiet = {"stdin": subprocess.DEVNULL, "stdout": log, "stderr": log}
            self.processes[node] = subprocess.Popen([*self.before, *self.words(node)], **quiet)

    def kill(self, node):
        """Kills a node as by `kill -9`."""
        process = self.processes.pop(node)
        process.send_signal(signal.SIGKILL)
        process.wait()

    def load_words(self, program, leader, clients, *length):
        """The words that load the system, the node that leads first."""
        ports = [self.ports[leader], *(port for node, port in self.ports.items() if node != leader)]
        return [program, self.kind, "--ports", ",".join(map(str, ports)), "--clients", str(clients), *map(str, length)]

    def load(self, *words):
        """What the generator prints."""
        command = self.load_words(*words)
        run = subprocess.run(command, stdin=subprocess.DEVNULL, capture_output=True, text=True, check=True)
        return json.loads(run.stdout)

    def busy(self):
        """The seconds of processors that all nodes have used."""
        return sum(processor_seconds(process.pid) for process in self.processes.values())

    def memory(self):
        """The bytes of memory of the node that has most."""
        return max(resident(process.pid) for process in self.processes.values())

    def bytes(self):
        """The bytes of the files of the node that has most."""
        return max(length(self.folder / str(node)) for node in self.ports)


def until(found, seconds=60):
    """What is found, once something is."""
    end = time.monotonic() + seconds
    while time.monotonic() < end:
        it = found()
        if it is not None:
            return it
        time.sleep(0.05)
    raise TimeoutError(f"nobody leads after {seconds} seconds")


def resident(pid):
    """The bytes of memory that a process has."""
    status = pathlib.Path(f"/proc/{pid}/status").read_text()
    return next(int(line.split()[1]) * 1024 for line in status.splitlines() if line.startswith("VmRSS:"))


def processor_seconds(pid):
    """The seconds of processors that a process has used."""
    fields = pathlib.Path(f"/proc/{pid}/stat").read_text().rpartition(")")[2].split()
    return (int(fields[11]) + int(fields[12])) / os.sysconf("SC_CLK_TCK")


def length(folder):
    """The bytes of all files in a folder. A file may vanish meanwhile."""
    total = 0
    for it in folder.rglob("*"):
        with contextlib.suppress(FileNotFoundError):
            total += it.stat().st_size if it.is_file() else 0
    return total


class Locks(System):
    """A cluster of `locks`."""

    kind, cluster = "locks", 5

    def __init__(self, folder, before=(), *, program, alpha, options=(), is_sealed=False):
        super().__init__(folder, before)
        self.program, self.alpha, self.options, self.is_sealed = program, alpha, options, is_sealed
        if is_sealed:
            self.write_keys()

    def write_keys(self):
        """Makes the key of the nodes, the master, and the key of each client."""
        master = os.urandom(32)
        (self.folder / "keys").mkdir()
        keys = {str(client): locks_client.seals.client_key(master, client) for client in range(1, 257)}
        for name, key in {"nodes": os.urandom(32), "master": master, **keys}.items():
            with open(self.key(name), "x", opener=lambda path, flags: os.open(path, flags, 0o600)) as file:
                file.write(f"{key.hex()}\n")

    def key(self, name):
        """The file of a key."""
        return str(self.folder / "keys" / name)

    def words(self, node):
        genesis = genesis_text(self.cluster, self.alpha, self.ports)
        place = ["--number", str(node), "--port", str(self.ports[node]), "--dir", str(self.folder / str(node))]
        keys = ["--key", self.key("nodes"), "--client-key", self.key("master")] if self.is_sealed else []
        return [self.program, "node", "--genesis", genesis, *place, *keys, *self.options]

    def load_words(self, *words):
        return super().load_words(*words) + (["--keys", str(self.folder / "keys")] if self.is_sealed else [])

    def leader(self):
        ports, first = list(self.ports.values()), locks_client.milliseconds()
        key = self.key("256") if self.is_sealed else None
        with locks_client.Client(self.cluster, 256, ports, first=first, patience=60.0, key=key) as client:
            client.ask("leader")
            return next(node for node, port in self.ports.items() if port == client.leader)


class Etcd(System):
    """Three members of etcd."""

    name, kind, command, install = "etcd", "etcd", "etcd", "Debian: apt-get install etcd-server"
    inner = 1

    def words(self, node):
        peer, client = f"http://127.0.0.1:{self.peers[node][0]}", f"http://127.0.0.1:{self.ports[node]}"
        members = ",".join(f"m{it}=http://127.0.0.1:{port}" for it, [port] in self.peers.items())
        words = ["--name", f"m{node}", "--data-dir", str(self.folder / str(node)), "--initial-cluster", members]
        words += ["--initial-advertise-peer-urls", peer, "--listen-peer-urls", peer]
        return ["etcd", *words, "--advertise-client-urls", client, "--listen-client-urls", client]

    def is_leader(self, node):
        url = f"http://127.0.0.1:{self.ports[node]}/v3/maintenance/status"
        with contextlib.suppress(OSError, urllib.error.URLError), urllib.request.urlopen(url, b"{}", 2) as answer:
            status = json.load(answer)
            return status.get("leader") == status["header"]["member_id"]
        return False

    def leader(self):
        return until(lambda: next((it for it in self.processes if self.is_leader(it)), None))


class ZooKeeper(System):
    """Three servers of ZooKeeper."""

    name, kind, command, install = "ZooKeeper", "zookeeper", "java", "Debian: apt-get install zookeeper"
    inner = 2
    versioned = ["java", "-cp", str(ZOOKEEPER), "org.apache.zookeeper.version.VersionInfoMain"]

    @classmethod
    def missing(cls):
        return super().missing() or (None if ZOOKEEPER.exists() else f"no {ZOOKEEPER}; {cls.install}")

    def words(self, node):
        folder, settings = self.folder / str(node), self.folder / f"{node}.cfg"
        (folder / "myid").write_text(f"{node}\n")
        lines = ["tickTime=2000", "initLimit=10", "syncLimit=5", "maxClientCnxns=0", "admin.enableServer=false"]
        lines += [f"dataDir={folder}", f"clientPort={self.ports[node]}"]
        lines += [f"server.{it}=127.0.0.1:{peer}:{election}" for it, (peer, election) in self.peers.items()]
        settings.write_text("\n".join(lines) + "\n")
        java = ["java", "-Xmx1000m", "-cp", f"/etc/zookeeper/conf:{ZOOKEEPER}"]
        return [*java, "org.apache.zookeeper.server.quorum.QuorumPeerMain", str(settings)]

    def is_leader(self, node):
        with contextlib.suppress(OSError), socket.create_connection(("127.0.0.1", self.ports[node]), 2) as it:
            it.sendall(b"srvr")
            return b"Mode: leader" in it.makefile("rb").read()
        return False

    leader = Etcd.leader


class Redis(System):
    """One Redis that syncs each write before it answers. No other node has the lock, so this is no consensus."""

    name, kind, command = "Redis, one node", "redis", "redis-server"
    install = "Debian: apt-get install redis-server"
    size = 1

    def words(self, node):
        words = ["--port", str(self.ports[node]), "--bind", "127.0.0.1", "--dir", str(self.folder / str(node))]
        return ["redis-server", *words, "--appendonly", "yes", "--appendfsync", "always", "--save", ""]

    def leader(self):
        return 1


if __name__ == "__main__":
    print(__doc__)
