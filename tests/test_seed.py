"""`locks seed`: a new cluster whose fences are above those that a lost one has left, and what it refuses."""
import os
import signal
import subprocess
import tempfile
import time
import unittest

from harness.cluster import Cluster, free_ports
from locks_client import Client

PROGRAM = os.environ.get("LOCKS_PROGRAM")
EXISTS = "exists; seed begins a store only in a folder without files a and b"


@unittest.skipUnless(PROGRAM, "LOCKS_PROGRAM does not tell the program")
class SeedTest(unittest.TestCase):
    """Node 1 of cluster 5 was alone; what is seeded is node 1 of cluster 6."""

    def setUp(self):
        self.folder = self.enterContext(tempfile.TemporaryDirectory())
        self.port, self.old_port, self.other_port = free_ports(3)
        self.new = self.path("new")
        os.mkdir(self.new)

    def path(self, *names):
        return os.path.join(self.folder, *names)

    def ran(self, *words):
        """Runs the program. Its status, its output, and the lines of its standard error."""
        piped = {"stdin": subprocess.DEVNULL, "capture_output": True, "text": True, "timeout": 300}
        run = subprocess.run([PROGRAM, *words], **piped)
        return run.returncode, run.stdout, run.stderr.splitlines()

    def words(self, *sources, past=0, names=(), genesis=None, number=1, folder=None):
        given = [word for it in sources for word in ("--from", it)] + [word for it in names for word in ("--name", it)]
        own = ["--genesis", genesis or f"6,8,1:{self.port}", "--number", str(number), "--dir", folder or self.new]
        return ["seed", *given, "--past", str(past), *own]

    def seed(self, *sources, **how):
        return self.ran(*self.words(*sources, **how))

    def lost(self, name, asks, number=5, alpha=8, port=None):
        """The folder of a lost cluster's node, after `asks` was called with a client of it. By these parts of their
        genesis two folders are of one cluster."""
        place = self.path(name)
        cluster = Cluster(PROGRAM, place, nodes=1, cluster=number)
        cluster.ports = {1: port or self.old_port}
        cluster.genesis = f"{number},{alpha},1:{cluster.ports[1]}"
        with cluster, cluster.client(Client, 9) as client:
            asks(client)
        return os.path.join(place, "1")

    def fenced(self, client, name, fence):
        """Acquires and releases a name until its last fence is this one."""
        for _ in range(fence):
            client.release(name, client.acquire(name))

    def names(self, folder=None):
        """The lines of the names of a folder's store."""
        status, out, err = self.ran("inspect", "--all", "--dir", folder or self.new)
        self.assertEqual((status, err), (0, []))
        return [line for line in out.splitlines() if line.split()[0] in ("held", "free")]

    def files(self):
        return sorted(os.listdir(self.new))

    def refused(self, why, *sources, **how):
        """Seeding has to be refused with this line, and to create nothing."""
        status, out, err = self.seed(*sources, **how)
        self.assertEqual((status, out, err, self.files()), (1, "", [why, "cannot open"], []))

    def two_names(self, client):
        self.fenced(client, "db", 3)
        self.fenced(client, "nightly", 2)
        client.acquire("held")

    def node(self):
        words = ["node", "--genesis", f"6,8,1:{self.port}", "--number", "1", "--port", str(self.port)]
        command = [PROGRAM, *words, "--dir", self.new, "--existing"]
        return subprocess.Popen(command, stdin=subprocess.DEVNULL, stderr=subprocess.DEVNULL)

    def test_the_next_grant_is_above_what_is_found_and_past(self):
        old = self.lost("old", self.two_names)
        self.assertEqual(self.names(old), ["free db 3", "held held 9 1", "free nightly 2"])
        self.assertEqual(self.seed(old, past=12, names=["nightly:20", "other:7"]), (0, "", []))
        self.assertEqual(self.names(), ["free db 15", "free held 13", "free nightly 20", "free other 7"])
        node = self.node()
        try:
            with Client(6, 9, [self.port], first=1) as client:
                grants = [client.acquire(name) for name in ("db", "held", "nightly", "other", "fresh")]
            self.assertEqual(grants, [16, 14, 21, 8, 1])
        finally:
            node.kill()
            node.wait()

    def test_the_client_that_seeded_goes_on_above_its_numbers(self):
        self.assertEqual(self.seed(self.lost("old", self.two_names)), (0, "", []))
        node = self.node()
        try:
            with Client(6, 256, [self.port], first=time.time_ns() // 1_000_000) as client:
                self.assertEqual(client.acquire("db"), 4)
        finally:
            node.kill()
            node.wait()

    def test_others_join_it(self):
        self.assertEqual(self.seed(self.lost("old", self.two_names)), (0, "", []))
        [port] = free_ports(1)
        second = self.path("second")
        os.mkdir(second)
        words = ["--genesis", f"6,8,1:{self.port}", "--number", "2", "--dir", second]
        self.assertEqual(self.ran("init", *words), (0, "", []))
        join = ["ask", "--cluster", "6", "--port", str(self.port), "--client", "9", "--request"]
        command = [PROGRAM, "node", *words, "--port", str(port), "--existing"]
        node = self.node()
        try:
            self.assertEqual(self.ran(*join, "1", "join", "2", str(port))[:2], (0, "joined\n"))
            with subprocess.Popen(command, stdin=subprocess.DEVNULL, stderr=subprocess.DEVNULL) as newcomer:
                try:
                    self.assertEqual(self.ran(*join, "2", "acquire", "db")[:2], (0, "granted 4\n"))
                finally:
                    newcomer.kill()
        finally:
            node.kill()
            node.wait()

    def test_the_greatest_fence_of_several_folders_counts(self):
        one = self.lost("one", lambda client: (self.fenced(client, "db", 4), self.fenced(client, "a", 1)))
        two = self.lost("two", lambda client: (self.fenced(client, "db", 2), self.fenced(client, "b", 3)))
        self.assertEqual(self.seed(two, one, past=1), (0, "", []))
        self.assertEqual(self.names(), ["free a 2", "free b 4", "free db 5"])

    def test_a_raised_table_is_read(self):
        def asks(client):
            client.raise_table()
            client.release("db", client.share("db"))

        self.assertEqual(self.seed(self.lost("old", asks), past=2), (0, "", []))
        self.assertEqual(self.names(), ["free db 3"])

    def test_many_fences_pass_snapshots(self):
        old = self.lost("old", lambda client: self.fenced(client, "db", 1))
        self.assertEqual(self.seed(old, past=3000, names=["other:700"]), (0, "", []))
        self.assertEqual(self.names(), ["free db 3001", "free other 700"])

    def test_a_folder_without_a_store_is_refused(self):
        empty = self.path("empty")
        os.mkdir(empty)
        self.refused(f"{empty}/a: No such file or directory (os error 2)", empty)
        for name in ("a", "b"):
            open(os.path.join(empty, name), "wb").close()
        self.refused(f"{empty}: no store in its files", empty)

    def test_a_damaged_folder_is_refused(self):
        old = self.lost("old", self.two_names)
        with open(os.path.join(old, "a"), "ab") as file:
            file.write(b"\0\0\0\0")
        status, out, err = self.seed(old)
        self.assertEqual((status, out, err[-1], self.files()), (1, "", "fault 9", []))
        self.assertRegex(err[0], f"^{old}/a: no valid entry at byte [0-9]+ of [0-9]+$")

    def test_a_number_has_no_second_life(self):
        old = self.lost("old", self.two_names)
        why = f"{old}: a store of this cluster: the new one needs another number"
        self.refused(why, old, genesis=f"5,8,1:{self.port}")

    def test_folders_of_two_clusters_are_refused(self):
        one = self.lost("one", self.two_names)
        again = self.lost("again", self.two_names)
        for name, how in (("number", {"number": 4}), ("alpha", {"alpha": 7}), ("port", {"port": self.other_port})):
            with self.subTest(name):
                two = self.lost(name, self.two_names, **how)
                self.refused(f"{two}: a store of another cluster than {one}", one, again, two)
        self.assertEqual(self.seed(one, again), (0, "", []))

    def test_a_folder_with_a_file_is_refused(self):
        old = self.lost("old", self.two_names)
        for name in ("a", "b"):
            with self.subTest(name=name):
                path = os.path.join(self.new, name)
                open(path, "wb").close()
                why = [f"{path}: {EXISTS}", "cannot open"]
                self.assertEqual(self.seed(old), (1, "", why))
                os.remove(path)
        self.assertEqual(self.seed(old), (0, "", []))
        held = self.names()
        self.assertEqual(self.seed(old), (1, "", [f"{self.new}/a: {EXISTS}", "cannot open"]))
        self.assertEqual(self.names(), held)

    def test_too_many_names_are_refused(self):
        old = self.lost("old", self.two_names)
        why = "nightly: not granted: a table has at most 512 names"
        self.refused(why, old, names=[f"n{number}:1000000" for number in range(510)])

    def test_a_fence_without_a_next_is_refused(self):
        old = self.lost("old", self.two_names)
        self.refused(f"{old}: a fence would be above 281474976710655", old, past=2**48 - 1)

    def test_bad_arguments(self):
        for how in (
            {"names": ["db"]},
            {"names": ["db:0"]},
            {"names": ["Db:1"]},
            {"names": [f"db:{2**48}"]},
            {"past": 2**48},
            {"genesis": "6,8,1:7001,2:7002"},
            {"number": 2},
        ):
            with self.subTest(**how):
                self.assertEqual((self.seed(self.new, **how)[0], self.files()), (2, []))
        self.assertEqual(self.ran("seed", "--past", "1", "--genesis", "6,8,1:1", "--number", "1", "--dir", "x")[0], 2)

    def test_a_kill_leaves_no_store(self):
        old = self.lost("old", self.two_names)
        command = [PROGRAM, *self.words(old, past=2**40)]
        with subprocess.Popen(command, stdin=subprocess.DEVNULL, stderr=subprocess.DEVNULL) as seeding:
            time.sleep(1)
            self.assertIsNone(seeding.poll())
            seeding.send_signal(signal.SIGKILL)
        self.assertEqual(self.files(), [])

    def test_a_half_written_store_is_none(self):
        old = self.lost("old", self.two_names)
        self.assertEqual(self.seed(old), (0, "", []))
        whole = {}
        for name in self.files():
            with open(os.path.join(self.new, name), "rb") as file:
                whole[name] = file.read()
        [store] = [name for name, data in whole.items() if data]
        with open(os.path.join(self.new, store), "r+b") as file:
            file.truncate(len(whole[store]) - 1)
        self.assertEqual(self.seed(old), (1, "", [f"{self.new}/a: {EXISTS}", "cannot open"]))
        self.assertEqual(self.ran("inspect", "--dir", self.new), (1, "no store\n", []))
        status, _, err = self.ran(
            *["node", "--genesis", f"6,8,1:{self.port}", "--number", "1"],
            *["--port", str(self.port), "--dir", self.new, "--existing"],
        )
        self.assertEqual((status, err[-2:]), (1, [
            f"{self.new}: no store in its files, and --existing begins none",
            "cannot open",
        ]))


if __name__ == "__main__":
    unittest.main()
