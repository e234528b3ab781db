"""A start without options: the files and sockets that a node opens, and the first bytes that it sends."""
import os
import re
import shutil
import socket
import subprocess
import tempfile
import time
import unittest

from harness.by_bytes import bytes_of
from harness.cluster import free_ports

PROGRAM = os.environ.get("LOCKS_PROGRAM")

# Node 1 of cluster 5 asks another one for a promise in its first ballot.
PREPARE = "4c4b0101 0000000000000005 00000001 0000000000000001 00000001 0000000000000001"

OF_LOADER = re.compile(r"/etc/ld\.so\..*|.*\.so[.\d]*")  # what is opened before the program runs
STRACE = ["strace", "-D", "-f", "-qq", "-s", "4096", "-e", "trace=open,openat,socket,bind,connect"]


def untraced():
    """Why system calls cannot be seen here, if they cannot."""
    if not shutil.which("strace"):
        return "strace is not on the path"
    ran = subprocess.run(["strace", "-o", "/dev/null", "true"], capture_output=True, text=True)
    return ran.stderr.strip() if ran.returncode else ""


@unittest.skipUnless(PROGRAM, "LOCKS_PROGRAM does not tell the program")
class StartTest(unittest.TestCase):
    def setUp(self):
        self.folder, self.ports = self.enterContext(tempfile.TemporaryDirectory()), free_ports(3)
        self.store = os.path.join(self.folder, "1")
        os.mkdir(self.store)
        self.others = [self.bound(port) for port in self.ports[1:]]

    def bound(self, port):
        """A socket at a port."""
        it = self.enterContext(socket.socket(socket.AF_INET, socket.SOCK_DGRAM))
        it.bind(("127.0.0.1", port))
        it.settimeout(20.0)
        return it

    def started(self, *before):
        """Node 1 of three, which is killed at last."""
        genesis = "5,8," + ",".join(f"{node}:{port}" for node, port in enumerate(self.ports, 1))
        words = ["node", "--genesis", genesis, "--number", "1", "--port", str(self.ports[0]), "--dir", self.store]
        process = subprocess.Popen([*before, PROGRAM, *words], stdin=subprocess.DEVNULL)
        self.addCleanup(process.wait)
        self.addCleanup(process.kill)
        return process

    def test_its_first_bytes_are_a_datagram_in_no_frame(self):
        self.started()
        for it in self.others:
            data, sender = it.recvfrom(9000)
            self.assertEqual((data.hex(), sender), (bytes_of(PREPARE).hex(), ("127.0.0.1", self.ports[0])))

    def traced(self):
        """The calls of a start, until it has sent."""
        path = os.path.join(self.folder, "trace")
        process = self.started(*STRACE, "-o", path)
        self.others[0].recv(9000)
        process.kill()
        end = time.monotonic() + 20.0
        while time.monotonic() < end:
            with open(path, encoding="utf-8") as file:
                text = file.read()
            if "+++ killed" in text:
                return text
            time.sleep(0.05)
        self.fail("strace has not ended")

    @unittest.skipIf(untraced(), f"the files and sockets of a start are not seen: {untraced()}")
    def test_it_opens_its_store_and_one_socket_of_loopback(self):
        text = self.traced()
        opened = {it for it in re.findall(r'\bopen(?:at)?\([^"]*"([^"]*)"', text) if not OF_LOADER.fullmatch(it)}
        self.assertEqual(opened, {self.store, os.path.join(self.store, "a"), os.path.join(self.store, "b")})
        self.assertEqual(re.findall(r"\bsocket\((\w+), (\w+)", text), [("AF_INET", "SOCK_DGRAM")])
        place = f'sin_port=htons({self.ports[0]}), sin_addr=inet_addr("127.0.0.1")'
        self.assertEqual(re.findall(r"\b(?:bind|connect)\(\d+, {sa_family=AF_INET, ([^}]*)}", text), [place])


if __name__ == "__main__":
    unittest.main()
