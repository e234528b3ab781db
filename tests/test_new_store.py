"""What a node logs of its store as it starts: the first start makes a new one, the next finds it."""
import os
import subprocess
import tempfile
import unittest

from harness.cluster import free_ports

PROGRAM = os.environ.get("LOCKS_PROGRAM")


def logged(folder, port):
    """The line about its store that node 1, which stands alone, logs as it starts in the folder."""
    words = ["--genesis", f"5,2,1:{port}", "--number", "1", "--port", str(port), "--dir", folder, "--log", "--verbose"]
    piped = {"stdin": subprocess.DEVNULL, "stderr": subprocess.PIPE, "text": True}
    with subprocess.Popen([PROGRAM, "node", *words], **piped) as process:
        found = next((line for line in process.stderr if "came up" in line), "")
        process.kill()
    return found.rsplit("] ", 1)[-1].rstrip("\n")


class NewStore(unittest.TestCase):
    def test_a_store_is_new_once(self):
        with tempfile.TemporaryDirectory() as folder:
            port = free_ports(1)[0]
            self.assertEqual(logged(folder, port), "came up with a new store")
            self.assertEqual(logged(folder, port), "came up with the store that it had")


if __name__ == "__main__":
    unittest.main()
