"""The package as pip installs it, and the examples of the README, run as they are written."""
import importlib.util
import os
import re
import subprocess
import sys
import tempfile
import unittest

from harness.cluster import Cluster
from locks_client import Client

FOLDER = os.path.join(os.path.dirname(os.path.abspath(__file__)), "..")
PROGRAM = os.environ.get("LOCKS_PROGRAM")
HAS_PIP = importlib.util.find_spec("ensurepip") is not None
HELD = "held at fence 1\n"


def ran(*words, **how):
    """The status and the output of a command that knows no path of this folder."""
    known = {name: value for name, value in os.environ.items() if name != "PYTHONPATH"}
    known["PIP_CONFIG_FILE"] = os.devnull
    run = subprocess.run(
        words, env=known, stdout=subprocess.PIPE, stderr=subprocess.STDOUT, text=True, timeout=300, **how
    )
    return run.returncode, run.stdout


@unittest.skipUnless(PROGRAM and HAS_PIP, "LOCKS_PROGRAM does not tell the program, or Python has no pip")
class InstalledTest(unittest.TestCase):
    @classmethod
    def setUpClass(cls):
        cls.folder = cls.enterClassContext(tempfile.TemporaryDirectory())
        cls.python = os.path.join(cls.folder, "bin", "python")
        made = ran(sys.executable, "-m", "venv", cls.folder)
        pip = [cls.python, "-m", "pip", "--disable-pip-version-check"]
        installed = ran(*pip, "install", "--no-index", FOLDER, cwd=cls.folder)
        assert (made[0], installed[0]) == (0, 0), (made, installed)

    def setUp(self):
        self.room = self.enterContext(tempfile.TemporaryDirectory())
        self.cluster = self.enterContext(Cluster(PROGRAM, self.room))
        with self.cluster.client(Client, 256, patience=60.0) as first:
            first.ask("ready")
        with open(os.path.join(FOLDER, "README.md"), encoding="utf-8") as readme:
            self.readme = readme.read()

    def with_ports(self, text):
        """The text with the ports of this cluster."""
        for node, port in self.cluster.ports.items():
            text = text.replace(str(7000 + node), str(port))
        return text

    def test_the_examples_run_as_they_are_written(self):
        blocks = re.findall(r"```python\n(.*?)```", self.readme, re.DOTALL)
        outputs = [ran(self.python, "-c", self.with_ports(block), cwd=self.room) for block in blocks]
        leads = HELD + "client 7 leads\n"
        self.assertEqual(outputs, [(0, HELD), (0, HELD.replace("1", "3")), (0, HELD), (0, leads)])

    def test_the_program_runs_as_it_is_written(self):
        line = re.search(r"    locks-client (.*?)\n\n", self.readme, re.DOTALL)[1]
        program = os.path.join(self.folder, "bin", "locks-client")
        self.assertEqual(ran("sh", "-c", f"{program} {self.with_ports(line)}", cwd=self.room), (0, HELD))

    def test_the_types_are_told(self):
        where = "import importlib.resources as it; print((it.files('locks_client') / 'py.typed').is_file())"
        self.assertEqual(ran(self.python, "-c", where, cwd=self.room), (0, "True\n"))


if __name__ == "__main__":
    unittest.main()
