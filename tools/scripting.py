"""What the scripts share: how they read their arguments, the commands that they need, and how they end."""
import argparse
import os
import pathlib
import shutil
import subprocess
import sys

TOP = pathlib.Path(__file__).resolve().parent.parent
PROVED = TOP / "crates/lk_main/out/lk_main"
KEPT = pathlib.Path(os.environ.get("XDG_CACHE_HOME") or "~/.cache").expanduser() / "locks/proofs"  # what ./prove keeps
LABEL = b"rattle logic="  # the compiler writes it into each program that it has proved
HINTS = {
    "rt": "it is the command of the Rattle kit",
    "cc": "it is a C compiler; Debian: apt-get install gcc",
    "cargo": "it builds Rust; Debian: apt-get install cargo",
    "go": "it builds Go; Debian: apt-get install golang-go",
    "man": "it shows manual pages; Debian: apt-get install man-db",
    "valgrind": "it counts instructions; Debian: apt-get install valgrind",
    "chromium": "it shows pages; Debian: apt-get install chromium",
    "etcd": "Debian: apt-get install etcd-server",
    "strace": "it counts and delays system calls; Debian: apt-get install strace",
}


def parser(doc):
    """A parser of a script's arguments. Its help is the script's docstring."""
    return argparse.ArgumentParser(description=doc, formatter_class=argparse.RawDescriptionHelpFormatter)


def with_program(doc):
    """The same for a script that runs a program."""
    made = parser(doc)
    made.add_argument("program", nargs="?", default=TOP / "locks", type=a_program, help="./locks by default")
    return made


def a_program(word):
    """The path of a program that was named on the command line."""
    path = pathlib.Path(word).resolve()
    if not shutil.which(path):
        raise argparse.ArgumentTypeError(f"no program: {word}")
    return path


def need(*commands):
    """Ends the script with one line where a command is not on the path."""
    for it in commands:
        if not shutil.which(it):
            sys.exit(f"{pathlib.Path(sys.argv[0]).name}: {it} is not on the path: {HINTS[it]}")


def program_file(program):
    """The file of a program: for ./locks the one that it runs."""
    if program != TOP / "locks":
        return program
    ran = subprocess.run([program, "--path"], stdout=subprocess.PIPE, text=True)
    return pathlib.Path(ran.stdout.strip() or sys.exit(ran.returncode))


def scratch(folder):
    """Copies the repository into a folder, without its crates and all that is built. It has an empty crate lk_main."""
    dropped = shutil.ignore_patterns(".git", "crates", "out", "run", "target", "__pycache__")
    made = pathlib.Path(shutil.copytree(TOP, folder, ignore=dropped, dirs_exist_ok=True))
    (made / "crates/lk_main/src").mkdir(parents=True)
    return made


def is_proved(program):
    """Whether a program says in itself that it is proved."""
    return LABEL in pathlib.Path(program).read_bytes()


class Untried(Exception):
    """Why a row cannot be tried on this machine."""


class Tally:
    """Counts the rows of a script that passed and that failed."""

    def __init__(self):
        self.passed = self.failed = 0

    def row(self, name, wrong=None):
        """Counts a row, which failed where something was wrong with it."""
        self.passed, self.failed = self.passed + (not wrong), self.failed + bool(wrong)
        print(f"{name}: NOT as it should: {wrong}" if wrong else f"{name}: as it should", flush=True)

    def check(self, function, *arguments):
        """Counts a row, which the function's docstring says. The function returns what is wrong, or raises Untried."""
        name = function.__doc__.rstrip(".")
        try:
            self.row(name, function(*arguments))
        except Untried as why:
            print(f"{name}: not tried, {why}", flush=True)

    def end(self):
        """Prints the last line of the script and ends it."""
        print(f"{self.passed} passed, {self.failed} failed", flush=True)
        sys.exit(self.failed > 0)


if __name__ == "__main__":
    parser(__doc__).parse_args()
