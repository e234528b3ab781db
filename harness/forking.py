"""Runs of the program that read stores, some thousand a second: each is a fork of a process that has not begun yet."""
import os
import subprocess
import tempfile

from harness.cluster import TOP

FAST = "/dev/shm" if os.path.isdir("/dev/shm") else None  # where files that need not last are kept, in memory


def library(folder, name):
    """Compiles tools/NAME.c into a folder. Its path."""
    path, source = os.path.join(folder, f"{name}.so"), os.path.join(TOP, "tools", f"{name}.c")
    subprocess.run(["cc", "-O2", "-shared", "-fPIC", "-o", path, source, "-ldl"], check=True)
    return path


class Reader:
    """Runs some subcommands of the program on stores of given bytes."""

    def __init__(self, program, commands, batch=64):
        self.room = tempfile.TemporaryDirectory(dir=FAST)
        self.folders = [os.path.join(self.room.name, str(at)) for at in range(batch)]
        for folder in self.folders:
            os.mkdir(folder)
        known = {**os.environ, "LD_PRELOAD": library(self.room.name, "forking")}
        piped = {"stdin": subprocess.PIPE, "stdout": subprocess.PIPE, "text": True, "env": known}
        self.processes = {it: subprocess.Popen([program, it, "--dir", "."], **piped) for it in commands}

    def __enter__(self):
        return self

    def __exit__(self, *_):
        for it in self.processes.values():
            it.stdin.close()
            it.wait()
            it.stdout.close()
        self.room.cleanup()

    def put(self, stores):
        """Writes the files of at most so many stores as a batch has."""
        for folder, files in zip(self.folders, stores):
            for name, data in zip("ab", files):
                with open(os.path.join(folder, name), "wb", buffering=0) as file:
                    file.write(data)

    def told(self, folder, status):
        """What a run there printed: its status, its output, and its standard error."""
        found = []
        for name in ("out", "err"):
            with open(os.path.join(folder, name), "rb", buffering=0) as file:
                found.append(file.read())
        return status, *found

    def ran(self, command, count):
        """What a subcommand prints of each of the first stores."""
        process, folders = self.processes[command], self.folders[:count]
        process.stdin.write("".join(f"{folder}\n" for folder in folders))
        process.stdin.flush()
        return [self.told(folder, int(process.stdout.readline())) for folder in folders]

    def read(self, command, stores):
        """What a subcommand prints of each of these stores, which are pairs of the bytes of `a` and `b`."""
        stores = list(stores)
        for first in range(0, len(stores), len(self.folders)):
            part = stores[first : first + len(self.folders)]
            self.put(part)
            yield from self.ran(command, len(part))
