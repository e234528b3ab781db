"""A file system with a journal in memory: ext4 on a loop device, whose file is in /dev/shm.

A sync of it costs what ext4 and its journal cost and no disk: so the longest times of a run are not those of the
disk."""
import contextlib
import os
import shutil
import subprocess
import tempfile

MEMORY = "/dev/shm"
SIZE = 2 << 30  # bytes of the file; only those that are written take memory
NEEDED = "losetup", "mkfs.ext4", "mount", "umount"


def missing():
    """What has to be there before it can be made, if anything."""
    if os.geteuid():
        return "only root can mount"
    lacking = [it for it in NEEDED if not shutil.which(it)]
    return f"{', '.join(lacking)}: not on the path" if lacking else None


def run(*words):
    return subprocess.run(words, check=True, stdin=subprocess.DEVNULL, capture_output=True, text=True).stdout.strip()


@contextlib.contextmanager
def journaled():
    """A folder on such a file system, which is gone at the end."""
    with contextlib.ExitStack() as undone:
        file = undone.enter_context(tempfile.NamedTemporaryFile(dir=MEMORY, prefix="locks-journal-"))
        file.truncate(SIZE)
        device = run("losetup", "--find", "--show", file.name)
        undone.callback(run, "losetup", "--detach", device)
        run("mkfs.ext4", "-q", device)
        folder = undone.enter_context(tempfile.TemporaryDirectory(prefix="locks-journal-"))
        run("mount", device, folder)
        undone.callback(run, "umount", folder)
        yield folder


if __name__ == "__main__":
    print(__doc__)
