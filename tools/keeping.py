"""What is proved is kept, so that it is not proved again. Most kits do this themselves: what one run of `rt ci` has
proved is kept for every later one. For a kit that keeps nothing, tools/proving.py keeps it in a folder of its own."""
import hashlib
import importlib.machinery
import importlib.util
import os
import pathlib
import shutil
import uuid

from scripting import parser

NAME = "name"  # a file with the name of what a proof has made


def command_of(name):
    """The module of a command that is a Python script without an ending."""
    loader = importlib.machinery.SourceFileLoader(name, os.path.realpath(shutil.which(name)))
    made = importlib.util.module_from_spec(importlib.util.spec_from_loader(name, loader))
    loader.exec_module(made)
    return made


def keeps(rt):
    """Whether the kit keeps what `rt ci` has proved."""
    return hasattr(rt, "Kept")


def linked(source, to):
    """Links a file, or copies it to another file system."""
    try:
        os.link(source, to)
    except OSError:
        shutil.copy2(source, to)


class KitStore:
    """What the kit keeps of the crates in the current folder: only `rt ci` adds to it."""

    def __init__(self, rt):
        rt.Crate.allowed = rt.handles_of(os.getcwd())
        self.crates = {it.name: it for it in rt.crates_of(os.getcwd())}
        self.kept = rt.Kept([*self.crates.values()])

    def give(self, name):
        """Puts the library of a crate in its place if it is kept, and each below. Whether it is."""
        crate = self.crates[name]
        if any(it.name not in self.kept.rlibs for it in crate.below()):
            return False
        shutil.rmtree(f"{crate.folder}/out/rlib", ignore_errors=True)
        if not self.kept.give(crate, False, self.kept.key(crate)):
            return False
        self.kept.is_built(crate)
        return True


class OwnStore:
    """A folder of what was proved. A proof fits only the very libraries that it was made over, so each has a name of
    its own, and what is kept of a crate is found by its sources and the names of the libraries below it."""

    def __init__(self, folder, rt, anew=False):
        self.folder, self.anew = pathlib.Path(folder), anew
        self.folder.mkdir(parents=True, exist_ok=True)
        self.crates = {it.name: it for it in rt.rtlib.crates_below(os.getcwd())}
        self.made = {}

    def place(self, name):
        """The folder for a crate with its present sources, over the libraries of this run."""
        crate = self.crates[name]
        over = [crate.stamp(), *(self.made[it.name] for it in crate.below())]
        return self.folder / f"{name}-{hashlib.sha256(repr(over).encode()).hexdigest()[:32]}"

    def find(self, name):
        """The folder of what the proof of a crate has made, if it is kept, and with it all libraries below."""
        if self.anew or any(it.name not in self.made for it in self.crates[name].below()):
            return None
        kept = self.place(name)
        if not kept.is_dir():
            return None
        self.made[name] = (kept / NAME).read_text()
        return kept

    def take(self, name):
        """Puts back what the proof of a crate has made, if it is kept. Whether it is."""
        kept = self.find(name)
        if kept:
            shutil.copytree(kept, f"{self.crates[name].folder}/out", copy_function=linked, dirs_exist_ok=True)
        return bool(kept)

    def give(self, name):
        """Puts the library of a crate in its place, if it is kept. Whether it is."""
        kept, place = self.find(name), f"{self.crates[name].folder}/out/rlib"
        if kept:
            shutil.rmtree(place, ignore_errors=True)
            shutil.copytree(kept / "rlib", place, copy_function=linked)
        return bool(kept)

    def put(self, name):
        """Keeps what the proof of a crate has made, in place of what is kept of the crate."""
        out, new = pathlib.Path(self.crates[name].folder, "out"), self.folder / f"new-{uuid.uuid4()}"
        self.made[name] = new.name
        (out / NAME).write_text(new.name)
        shutil.copytree(out, new, copy_function=linked)
        for it in self.folder.glob(f"{name}-*"):
            shutil.rmtree(it, ignore_errors=True)
        new.replace(self.place(name))


if __name__ == "__main__":
    parser(__doc__).parse_args()
