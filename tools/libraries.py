#!/usr/bin/env python3
"""Gives `rt check`, `rt plant` and `rt must-fail` the libraries below the named crates, from what ./prove or `rt ci`
has kept.

Without them `rt` first builds each library below a crate that is not there or has changed, which can take half an hour.
A library that has changed since it was proved is not given, nor is any above it: `rt` builds these. The last line says
how many were given. Only `rt ci` gives a verdict."""
import functools
import os
import pathlib
import sys

from keeping import KitStore, OwnStore, command_of, keeps
from proving import is_known
from scripting import KEPT, TOP, need, parser


def give(store, name):
    """Puts the library of a crate in its place, if it is kept, with the stamp by which `rt check` takes it. Whether it
    is."""
    crate = store.crates[name]
    given = store.give(name)
    if given:
        pathlib.Path(crate.folder, "out/rlib/stamp").write_text(crate.stamp())
    return given


def main():
    arguments = parser(__doc__)
    crates = sorted(it.name for it in (TOP / "crates").iterdir() if it.is_dir())
    arguments.add_argument("crates", nargs="+", choices=crates, metavar="CRATE", help="a crate")
    named = arguments.parse_args().crates
    need("rt")
    os.chdir(TOP)
    rt = command_of("rt")
    if not is_known(rt):
        sys.exit("libraries.py: this kit's `rt` has another form; run `rt check`, which builds the libraries")
    rt.rtlib.Crate.stamp = functools.cache(rt.rtlib.Crate.stamp)
    store = KitStore(rt) if keeps(rt) else OwnStore(KEPT, rt)
    wanted = {below.name for name in named for below in store.crates[name].below()}
    given = [name for name in store.crates if name in wanted and give(store, name)]
    print(f"{len(given)} of {len(wanted)} libraries given")


if __name__ == "__main__":
    main()
