#!/usr/bin/env python3
"""Asks each script of the repository for its help, which it has to print and do nothing else.

The scripts are the files that may be executed at the top, in tools/, bench/, clients/ and the examples, and the Python
files of tools/ and bench/. ./locks is the program itself. A script also has to refuse an option that it does not know
with status 2. No file may be changed.

The last line is `N passed, M failed`, and the status is 1 if one failed."""
import os
import pathlib
import subprocess
import sys
import tempfile

from scripting import TOP, Tally, parser

FOLDERS = ("", "tools", "tools/systemd", "bench", "clients", "examples/one_writer", "examples/tour_11_waiters")
SECONDS = 300  # only a hang takes as long


def scripts():
    """The scripts, but for this one and ./locks."""
    for folder in FOLDERS:
        for it in sorted((TOP / folder).iterdir()):
            is_script = it.is_file() and (os.access(it, os.X_OK) or folder in ("tools", "bench") and it.suffix == ".py")
            if is_script and it not in (TOP / "locks", pathlib.Path(__file__).resolve()):
                yield it


def files():
    """The files of the repository, and when each was changed."""
    kept = (it for it in TOP.rglob("*") if not {".git", "out", "target", "__pycache__"} & {*it.relative_to(TOP).parts})
    proved = TOP / "crates/lk_main/out/lk_main"
    return {str(it): it.stat().st_mtime_ns for it in [*kept, *[proved] * proved.exists()] if it.is_file()}


def run(script, word):
    """Runs a script with one word, in an empty folder."""
    command = [script] if os.access(script, os.X_OK) else [sys.executable, script]
    piped = {"stdin": subprocess.DEVNULL, "capture_output": True, "text": True, "timeout": SECONDS}
    with tempfile.TemporaryDirectory() as folder:
        return subprocess.run([*command, word], cwd=folder, **piped)


def wrong(script):
    """What is wrong with the help of a script, if anything."""
    before, helped = files(), run(script, "--help")
    if helped.returncode or helped.stderr or len(helped.stdout.split()) < 8:
        return f"--help gives status {helped.returncode}, {helped.stdout!r} and {helped.stderr!r}"
    refused = run(script, "--no-such-option") if os.access(script, os.X_OK) else None
    if refused and (refused.returncode != 2 or not refused.stderr or "Traceback" in refused.stderr):
        return f"an unknown option gives status {refused.returncode} and {refused.stderr!r}"
    return "it changed a file" if files() != before else None


def main():
    parser(__doc__).parse_args()
    tally = Tally()
    for script in scripts():
        tally.row(f"{script.relative_to(TOP)} --help", wrong(script))
    tally.end()


if __name__ == "__main__":
    main()
