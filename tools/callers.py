#!/usr/bin/env python3
"""callers.py [NAME ..]: programs that call the public functions of the crates, built without a proof and run.

Each file tools/callers/NAME.txt is the main file of such a program. Its first lines are comments: what it shows, `on:`
the crates that it uses, and either a line `prints:` for each line that it has to print, or `refused:` a text that the
compiler has to print when it refuses the program. Each is built by `rt try` in a copy of these crates, as many side by
side as there are processors, and runs compiled alone: its interpreter is given one step. The last line is `N passed, M
failed`, of the programs, and the status is 1 where one failed."""
import argparse
import concurrent.futures
import os
import pathlib
import re
import shutil
import subprocess
import sys
import tempfile

TOP = pathlib.Path(__file__).resolve().parent.parent
CALLERS = TOP / "tools" / "callers"
SECONDS = 3600  # of one program; the schedules take two minutes, and longer on a busy machine


def told(text, mark):
    """What the first lines tell after the mark."""
    return re.findall(rf"(?m)^// {mark}: (.*)$", text)


def below(names, lines):
    """These crates of the repository and all that they stand on."""
    found = {}
    for name in names:
        if name in lines and name not in found:
            found[name] = lines[name]
            found.update(below(lines[name].split(), lines))
    return found


def lay_out(folder, text):
    """Makes a repository of the program and of copies of the crates below it. Gives the program's folder."""
    entries = (line.partition("#")[0].partition(":") for line in (TOP / "crates.txt").read_text().splitlines())
    lines = {name.strip(): rest.strip() for name, colon, rest in entries if colon}
    [names] = told(text, "on")
    crates = below(names.split(), lines)
    listed = {**crates, "caller": names}
    (folder / "crates.txt").write_text("".join(f"{name}: {rest}\n" for name, rest in listed.items()))
    shutil.copy(TOP / "HANDLES", folder)
    for name in crates:
        shutil.copytree(TOP / "crates" / name, folder / "crates" / name, ignore=shutil.ignore_patterns("out"))
    source = folder / "crates" / "caller" / "src"
    source.mkdir(parents=True)
    (source / "main.rt").write_text(f"//! A caller of the crates below.\n#![tactic(auto)]\n\n{text}")
    return source.parent


def fault(text):
    """What is wrong with what comes of a program, as a text, if anything."""
    with tempfile.TemporaryDirectory() as folder:
        words = ["rt", "try", "--steps", "1", "--seconds", str(SECONDS)]
        crate = lay_out(pathlib.Path(folder), text)
        piped = {"stdin": subprocess.DEVNULL, "capture_output": True, "text": True, "errors": "replace"}
        run = subprocess.run(words, cwd=crate, **piped)
    refusals = told(text, "refused")
    if refusals:
        met = run.returncode and all(refusal in run.stdout + run.stderr for refusal in refusals)
    else:
        met = not run.returncode and run.stdout.splitlines() == told(text, "prints")
    return "" if met else f"status {run.returncode}\n{run.stdout[-2000:]}{run.stderr[-2000:]}"


def main():
    parser = argparse.ArgumentParser(description=__doc__, formatter_class=argparse.RawDescriptionHelpFormatter)
    parser.add_argument("names", nargs="*", metavar="NAME", help="a program of tools/callers; all where none is given")
    names = parser.parse_args().names or sorted(path.stem for path in CALLERS.glob("*.txt"))
    texts = [(CALLERS / f"{name}.txt").read_text(encoding="utf-8") for name in names]
    failed = 0
    with concurrent.futures.ThreadPoolExecutor(os.cpu_count()) as pool:
        for name, wrong in zip(names, pool.map(fault, texts)):
            failed += bool(wrong)
            if wrong:
                print(f"{name}: NOT as written: {wrong}", flush=True)
    print(f"{len(names) - failed} passed, {failed} failed", flush=True)
    return int(failed > 0)


if __name__ == "__main__":
    sys.exit(main())
