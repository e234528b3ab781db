#!/usr/bin/env python3
"""Shows what each function of a crate costs the prover, the dearest last.

It runs `rt check --jobs 1 WORDS ..` in crates/CRATE, of `lk_tests` with `--test`. A check names some functions as they
end. The processor seconds since the line before are those of all functions that it has checked since then, the named
one the last of them, so look at a surprising figure again with `rt check --only`. What is kept costs nothing: for all
figures remove crates/CRATE/out first."""
import argparse, os, pathlib, re, subprocess, sys

from scripting import TOP, need, parser


def spent(session):
    """The processor seconds of all processes of a session, and of those that they have waited for."""
    ticks = 0
    for stat in pathlib.Path("/proc").glob("[0-9]*/stat"):
        try:
            fields = stat.read_text().rsplit(")", 1)[1].split()
        except OSError:
            continue
        if int(fields[3]) == session:
            ticks += sum(map(int, fields[11:15]))
    return ticks / os.sysconf("SC_CLK_TCK")


def main():
    arguments = parser(__doc__)
    crates = sorted(it.name for it in (TOP / "crates").iterdir())
    arguments.add_argument("crate", choices=crates, metavar="CRATE", help="the crate")
    arguments.add_argument("words", nargs=argparse.REMAINDER, metavar="WORDS", help="arguments of `rt check`")
    given = arguments.parse_args()
    need("rt")
    crate, words = given.crate, ["--test"] * (given.crate == "lk_tests") + given.words
    costs, before, checked = [], 0.0, 0
    mixed = {"stdin": subprocess.DEVNULL, "stdout": subprocess.PIPE, "stderr": subprocess.STDOUT, "text": True}
    command = ["rt", "check", "--jobs", "1", *words]
    with subprocess.Popen(command, cwd=TOP / "crates" / crate, start_new_session=True, **mixed) as check:
        for line in check.stdout:
            now = spent(check.pid)
            named = re.match(rf"checked {crate}::(.*), (\d+) of \d+", line)
            if named:
                costs.append((now - before, int(named[2]) - checked, named[1]))
                before, checked = now, int(named[2])
    for seconds, many, name in sorted(costs):
        print(f"{seconds:8.1f}  {name}" + f", and {many - 1} before it" * (many > 1))
    print(f"{now:8.1f}  in all: {line.strip()[:100]}")
    sys.exit(check.returncode)


if __name__ == "__main__":
    main()
