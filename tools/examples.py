#!/usr/bin/env python3
"""Runs the examples and compares what they print.

`PROGRAM sim` on examples/NAME.txt has to print examples/NAME.out and nothing on standard error, with status 0, or 1
where the last line says that an event was refused. Where there is an examples/NAME.err, it has to print that on
standard error, with status 1. Each `examples/NAME/run.py PROGRAM` has to print examples/NAME/run.out, with status 0.

The last line is `N passed, M failed`, and the status is 1 if one failed."""
import subprocess, sys

from scripting import TOP, with_program


def is_as_written(program, script):
    """Whether the script prints and ends as what stands beside it says."""
    told = script.with_suffix(".err")
    printed = script.with_suffix(".out").read_bytes()
    last = (printed.splitlines() or [b""])[-1]
    ended = told.exists() or last.startswith(b"refused ")
    wanted = (printed, told.read_bytes() if told.exists() else b"", int(ended))
    with script.open("rb") as lines:
        run = subprocess.run([program, "sim"], stdin=lines, capture_output=True)
    return (run.stdout, run.stderr, run.returncode) == wanted


def is_shown(program, script):
    """Whether the script, which starts the program itself, prints and ends as what stands beside it says."""
    run = subprocess.run([sys.executable, script, program], stdout=subprocess.PIPE, timeout=600)
    return (run.stdout, run.returncode) == (script.with_suffix(".out").read_bytes(), 0)


def main():
    program = with_program(__doc__).parse_args().program
    scripts, shown = sorted((TOP / "examples").glob("*.txt")), sorted((TOP / "examples").glob("*/run.py"))
    bad = [script for script in scripts if not is_as_written(program, script)]
    bad += [script for script in shown if not is_shown(program, script)]
    for script in bad:
        print(f"{script.relative_to(TOP)}: NOT as written", flush=True)
    print(f"{len(scripts) + len(shown) - len(bad)} passed, {len(bad)} failed", flush=True)
    sys.exit(bool(bad))


if __name__ == "__main__":
    main()
