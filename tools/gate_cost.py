#!/usr/bin/env python3
"""Shows what each crate costs in a run of the gate.

It runs the command and looks twice a second at the processor time of each process of the prover that the command
started: which crate it checks, and whether its proof, its tests or its wrong bodies. What a process spent since it was
last seen is lost, a second or so of each. One that has ended and waits for its parent has no words left, and is not
looked at again. At the end it prints a table in minutes of a processor, with the machine's load and the
share of time that the host took away (`steal`)."""
import argparse, collections, os, pathlib, re, subprocess, sys, time

from scripting import TOP, parser

TICKS = os.sysconf("SC_CLK_TCK")


def processes():
    """Each process: its number, parent, ticks of its own and words."""
    for folder in pathlib.Path("/proc").glob("[0-9]*"):
        try:
            fields = (folder / "stat").read_text().rsplit(")", 1)[1].split()
            words = (folder / "cmdline").read_bytes().decode(errors="replace").split("\0")
            where = os.readlink(folder / "cwd")
        except OSError:
            continue
        if any(words):
            yield int(folder.name), int(fields[1]), int(fields[11]) + int(fields[12]), words, where


def below(top):
    """The processes below one, itself among them."""
    found, known = {}, {top}
    every = sorted(processes())
    for _ in range(8):
        for number, parent, ticks, words, where in every:
            if number in known or parent in known:
                known.add(number)
                found[number] = (ticks, words, where)
    return found


def kind_of(words, where):
    """The crate that a process checks, and what of it: "other" for all but the prover."""
    line = " ".join(words)
    named = re.search(r"--crate-name (\w+)", line)
    if not named:
        return "other", "proof"
    if "/rt-" in where or "/rt-edit" in line or "must-fail" in line:
        return named[1], "wrong bodies"
    return named[1], "tests" if "--test" in words else "proof"


def machine():
    """The machine's ticks since it began: all, and those that the host took away."""
    fields = list(map(int, pathlib.Path("/proc/stat").read_text().split("\n")[0].split()[1:9]))
    return sum(fields), fields[7]


def main():
    arguments = parser(__doc__)
    arguments.add_argument(
        "command", nargs=argparse.REMAINDER, metavar="COMMAND", help="what to run, ./check by default"
    )
    command = arguments.parse_args().command or ["./check"]
    start, (all_before, stolen_before) = time.time(), machine()
    spent, loads = {}, []
    run = subprocess.Popen(command, cwd=TOP)
    while run.poll() is None:
        for number, (ticks, words, where) in below(run.pid).items():
            spent[number, kind_of(words, where)] = ticks
        loads.append(os.getloadavg()[0])
        time.sleep(0.5)
    table = collections.Counter()
    for (_, kind), ticks in spent.items():
        table[kind] += ticks / TICKS / 60
    all_after, stolen_after = machine()
    lines = (TOP / "crates.txt").read_text().split("\n")
    crates = [line.split(":")[0] for line in lines if line and line[0] != "#"] + ["other"]
    kinds = ("proof", "wrong bodies", "tests")
    print("| crate | " + " | ".join(kinds) + " |\n|---|" + "---:|" * len(kinds))
    for crate in crates:
        print(f"| `{crate}` | " + " | ".join(f"{table[crate, kind]:.1f}" for kind in kinds) + " |")
    print("| all | " + " | ".join(f"{sum(table[crate, kind] for crate in crates):.1f}" for kind in kinds) + " |")
    stolen = (stolen_after - stolen_before) / max(1, all_after - all_before)
    minutes, load = (time.time() - start) / 60, sum(loads) / max(1, len(loads))
    print(
        f"{sum(table.values()):.1f} processor minutes, {minutes:.1f} by the clock, load {load:.1f}, "
        f"{stolen:.0%} taken by the host"
    )
    sys.exit(run.returncode)


if __name__ == "__main__":
    main()
