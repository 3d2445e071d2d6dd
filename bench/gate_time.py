#!/usr/bin/env python3
"""How long the gate takes, by crate and kind: the processor minutes of the prover's processes.

usage: bench/gate_time.py [COMMAND..]

Runs the command, `rt ci --anew` where none is named, and looks ten times a second at those of its
processes that are the prover (`rattle`), each with its crate (`--crate-name`) and what it is for:

    proofs        the crate proved and built (`rattle build`)
    tests         the crate proved again with its tests (`rattle build --test`)
    wrong bodies  checks of copies in which a must-fail edit was made (`rattle check`), and the one
                  of the crate itself with which they begin

A process counts with the processor time that it had when it was seen last, so each loses a tenth of
a second at most. What other programs take (the linker, the tests as they run) isn't counted. With
other work on the machine the processor time is nearly the same, the time on the clock isn't.

Prints what the command prints, then a table for docs/PROOFS.md.
"""

import os
import subprocess
import sys
import time

KINDS = ("proofs", "tests", "wrong bodies")
TICKS = os.sysconf("SC_CLK_TCK")
PAUSE_SECONDS = 0.1


def read(path):
    try:
        with open(path, "rb") as file:
            return file.read()
    except OSError:
        return b""


def processes():
    """Each process by its number: its parent's, when it began, and its processor seconds."""
    found = {}
    for name in os.listdir("/proc"):
        if name.isdigit():
            # What stands in parentheses is the program's name, which may hold spaces.
            fields = read(f"/proc/{name}/stat").rpartition(b")")[2].split()
            if len(fields) > 19:
                seconds = (int(fields[11]) + int(fields[12])) / TICKS
                found[int(name)] = (int(fields[1]), int(fields[19]), seconds)
    return found


def descendants(found, top):
    """The processes that the one at the top began, and those that they began."""
    inside = {top}
    grows = True
    while grows:
        more = {pid for pid, (parent, _, _) in found.items() if parent in inside} - inside
        inside |= more
        grows = bool(more)
    return inside - {top}


def purpose(pid):
    """The crate and the kind of a prover's process, or None where it is another program."""
    words = read(f"/proc/{pid}/cmdline").decode(errors="replace").split("\0")
    if os.path.basename(words[0]) != "rattle" or "--crate-name" not in words[:-1]:
        return None
    crate = words[words.index("--crate-name") + 1]
    if words[1] == "check":
        return crate, "wrong bodies"
    return crate, "tests" if "--test" in words else "proofs"


def watch(command):
    """Runs the command, and gives its status and each prover's process with its seconds."""
    child = subprocess.Popen(command)
    purposes, seconds = {}, {}
    while child.poll() is None:
        found = processes()
        for pid in descendants(found, child.pid):
            _, began, used = found[pid]
            key = (pid, began)
            # A process has its words a moment after it began.
            if purposes.get(key) is None:
                purposes[key] = purpose(pid)
            seconds[key] = used
        time.sleep(PAUSE_SECONDS)
    return child.returncode, [(purposes[key], seconds[key]) for key in seconds if purposes[key]]


def table(runs):
    minutes = {}
    for (crate, kind), seconds in runs:
        row = minutes.setdefault(crate, dict.fromkeys(KINDS, 0.0))
        row[kind] += seconds / 60
    total = {kind: sum(row[kind] for row in minutes.values()) for kind in KINDS}
    print("| Crate | " + " | ".join(KINDS) + " | all |")
    print("|---|" + "---|" * (len(KINDS) + 1))
    for crate, row in [*sorted(minutes.items()), ("all", total)]:
        cells = [row[kind] for kind in KINDS] + [sum(row.values())]
        print(f"| `{crate}` | " + " | ".join(f"{cell:.1f}" for cell in cells) + " |")


def main(words):
    started = time.monotonic()
    status, runs = watch(words or ["rt", "ci", "--anew"])
    print(f"\nProcessor minutes; on the clock {(time.monotonic() - started) / 60:.1f} minutes:\n")
    table(runs)
    return status


if __name__ == "__main__":
    sys.exit(main(sys.argv[1:]))
