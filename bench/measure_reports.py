#!/usr/bin/env python3
"""Measures winners and reports of conflicts. usage: bench/measure_reports.py [PROGRAM]

Runs the timed tests of the crate winner_tests one by one. Each makes its mods in memory, finds load
order, winners and report three times, and fails where that takes too long. Prints the seconds of
the whole test, mods included, and where GNU time is there its peak memory, which must be below
1 GiB. PROGRAM is crates/winner_tests/out/winner_tests_tests where none is named; `rt test` in that
crate builds it.
"""

import os
import shutil
import subprocess
import sys
import tempfile
import time

HERE = os.path.dirname(os.path.abspath(__file__))
PROGRAM = os.path.join(HERE, "..", "crates", "winner_tests", "out", "winner_tests_tests")
PREFIX = "tests::times::"
MOST = 1 << 30


def names_of(program):
    """The timed tests."""
    listed = subprocess.run([program, "--list"], stdout=subprocess.PIPE, text=True, check=True)
    names = [line.split(": ")[0] for line in listed.stdout.splitlines()]
    return [name for name in names if name.startswith(PREFIX)]


def peak_of(program, name):
    """The seconds of a test, which must pass, and its peak memory in bytes, or None."""
    with tempfile.NamedTemporaryFile("r") as told:
        timer = [shutil.which("time"), "-f", "%M", "-o", told.name] if shutil.which("time") else []
        started = time.perf_counter()
        done = subprocess.run([*timer, program, name], stdout=subprocess.PIPE)
        seconds = time.perf_counter() - started
        if done.returncode != 0:
            sys.exit(f"{name} ended with status {done.returncode}: {done.stdout!r}")
        return seconds, int(told.read().split()[-1]) * 1024 if timer else None


def main():
    program = sys.argv[1] if len(sys.argv) > 1 else PROGRAM
    for name in names_of(program):
        seconds, peak = peak_of(program, name)
        shown = "" if peak is None else f", {peak / 1e6:.1f} MB"
        print(f"{name[len(PREFIX):]}: {seconds:.2f} s{shown}")
        if peak is not None and peak >= MOST:
            sys.exit("more than 1 GiB")


if __name__ == "__main__":
    main()
