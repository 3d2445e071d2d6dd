#!/usr/bin/env python3
"""Measures the scan of mods with folders.

usage: bench/measure_scan.py [PROGRAM] [--files N] [--folders N]

For 190,000 files in 10,000 folders, of one mod and then of 200 mods: the least time of three runs
of `winners`; where GNU time is there, also the peak memory above that of a run over no files and
above the bytes of the files' paths; where strace is there, the system calls a file. PROGRAM is
crates/mod_deployer/out/mod_deployer where none is named.
"""

import argparse
import os
import shutil
import sys
import tempfile

HERE = os.path.dirname(os.path.abspath(__file__))
sys.path.insert(0, HERE)
sys.dont_write_bytecode = True

from gen_nested import make_world
from runs import PROGRAM, calls_of, measure

MODS = (1, 200)
RUNS = 3


def main():
    parser = argparse.ArgumentParser(description=__doc__.split("\n")[0])
    parser.add_argument("program", nargs="?", default=PROGRAM)
    parser.add_argument("--files", type=int, default=190_000)
    parser.add_argument("--folders", type=int, default=10_000)
    words = parser.parse_args()
    command, files = [os.path.abspath(words.program), "winners"], words.files
    with tempfile.TemporaryDirectory(prefix="bench_", dir=os.getcwd()) as scratch:
        empty = os.path.join(scratch, "empty")
        make_world(0, 0, 1, empty)
        least = measure(command, empty).peak
        for mods in MODS:
            world = os.path.join(scratch, str(mods))
            text = make_world(files, words.folders, mods, world)
            runs = [measure(command, world) for _ in range(RUNS)]
            seconds = min(run.seconds for run in runs)
            print(f"{files} files in {words.folders} folders of {mods} mods:")
            print(f"    {seconds:.2f} seconds, {seconds / files * 1e6:.1f} us a file")
            if least is not None:
                above = (runs[0].peak - least - text) / files
                print(f"    {above:.0f} bytes a file beside its path")
            calls = calls_of(command, world)
            if calls is not None:
                print(f"    {sum(calls.values()) / files:.2f} system calls a file")
            shutil.rmtree(world)


if __name__ == "__main__":
    main()
