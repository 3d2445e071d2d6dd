#!/usr/bin/env python3
"""Measures whole commands beside the least that they can cost, and beside other programs.

usage: bench/measure.py [PROGRAM] [--sizes N..] [--rounds N] [--scratch FOLDER] [--limits]
           [--alone]

For worlds of 1,050, 6,050, 50,000 and 185,000 deployed files (the last has 199,800 entries of
mods): a first `deploy`, a `deploy` that has nothing to do, `check` and `purge`, beside `floor.c`
and, where they are installed, `cp -al`, `rsync --link-dest` and `stow`. In each round all of them
run once, one after the other; of each the median of three rounds is told, of the largest worlds
one round. `stow -D` takes off what `stow` linked. The others get what the program has to find out: the winners as one folder (`cp` and
`rsync`) or package (`stow`), and an empty game. None of them writes down what it does, or syncs.

With --limits also: system calls of `winners` a file, at 200,000 files in 2,000 mods; `plan` of
200,000 rows; system calls of `check` a row, at 6,050 rows.

With --alone `cp`, `rsync` and `stow` are left out.

Prints Markdown tables: seconds on the clock and as a multiple of the floor's, processor seconds
as a multiple of the floor's, system calls a deployed file by strace (up to 6,050 files), and
peak memory by GNU time. PROGRAM is crates/mod_deployer/out/mod_deployer where none is named.
Worlds are made below the current folder where none is named, and taken away again.
"""

import argparse
import os
import shutil
import subprocess
import sys
import tempfile

HERE = os.path.dirname(os.path.abspath(__file__))
sys.path.insert(0, HERE)
sys.dont_write_bytecode = True

from gen_flat import make_world
from gen_world import make_large, make_sample
from runs import PROGRAM, calls_of, measure, median

WORLDS = {
    1050: lambda folder: make_sample(0, folder),
    6050: lambda folder: make_sample(100, folder),
    50_000: lambda folder: make_large(500, 100, folder),
    185_000: lambda folder: make_large(1850, 100, folder),
}
MOST_TRACED = 6050


class Bench:
    """A world with all that is run in it."""

    def __init__(self, program, floor, folder, size, alone):
        self.folder = folder
        self.world = os.path.join(folder, "world")
        self.size = WORLDS[size](folder)
        self.rows = []
        winners = os.path.join(folder, "winners.tsv")
        self.program = program
        self.floor = {word: [floor, word, self.world, winners] for word in ("deploy", "purge")}
        self.peers = {} if alone else self._peers(winners)

    # The winners as one folder, by links, and what brings them into an empty game.
    def _peers(self, winners):
        package = os.path.join(self.folder, "packages", "winners")
        with open(winners, encoding="utf-8") as file:
            for line in file:
                source, place = line.rstrip("\n").split("\t")
                path = os.path.join(package, place[len("game/") :])
                os.makedirs(os.path.dirname(path), exist_ok=True)
                os.link(os.path.join(self.world, source), path)
        packages = os.path.dirname(package)
        other = os.path.join(self.folder, "other")
        peers = {
            "cp -al": ["cp", "-al", package + "/.", other],
            "rsync --link-dest": ["rsync", "-a", f"--link-dest={package}", package + "/", other],
            "stow": ["stow", "--no-folding", "-d", packages, "-t", other, "winners"],
        }
        return {name: words for name, words in peers.items() if shutil.which(words[0])}

    def round(self, traced=False):
        """Runs everything once; gives the runs by name, or the system calls."""
        how = calls_of if traced else measure
        program, world = [self.program], self.world
        runs = {
            "deploy, floor": how(self.floor["deploy"], world),
            "purge, floor": how(self.floor["purge"], world),
            "deploy": how([*program, "deploy"], world),
            "deploy, nothing to do": how([*program, "deploy"], world),
            "check": how([*program, "check"], world),
            "purge": how([*program, "purge"], world),
        }
        for name, words in self.peers.items():
            other = os.path.join(self.folder, "other")
            os.mkdir(other)
            runs[name] = how(words, self.folder)
            if name == "stow":
                runs["purge, stow -D"] = how([words[0], "-D", *words[1:]], self.folder)
            shutil.rmtree(other)
        return runs


def tell(bench, rounds):
    taken = [bench.round() for _ in range(rounds)]
    runs = {name: median([each[name] for each in taken]) for name in taken[0]}
    traced = bench.round(traced=True) if bench.size <= MOST_TRACED else {}
    for name, run in runs.items():
        least = runs["purge, floor" if name.startswith("purge") else "deploy, floor"]
        calls = traced.get(name)
        told = "" if calls is None else f"{sum(calls.values()) / bench.size:.1f}"
        peak = "" if run.peak is None else f"{run.peak / 1e6:.0f} MB"
        print(
            f"| {bench.size:,} | {name} | {run.seconds:.3f} s | {run.seconds / least.seconds:.2f} "
            f"| {run.processor / least.processor:.2f} | {told} | {peak} |",
            flush=True,
        )


def tell_limits(program, scratch):
    print("\n| What | Seconds | Processor | System calls | Peak |\n|---|---|---|---|---|")

    def row(what, run, calls, count, unit):
        told = "" if calls is None else f"{sum(calls.values()) / count:.2f} a {unit}"
        peak = "" if run.peak is None else f"{run.peak / 1e6:.0f} MB"
        seconds = f"{run.seconds:.2f} s | {run.processor:.2f} s"
        print(f"| {what} | {seconds} | {told} | {peak} |", flush=True)

    flat = os.path.join(scratch, "flat")
    make_world(200_000, 2000, flat)
    for word in ["order", "winners", "conflicts"]:
        calls = calls_of([program, word], flat) if word == "winners" else None
        run = measure([program, word], flat)
        row(f"`{word}`, 200,000 files in 2,000 mods", run, calls, 200_000, "file")
    row("`plan` of 200,000 rows", measure([program, "plan"], flat), None, 1, "")
    shutil.rmtree(flat)
    folder = os.path.join(scratch, "sample")
    make_sample(100, folder)
    world = os.path.join(folder, "world")
    measure([program, "deploy"], world)
    run, calls = measure([program, "check"], world), calls_of([program, "check"], world)
    row("`check` of 6,050 rows", run, calls, 6050, "row")
    shutil.rmtree(folder)


def made_floor(scratch):
    floor = os.path.join(scratch, "floor")
    source = os.path.join(HERE, "floor.c")
    subprocess.run(["cc", "-O2", "-o", floor, source, "-lcrypto"], check=True)
    return floor


def main():
    parser = argparse.ArgumentParser(description=__doc__.split("\n")[0])
    parser.add_argument("program", nargs="?", default=PROGRAM)
    parser.add_argument("--sizes", nargs="*", type=int, default=list(WORLDS), choices=list(WORLDS))
    parser.add_argument("--rounds", type=int, help="for each size; three, and one for the largest")
    parser.add_argument("--scratch", default=os.getcwd())
    parser.add_argument("--limits", action="store_true")
    parser.add_argument("--alone", action="store_true", help="without the other programs")
    words = parser.parse_args()
    program = os.path.abspath(words.program)
    with tempfile.TemporaryDirectory(prefix="bench_", dir=words.scratch) as scratch:
        floor = made_floor(scratch)
        if words.sizes:
            print("| Files | Run | Seconds | of the floor's | Processor, of the floor's "
                  "| System calls a file | Peak |")
            print("|---|---|---|---|---|---|---|")
        for size in words.sizes:
            folder = os.path.join(scratch, str(size))
            rounds = words.rounds or (1 if size > 100_000 else 3)
            tell(Bench(program, floor, folder, size, words.alone), rounds)
            shutil.rmtree(folder)
        if words.limits:
            tell_limits(program, scratch)


if __name__ == "__main__":
    main()
