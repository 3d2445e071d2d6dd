"""Runs of programs, measured: seconds on the clock and of the processor, memory, system calls."""

import os
import shutil
import subprocess
import sys
import tempfile
import time

HERE = os.path.dirname(os.path.abspath(__file__))
PROGRAM = os.path.join(HERE, "..", "crates", "mod_deployer", "out", "mod_deployer")


class Run:
    """How long a run took, and its peak memory in bytes where GNU time is there."""

    def __init__(self, seconds, processor, peak, printed):
        self.seconds = seconds
        self.processor = processor
        self.peak = peak
        self.printed = printed


def measure(words, folder, wanted=0):
    """Runs the words in the folder; they must end with this status. What Python starts by itself
    inherits the peak memory of Python, so GNU time is asked for it."""
    with tempfile.NamedTemporaryFile("r") as told:
        timer = shutil.which("time")
        front = [timer, "-f", "%M", "-o", told.name] if timer else []
        started = time.perf_counter()
        # The answer is printed into a file, so that nobody waits for a reader.
        with tempfile.TemporaryFile() as out:
            process = subprocess.Popen([*front, *words], cwd=folder, stdout=out, stderr=out)
            _, status, used = os.wait4(process.pid, 0)
            process.returncode = os.waitstatus_to_exitcode(status)
            seconds = time.perf_counter() - started
            out.seek(0)
            printed = out.read()
        if process.returncode != wanted:
            sys.exit(f"{words} ended with status {process.returncode}: {printed[:300]!r}")
        peak = int(told.read().split()[-1]) * 1024 if timer else None
    return Run(seconds, used.ru_utime + used.ru_stime, peak, printed)


def calls_of(words, folder, wanted=0):
    """How often the words make each system call, by strace; None where that isn't there."""
    if not shutil.which("strace"):
        return None
    with tempfile.NamedTemporaryFile("r") as told:
        measure(["strace", "-f", "-c", "-o", told.name, *words], folder, wanted)
        calls = {}
        for line in told:
            parts = line.split()
            # The share, the seconds, those a call, the calls, perhaps errors, the name.
            if len(parts) >= 5 and parts[3].isdigit() and parts[-1] != "total":
                calls[parts[-1]] = int(parts[3])
    return calls


def median(runs):
    """The run in the middle by its seconds."""
    return sorted(runs, key=lambda run: run.seconds)[len(runs) // 2]
