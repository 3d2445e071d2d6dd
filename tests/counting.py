"""How many system calls a command makes, a file. It needs `strace`."""

import os
import sys

from harness import Failure, Skipped, needs

BENCH = os.path.join(os.path.dirname(os.path.abspath(__file__)), "..", "bench")


# Makes a world of mods; gives its folder and how many files a deployment of it has.
def _sample(world):
    sys.path.insert(0, BENCH)
    from gen_world import make_sample

    folder = world.path("sample")
    files = make_sample(7, folder)
    return os.path.join(folder, "world"), files


# How many files and folders there are below this one.
def _entries(folder):
    return sum(len(files) + len(folders) for _, folders, files in os.walk(folder))


def _makes_at_most(most, world, folder, *words):
    from runs import calls_of

    try:
        calls = calls_of([world.program, *words], folder)
    except SystemExit as told:
        raise Failure(str(told)) from told
    if calls is None:
        raise Skipped("strace isn't installed")
    if sum(calls.values()) > most:
        raise Failure(f"{words} made more than {most} system calls: {calls}")


# The digest of a file takes three calls, and its link one.
@needs("deploy", "check", "purge")
def a_command_makes_few_system_calls_for_each_file(world):
    folder, files = _sample(world)
    entries = _entries(os.path.join(folder, "stage"))
    _makes_at_most(10 * files, world, folder, "deploy")
    _makes_at_most(3 * files + entries, world, folder, "deploy")
    _makes_at_most(7 * files, world, folder, "check")
    _makes_at_most(8 * files, world, folder, "purge")
