"""The real program killed at each of its calls that change the disk, and then `recover`: what
stands is the old state or the new one, by the numbers of the files. It needs `strace`."""

import os
import re
import shutil
import subprocess

from harness import Failure, Skipped, World, needs, same

CALLS = [
    "link",
    "linkat",
    "unlink",
    "unlinkat",
    "rename",
    "renameat",
    "renameat2",
    "mkdir",
    "mkdirat",
    "rmdir",
    "openat",
    "write",
    "ftruncate",
]
CONTROLS = ["game/vortex.deployment.json", "keep/profile.toml"]
KILLED = (-9, 137)


# The kill.


# Runs the words below `strace` with these options; gives the status.
def _traced(world, options, words):
    done = subprocess.run(
        ["strace", "-f", "-qq", *options, world.program, *words],
        cwd=world.base,
        stdin=subprocess.DEVNULL,
        capture_output=True,
        timeout=60,
        check=False,
    )
    return done.returncode


# The calls of the words that change the disk, in order: each with its number among those of its
# name.
def _changing_calls(world, words):
    log = world.path("calls")
    status = _traced(world, ["-o", log, "-e", "trace=" + ",".join(CALLS)], words)
    same("the status", status, 0)
    with open(log, encoding="utf-8", errors="replace") as file:
        made = re.findall(r"^\d+ +(\w+)\((.*)", file.read(), re.MULTILINE)
    os.remove(log)
    count = {}
    found = []
    for call, told in made:
        count[call] = count.get(call, 0) + 1
        if call != "openat" or "O_CREAT" in told:
            found.append((call, count[call]))
    if not any(call.startswith("rename") for call, _ in found):
        raise Failure(f"{' '.join(words)} renames nothing: {found}")
    return found


# Kills the program right before it makes this call.
def _kill(world, call, number, words):
    options = ["-o", os.devnull, "-e", f"trace={call}"]
    options += ["-e", f"inject={call}:signal=SIGKILL:when={number}"]
    status = _traced(world, options, words)
    if status not in KILLED:
        raise Failure(f"{' '.join(words)} wasn't killed at {call} {number}: {status}")


# What stands.


# A world of the same make in a folder of its own, and the numbers of its files with their places;
# then it is stopped, where that is wanted.
def _fresh(world, make, stop=None):
    base = os.path.join(world.base, "again")
    shutil.rmtree(base, ignore_errors=True)
    fresh = World(world.program, base)
    make(fresh)
    begun = {}
    for path, (number, _, content) in fresh.everything().items():
        place = os.path.relpath(os.fsdecode(path), base)
        if content is not None and place not in CONTROLS:
            begun.setdefault(number, place)
    if stop:
        stop(fresh)
    return fresh, begun


# Each place with its kind and its bytes, and where the file that it names was at the beginning.
def _state(world, begun):
    found = {}
    for path, (number, mode, content) in world.everything().items():
        place = os.path.relpath(os.fsdecode(path), world.base)
        file = begun.get(number) if content is not None and place not in CONTROLS else None
        found[place] = (mode, content, file)
    return found


# Of the words on worlds of this make: their changing calls, the old state and the new one.
def _whole(world, make, words):
    if shutil.which("strace") is None:
        raise Skipped("strace isn't installed")
    whole, begun = _fresh(world, make)
    old = _state(whole, begun)
    calls = _changing_calls(whole, words)
    new = _state(whole, begun)
    if new == old:
        raise Failure(f"{' '.join(words)} changes nothing")
    return calls, old, new


# Killed at each of its calls and then recovered, the command leaves the old state or the new one;
# and where it is done again, the new one.
def _is_old_or_new(world, make, *words):
    calls, old, new = _whole(world, make, words)
    states = []
    for call, number in calls:
        fresh, begun = _fresh(world, make)
        _kill(fresh, call, number, words)
        fresh.run("recover").ends(0)
        found = _state(fresh, begun)
        if found not in (old, new):
            raise Failure(f"{' '.join(words)} killed at {call} {number} left neither state")
        states.append(found == new)
        fresh.run(*words).ends(0)
        same(f"what the command leaves after {call} {number}", _state(fresh, begun) == new, True)
    # A kill at the first call comes too early, and one at the last too late.
    same("the states", (states[0], states[-1], states == sorted(states)), (False, True, True))


# An edit that was killed leaves the old profile or the new one, and needs no recovery.
def _is_edited_or_not(world, make, *words):
    calls, old, new = _whole(world, make, words)
    for call, number in calls:
        fresh, begun = _fresh(world, make)
        _kill(fresh, call, number, words)
        found = _state(fresh, begun)
        found.pop("keep/profile.tmp", None)
        if found not in (old, new):
            raise Failure(f"{' '.join(words)} killed at {call} {number} left neither state")
        fresh.run(*words).ends(0)
        same(f"the edit again after {call} {number}", _state(fresh, begun) == new, True)
        fresh.absent("keep/profile.tmp")


# The command is killed in the midst of its calls; the recovery is killed at each of its own, and
# done again.
def _is_recovered(world, make, *words):
    calls, _, new = _whole(world, make, words)
    half = calls[len(calls) // 2]

    def stop(fresh):
        _kill(fresh, *half, words)

    for call, number in _changing_calls(_fresh(world, make, stop)[0], ["recover"]):
        fresh, begun = _fresh(world, make, stop)
        _kill(fresh, call, number, ["recover"])
        fresh.run("recover").ends(0)
        same(f"the new state stands after {call} {number}", _state(fresh, begun) == new, True)


# The worlds.


def _two_mods(world):
    world.two_mods()


def _covered(world):
    world.covered()


# Folders to make and to take off, saves, sets and clears.
def _of_each_kind(world):
    world.roots().file("stage/a/a", "A").file("stage/a/d/e/x", "A")
    world.file("stage/b/n/m/y", "B").file("stage/b/z", "B")
    world.file("game/a", "game a").file("game/z", "game z")
    world.profile("version = 1", 'mods = [{id = "a"}, {id = "b", enabled = false}]')
    world.run("deploy").ends(0)
    world.profile("version = 1", 'mods = [{id = "a", enabled = false}, {id = "b"}]')


# A mod of which each file covers one of the game, in folders of the game and of its own, deployed.
def _deployed(world):
    world.roots()
    for name in ["changed", "clean", "deleted", "gone", "replaced", "sourceless"]:
        world.file(f"stage/b/{name}", f"B {name}").file(f"game/{name}", f"game {name}")
    world.file("stage/b/d/e/deleted", "B").file("stage/b/d/replaced", "B")
    world.run("deploy").ends(0)


# A change of each class by others.
def _changed(world):
    _deployed(world)
    world.edit("game/changed", "edited").remove("game/deleted").remove("game/d/e/deleted")
    world.remove("game/gone").remove("stage/b/gone").remove("stage/b/sourceless")
    world.replace("game/replaced", "new")
    world.replace("game/d/replaced", "new too")


def _with_profile(world):
    world.two_mods().profile("version = 1", 'mods = [{id = "a"}, {id = "b"}]')


# Deployments.


@needs("deploy", "recover")
def a_killed_first_deployment_is_old_or_new(world):
    _is_old_or_new(world, _two_mods, "deploy")


@needs("deploy", "recover")
def a_killed_deployment_over_a_file_of_the_game_is_old_or_new(world):
    _is_old_or_new(world, _covered, "deploy")


@needs("deploy", "recover")
def a_killed_deployment_with_a_plan_of_each_kind_is_old_or_new(world):
    _is_old_or_new(world, _of_each_kind, "deploy")


@needs("deploy", "recover")
def a_killed_recovery_of_a_deployment_is_recovered(world):
    _is_recovered(world, _covered, "deploy")


@needs("deploy", "recover")
def a_killed_recovery_of_a_plan_of_each_kind_is_recovered(world):
    _is_recovered(world, _of_each_kind, "deploy")


# Purges.


@needs("deploy", "purge", "recover")
def a_killed_purge_is_old_or_new(world):
    _is_old_or_new(world, _deployed, "purge")


@needs("deploy", "purge", "recover")
def a_killed_purge_after_changes_of_each_class_is_old_or_new(world):
    _is_old_or_new(world, _changed, "purge")


@needs("deploy", "purge", "recover")
def a_killed_recovery_of_a_purge_is_recovered(world):
    _is_recovered(world, _changed, "purge")


# Settlements.


@needs("deploy", "recover", "settle")
def a_killed_settlement_is_old_or_new(world):
    _is_old_or_new(world, _changed, "settle")


@needs("deploy", "recover", "settle")
def a_killed_settlement_that_imports_and_drops_is_old_or_new(world):
    words = ["--replaced=import", "--deleted=drop", "--source-deleted=drop"]
    _is_old_or_new(world, _changed, "settle", *words)


@needs("deploy", "recover", "settle")
def a_killed_settlement_that_reverts_is_old_or_new(world):
    _is_old_or_new(world, _changed, "settle", "--replaced", "revert")


@needs("deploy", "recover", "settle")
def a_killed_recovery_of_a_settlement_is_recovered(world):
    _is_recovered(world, _changed, "settle", "--replaced=import", "--source-deleted=drop")


# Edits.


@needs("disable")
def a_killed_first_edit_is_made_or_not(world):
    _is_edited_or_not(world, _two_mods, "disable", "a")


@needs("override")
def a_killed_edit_is_made_or_not(world):
    _is_edited_or_not(world, _with_profile, "override", "x.txt", "a")


@needs("disable", "recover")
def a_killed_edit_is_made_or_not_before_a_recovery_too(world):
    _is_old_or_new(world, _with_profile, "disable", "b")
