"""`batch`: commands line by line, while others may change the folders between two lines."""

import os
import selectors
import subprocess

from harness import LIMIT_SECONDS, Failure, needs, same


# A batch that is fed line by line.
class _Talk:
    def __init__(self, world):
        self.process = subprocess.Popen(
            [world.program, "batch"],
            cwd=world.base,
            stdin=subprocess.PIPE,
            stdout=subprocess.PIPE,
            stderr=subprocess.STDOUT,
        )

    # The line is answered with these lines before the next one is there.
    def answers(self, line, *wanted):
        self.process.stdin.write(line.encode() + b"\n")
        self.process.stdin.flush()
        wanted = "".join(part + "\n" for part in wanted).encode()
        same(f"the answer to {line}", self._read(len(wanted)), wanted)
        return self

    def ends(self, status):
        rest, _ = self.process.communicate(timeout=LIMIT_SECONDS)
        same("what was printed at the end", rest, b"")
        same("the status", self.process.returncode, status)

    def _read(self, count):
        found = b""
        with selectors.DefaultSelector() as selector:
            selector.register(self.process.stdout, selectors.EVENT_READ)
            while len(found) < count:
                if not selector.select(timeout=20):
                    self.process.kill()
                    raise Failure(f"nothing more is printed behind {found!r}")
                part = os.read(self.process.stdout.fileno(), count - len(found))
                if not part:
                    break
                found += part
        return found


@needs("batch")
def each_line_is_a_command(world):
    world.two_mods()
    run = world.run("batch", stdin=b"order\n\nwinners\r\nstatus")
    run.prints("a", "b", "x.txt\tb\torder", "files 0", "folders 0", "intent none").ends(0)


@needs("batch")
def an_empty_batch_touches_nothing(world):
    world.run("batch", stdin=b"\n\n").prints().ends(0)
    world.holds(".")


@needs("batch")
def the_first_answer_that_is_not_ok_ends_a_batch(world):
    world.two_mods()
    for lines, printed, status in [
        ("order\nbad\norder\n", ["a", "b", "usage"], 2),
        ("order\nbatch\n", ["a", "b", "usage"], 2),
        ("order now\n", ["usage"], 2),
        ("order\t\n", ["usage"], 2),
        ("order\n\xff", ["a", "b", "usage"], 2),
    ]:
        world.run("batch", stdin=lines.encode()).prints(*printed).ends(status)
    world.profile("version = 3")
    refused = "refused\t4\tProfileVersion"
    world.run("batch", stdin=b"check\norder\ncheck\n").prints("changes 0", refused).ends(3)


@needs("batch")
def a_line_that_is_no_line_is_told_by_its_number(world):
    world.roots()
    for lines, refusal in [
        (b"check\n\xff\n", "41\tBadLine\t2"),
        (b"check\n" + b"x" * 4097, "39\tLineTooLong\t2"),
        (b"check" + b"\n" * 10_001, "40\tTooManyLines"),
    ]:
        world.run("batch", stdin=lines).prints("changes 0", f"refused\t{refusal}").ends(3)
    world.run("batch", stdin=b"check" + b"\n" * 10_000).prints("changes 0").ends(0)


@needs("batch")
def a_line_is_answered_before_the_next_one_comes(world):
    world.two_mods()
    talk = _Talk(world).answers("order", "a", "b").answers("")
    world.folder("stage/c")
    talk.answers("order", "a", "b", "c").answers("check", "changes 0").ends(0)


# What was looked at before the first line is looked at again.
@needs("batch")
def a_folder_that_turns_into_a_link_is_seen(world):
    world.roots().file("stage/a/d/x", "A").file("elsewhere/y", "mine")
    talk = _Talk(world).answers("winners", "d/x\ta\torder")
    world.remove("stage/a/d").symlink("stage/a/d", "../../elsewhere")
    talk.answers("winners", "refused\t20\tOddEntry\tstage/a\td").ends(3)


@needs("batch", "deploy", "purge")
def nothing_is_touched_behind_a_link_that_came_meanwhile(world):
    world.roots().file("stage/a/d/x", "A")
    talk = _Talk(world).answers("deploy", "deployed 1, set 1, saved 0")
    os.rename(world.path("game/d"), world.path("elsewhere"))
    world.symlink("game/d", "../elsewhere")
    talk.answers("purge", "purged 1, set 0, saved 0").ends(0)
    world.text("elsewhere/x", "A")
    world.holds("elsewhere", "x")


@needs("batch", "deploy", "purge")
def a_batch_ends_and_its_work_stands(world):
    world.two_mods()
    lines = b"deploy\nbad\npurge\n"
    world.run("batch", stdin=lines).prints("deployed 1, set 1, saved 0", "usage").ends(2)
    world.one_file("stage/b/x.txt", "game/x.txt")
    world.run("batch", stdin=b"check\npurge\nstatus\n").prints(
        "changes 0", "purged 1, set 1, saved 0", "files 0", "folders 0", "intent none"
    ).ends(0)
