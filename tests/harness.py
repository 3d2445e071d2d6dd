"""A scratch folder in which the real program runs, and what a case says of it."""

import hashlib
import json
import os
import resource
import shutil
import subprocess
import sys
import tempfile

LIMIT_SECONDS = 600
MANIFEST = "game/vortex.deployment.json"


# Commands that a case may need, with words that they take.
WORDS = {
    "batch": "batch",
    "check": "check",
    "deploy": "deploy",
    "disable": "disable a",
    "drop-override": "drop-override x",
    "drop-rule": "drop-rule a after b",
    "enable": "enable a",
    "override": "override x a",
    "plan": "plan",
    "purge": "purge",
    "recover": "recover",
    "release": "release a 1.0.0",
    "rule": "rule a after b",
    "sample": "sample 7",
    "settle": "settle",
    "settle --from-input": "settle --from-input",
    "upgrade": "upgrade",
}


class Failure(Exception):
    """What a case expected, and what it found."""


class Skipped(Exception):
    """Why a case can't be tried on this machine."""


class World:
    """A folder that the program works in. Places are paths below it, as `stage/a/x.txt`."""

    def __init__(self, program, base):
        self.program = os.path.abspath(program)
        self.base = base
        os.makedirs(base)

    # What is there before the program runs.

    def file(self, place, text=""):
        path = self._made_parent(place)
        with open(path, "wb") as out:
            out.write(text.encode() if isinstance(text, str) else text)
        return self

    def folder(self, place):
        os.makedirs(self.path(place), exist_ok=True)
        return self

    def many_files(self, place, count):
        """So many empty files in the folder."""
        self.folder(place)
        for number in range(count):
            os.mknod(self.path(f"{place}/{number:06d}"))
        return self

    def roots(self):
        return self.folder("stage").folder("game").folder("keep")

    def two_mods(self):
        """Two mods with a file of one name."""
        return self.roots().file("stage/a/x.txt", "A").file("stage/b/x.txt", "abc")

    def covered(self):
        """Two mods with a file of one name, which the game has too."""
        return self.two_mods().file("game/x.txt", "game")

    def profile(self, *lines):
        """The profile with these lines."""
        return self.file("keep/profile.toml", "".join(line + "\n" for line in lines))

    def link(self, place, other):
        """One more name of the file `other`."""
        os.link(self.path(other), self._made_parent(place))
        return self

    def row(self, path, mod, source=None, shadowed=False):
        """The row of a manifest for a staged file that is deployed at the path."""
        source = source or path
        digest = self.digest(f"stage/{mod}/{source}")
        return dict(digest=digest, mod=mod, path=path, shadowed=shadowed, source=source)

    def manifest(self, *rows, folders=()):
        """The manifest with these rows and folders."""
        return self.file(MANIFEST, manifest_text(rows, folders))

    def deployed(self):
        """Two mods with a file of one name, the second one's deployed."""
        self.two_mods().link("game/x.txt", "stage/b/x.txt")
        return self.manifest(self.row("x.txt", "b"))

    def symlink(self, place, target):
        os.symlink(target, self._made_parent(place))
        return self

    def fifo(self, place):
        os.mkfifo(self._made_parent(place))
        return self

    # The run.

    def run(self, *words, stdin=b"", stdout=None):
        """Runs the program on the words, texts or bytes; `stdout` is a file to print to."""
        out = open(stdout, "wb") if stdout else None
        started = _seconds()
        try:
            done = subprocess.run(
                [self.program, *words],
                cwd=self.base,
                input=stdin,
                stdout=out or subprocess.PIPE,
                stderr=subprocess.PIPE,
                timeout=LIMIT_SECONDS,
            )
        finally:
            if out:
                out.close()
        same("standard error", done.stderr, b"")
        return Run(done.returncode, done.stdout or b"", _seconds() - started)

    def look(self, *words):
        """Runs the program on the words, which change nothing on the disk."""
        before = self.everything()
        run = self.run(*words)
        self.unchanged(before)
        return run

    def is_refused(self, words, refusal):
        """The words, parted by spaces, are refused so, and nothing on the disk changes."""
        return self.look(*words.split(" ")).prints(f"refused\t{refusal}").ends(3)

    def replace(self, place, text):
        """Puts another file there, and gives its number."""
        return self.remove(place).file(place, text).inode(place)

    def edit(self, place, text):
        """Writes into the file that is there, under all its names."""
        with open(self.path(place), "r+b") as file:
            file.truncate()
            file.write(text.encode())
        return self

    def remove(self, place):
        """Takes the file away, or the folder with all that is in it."""
        path = self.path(place)
        if os.path.isdir(path):
            shutil.rmtree(path)
        else:
            os.remove(path)
        return self

    # What is there afterwards.

    def path(self, place):
        return os.path.join(self.base, place)

    def inode(self, place):
        found = os.lstat(self.path(place))
        return (found.st_dev, found.st_ino)

    def one_file(self, *places):
        """The places are names of one file."""
        for place in places[1:]:
            same(f"the file at {place}", self.inode(place), self.inode(places[0]))

    def text(self, place, text):
        with open(self.path(place), "rb") as file:
            same(f"the bytes of {place}", file.read(), text.encode())

    def digest(self, place):
        with open(self.path(place), "rb") as file:
            return hashlib.sha256(file.read()).hexdigest()

    def absent(self, place):
        same(f"{place} is there", os.path.lexists(self.path(place)), False)

    def holds(self, place, *names):
        """The folder has exactly these names."""
        same(f"the names in {place}", sorted(os.listdir(self.path(place))), sorted(names))

    def everything(self):
        """Each path below the base with its file's number and kind, and its bytes or its target."""
        found = {}
        for folder, folders, files in os.walk(os.fsencode(self.base)):
            for name in folders + files:
                path = os.path.join(folder, name)
                found[path] = (os.lstat(path).st_ino, os.lstat(path).st_mode, _content(path))
        return found

    def unchanged(self, before):
        after = self.everything()
        for path in sorted(before.keys() | after.keys()):
            place = os.path.relpath(path, os.fsencode(self.base))
            same(f"{place!r} on the disk", after.get(path), before.get(path))

    def _made_parent(self, place):
        path = self.path(place)
        os.makedirs(os.path.dirname(path), exist_ok=True)
        return path


class Run:
    """How the program ended, what it printed, and its processor seconds."""

    def __init__(self, status, printed, seconds):
        self.status = status
        self.printed = printed
        self.seconds = seconds

    def prints(self, *lines):
        same("what was printed", self.printed, b"".join(_bytes(line) + b"\n" for line in lines))
        return self

    def ends(self, status):
        same("the status", self.status, status)
        return self

    def within(self, seconds):
        if self.seconds > seconds:
            raise Failure(f"{self.seconds:.1f} seconds, and not at most {seconds}")
        return self


def manifest_text(rows, folders=()):
    return _json(dict(files=list(rows), folders=list(folders), version=2))


def intent_text(phase, sets=(), saves=(), clears=(), folders=(), off=(), manifest=None):
    """The text of an intent; a set is its place, its source and where the old file stays."""
    parts = dict(clears=clears, folders=folders, folders_off=off, saves=saves)
    parts = {name: list(part) for name, part in parts.items()}
    parts["sets"] = [dict(back=back, to=to, **{"from": source}) for to, source, back in sets]
    return _json(dict(parts, manifest=manifest, phase=phase, version=2))


# Compact JSON, its keys in byte order.
def _json(value):
    return json.dumps(value, separators=(",", ":"), sort_keys=True, ensure_ascii=False)


def same(what, found, wanted):
    if found != wanted:
        raise Failure(f"{what}: {found!r}, and not {wanted!r}")


def is_known(program, name):
    """Whether the program has the command of this name."""
    with tempfile.TemporaryDirectory(prefix="mod_deployer_") as scratch:
        done = subprocess.run(
            [os.path.abspath(program), *WORDS[name].split()],
            cwd=scratch,
            stdin=subprocess.DEVNULL,
            capture_output=True,
            check=False,
        )
    return done.stdout != b"usage\n"


def needs(*words):
    """Marks a case that can be tried only where the program knows these commands."""

    def marked(case):
        case.needs = words
        return case

    return marked


def run_cases(cases, program, scratch):
    """Runs each case in a folder of its own, tells which fail, and counts passed and failed."""
    passed = failed = 0
    for case in cases:
        try:
            case(World(program, os.path.join(scratch, case.__name__)))
            passed += 1
        except Skipped as reason:
            print(f"skipped {case.__name__}: {reason}", file=sys.stderr)
        except Exception as error:
            failed += 1
            print(f"FAILED {case.__name__}: {error}", file=sys.stderr)
    return passed, failed


# The processor seconds of the programs that have ended.
def _seconds():
    used = resource.getrusage(resource.RUSAGE_CHILDREN)
    return used.ru_utime + used.ru_stime


def _bytes(line):
    return line.encode() if isinstance(line, str) else line


def _content(path):
    if os.path.islink(path):
        return os.readlink(path)
    if os.path.isfile(path):
        with open(path, "rb") as file:
            return file.read()
    return None
