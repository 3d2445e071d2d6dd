"""What the program prints of a world, read."""

import os
import subprocess
from collections import Counter

COMMANDS = ["order", "winners", "conflicts", "plan", "check", "status"]
REASONS = ["override", "rule", "position"]
CLASSES = ["Replaced", "Changed", "Deleted", "SourceDeleted", "Gone"]
LIMIT_SECONDS = 600

# The lines that end an answer without telling what was asked.
TROUBLE = ("refused\t", "recover first", "usage")


def run_all(program, folder):
    """What each of the commands prints in the folder; None where it prints nothing for a fault."""
    answers = {}
    for command in COMMANDS:
        done = subprocess.run(
            [program, command],
            cwd=folder,
            stdin=subprocess.DEVNULL,
            stdout=subprocess.PIPE,
            timeout=LIMIT_SECONDS,
            check=False,
        )
        failed = done.returncode not in range(5)
        answers[command] = f"failed\t{done.returncode}\n" if failed else _text(done.stdout)
    return answers


def saved_in(folder):
    """What stands in the files that are named as the commands."""
    answers = {}
    for command in COMMANDS:
        path = os.path.join(folder, command)
        if os.path.isfile(path):
            with open(path, "rb") as file:
                answers[command] = _text(file.read())
    return answers


class World:
    """Mods in load order, files with their winners, conflicts, the plan, and changes by others."""

    def __init__(self, answers):
        self.trouble = {}
        self.asked = set(answers)
        parts = {command: self._parts(command, answers.get(command)) for command in COMMANDS}
        self.mods = [part[0] for part in parts["order"]]
        self.winners = {part[0]: (part[1], part[2]) for part in parts["winners"]}
        self.conflicts = {}
        self.pairs = []
        for part in parts["conflicts"]:
            if part[0] == "path":
                self.conflicts[part[1]] = (part[2], part[3], part[4:])
            else:
                self.pairs.append((part[1], part[2]))
        self._read_plan(parts["plan"])
        self.changes = {part[1]: part[0] for part in parts["check"] if len(part) == 2}
        self.status = dict(part[0].split(" ", 1) for part in parts["status"] if part[0])
        if not self.mods:
            self.mods = sorted({mod for mod, _ in self.winners.values()})

    # The lines of an answer, each in its parts; none where it is no answer to what was asked.
    def _parts(self, command, text):
        lines = [] if text is None else text.split("\n")
        if lines and lines[-1] == "":
            lines.pop()
        if text is not None and text.startswith(TROUBLE + ("failed\t",)):
            self.trouble[command] = text.rstrip("\n")
            return []
        return [line.split("\t") for line in lines]

    # What happens at a path of the game: it is linked, brought back or cleared, or a file of the
    # game is kept first.
    def _read_plan(self, parts):
        self.folders = [part[1] for part in parts if part[0] == "folder"]
        self.removed = [part[1] for part in parts if part[0] == "remove"]
        self.saves = {_below(part[1], "game/") for part in parts if part[0] == "save"}
        self.sets = {}
        for part in parts:
            if part[0] == "set":
                source = part[2]
                how = "link" if source.startswith("stage/") else "back" if source != "-" else "off"
                self.sets[_below(part[1], "game/")] = how

    def overwrites(self):
        """Who overwrites whom: for each winner and other provider of a path how often by which
        reason, and one such path; the most frequent first."""
        counts = {}
        for path, (winner, reason, providers) in self.conflicts.items():
            for other in providers:
                if other != winner:
                    told = counts.setdefault((winner, other), (Counter(), path))
                    told[0][reason] += 1
        rows = [(winner, other, *told) for (winner, other), told in counts.items()]
        return sorted(rows, key=lambda row: (-row[2].total(), row[0], row[1]))

    def files_of_mods(self):
        """For each mod how many paths it wins, how many of them against others, and loses."""
        wins = Counter(mod for mod, _ in self.winners.values())
        contested = Counter(winner for winner, _, _ in self.conflicts.values())
        loses = Counter(
            other
            for winner, _, providers in self.conflicts.values()
            for other in providers
            if other != winner
        )
        return wins, contested, loses


def _below(place, root):
    return place[len(root) :] if place.startswith(root) else place


def _text(printed):
    return printed.decode("utf-8", "replace")
