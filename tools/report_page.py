"""The page: what is bounded stands in it as it is, the files as data that its script shows."""

import base64
import json
import os
import re
import zlib
from collections import Counter
from html import escape

from report_graph import graph_of
from report_world import CLASSES, REASONS

HERE = os.path.dirname(os.path.abspath(__file__))

# So many rows of a table are shown at most; the page says how many are left out.
MOST_ROWS = 1000

# Data above this many bytes is packed.
PLAIN_BYTES = 1 << 19

WHY = {
    "override": "an override of the profile decides",
    "rule": "the rules of the profile put the winner behind each of the others",
    "position": "no rule decides, only the place in the load order",
}
CHANGED = {
    "Replaced": "another file stands there",
    "Changed": "the file was written to",
    "Deleted": "the link was removed",
    "SourceDeleted": "the staged file was removed",
    "Gone": "both were removed",
}
SETTLE = {
    "Replaced": "aside, import or revert",
    "Changed": "keep",
    "Deleted": "restore or drop",
    "SourceDeleted": "restore or drop",
    "Gone": "drop",
}


def page_of(world, title):
    """The whole page as bytes."""
    overwrites = world.overwrites()
    parts = [
        _summary(world),
        _troubles(world),
        _plan(world),
        _changes(world),
        _graph(world, overwrites),
        _overwrites(overwrites),
        _pairs(world),
        _mods(world),
        _files(world),
    ]
    values = dict(
        title=escape(title),
        style=_read("report.css"),
        body="\n".join(part for part in parts if part),
        data=_data(world),
        script=_read("report.js"),
    )
    text = re.sub(r"\{\{(\w+)\}\}", lambda found: values[found[1]], _read("report.html"))
    return text.encode("utf-8", "replace")


def _summary(world):
    reasons = Counter(reason for _, reason, _ in world.conflicts.values())
    cards = [
        (len(world.mods), "mods", "mods", ""),
        (len(world.winners), "files", "files", ""),
        (len(world.conflicts), "paths of several mods", "overwrites", ""),
        *[(reasons[reason], f"decided by {reason}", "overwrites", reason) for reason in REASONS],
        (len(world.pairs), "pairs that no rule orders", "pairs", "position"),
        (len(world.changes), "changes by others", "changes", "Replaced" if world.changes else ""),
        (world.status.get("files", "?"), "files deployed", "plan", ""),
    ]
    shown = [
        f'<a class="card {kind}" href="#{target}"><b>{value}</b>{escape(label)}</a>'
        for value, label, target, kind in cards
    ]
    return '<div class="cards">' + "".join(shown) + "</div>"


def _troubles(world):
    rows = []
    for command, line in world.trouble.items():
        shown = escape(line).replace("\t", " &nbsp; ").replace("\n", " ")
        rows.append(f"<li><code>{command}</code> answers <code>{shown}</code></li>")
    intent = world.status.get("intent")
    if intent not in (None, "none"):
        rows.append(f"<li>A command was stopped (<code>intent {escape(intent)}</code>): "
                    "<code>recover</code> carries it to its end.</li>")
    for command in [name for name in ("winners", "conflicts", "check") if name not in world.asked]:
        rows.append(f"<li>What <code>{command}</code> prints wasn't there.</li>")
    return f'<section class="trouble"><ul>{"".join(rows)}</ul></section>' if rows else ""


def _plan(world):
    if "plan" not in world.asked or "plan" in world.trouble:
        return ""
    how = Counter(world.sets.values())
    steps = [
        ("Links to set", how["link"]),
        ("Files of the game to keep beside them", len(world.saves)),
        ("Files of the game to bring back", how["back"]),
        ("Links to take off", how["off"]),
        ("Folders to make", len(world.folders)),
        ("Folders to take off", len(world.removed)),
    ]
    rows = [[what, f"<b>{count}</b>"] for what, count in steps if count]
    body = _table(["", ""], rows) if rows else "<p>Nothing: the game has the winners.</p>"
    return _section("plan", "What deploy would do", body)


def _changes(world):
    if "check" not in world.asked or "check" in world.trouble:
        return ""
    if not world.changes:
        return _section("changes", "Changes by others", "<p>None.</p>")
    rows = [
        [f'<span class="mark {kind}">{kind}</span>', _path(path), CHANGED.get(kind, ""),
         SETTLE.get(kind, "")]
        for path, kind in world.changes.items()
    ]
    count = Counter(world.changes.values())
    told = ", ".join(f"{count[kind]} {kind}" for kind in CLASSES if count[kind])
    return _section("changes", "Changes by others", f"<p>{told}.</p>" + _table(
        ["Class", "Path", "What it is", "Actions of settle"], rows))


def _graph(world, overwrites):
    drawn, shown, edges = graph_of(world.mods, overwrites)
    if not drawn:
        return ""
    named = {name for row in overwrites for name in row[:2]}
    left = ""
    if shown < len(named) or edges < len(overwrites):
        left = (f" Shown are the {shown} mods of {len(named)} with the most contested files, and "
                f"{edges} pairs of {len(overwrites)}.")
    legend = " ".join(f'<span class="mark {reason}">{reason}</span> {WHY[reason]};'
                      for reason in REASONS).rstrip(";")
    text = ("<p>Mods in load order. An arrow leads from a mod to the one that overwrites it, as "
            f"thick as there are files: {legend}.{left}</p>")
    return _section("graph", "The conflicts as a graph", text + drawn)


def _overwrites(overwrites):
    rows = []
    for winner, other, reasons, path in overwrites:
        told = " ".join(f'<span class="mark {reason}">{reasons[reason]} {reason}</span>'
                        for reason in REASONS if reasons[reason])
        rows.append([_mod(winner), _mod(other), str(reasons.total()), told, _path(path)])
    body = _table(["This mod", "overwrites", "Files", "Why", "One of them"], rows)
    return _section("overwrites", "Who overwrites whom", body if rows else "<p>Nobody.</p>")


def _pairs(world):
    if not world.pairs:
        return ""
    rows = [
        [_mod(one), _mod(other), f"<code>rule {_word(other)} after {_word(one)}</code>"]
        for one, other in world.pairs
    ]
    text = ("<p>These share files, and no rules order them: who wins goes by their places in the "
            "profile. A rule decides it.</p>")
    return _section("pairs", "Pairs that no rule orders",
                    text + _table(["Mod", "Mod", "For instance"], rows))


def _mods(world):
    wins, contested, loses = world.files_of_mods()
    rows = [
        [str(number), _mod(mod), str(wins[mod]), str(contested[mod]), str(loses[mod])]
        for number, mod in enumerate(world.mods, 1)
    ]
    body = _table(["", "Mod", "Files that it wins", "of them over others", "Files that it loses"],
                  rows, most=len(rows))
    return _section("mods", "The load order", body)


def _files(world):
    if not (world.winners or world.changes or world.sets):
        return ""
    return _section("files", "The files", _read("report_files.html"))


def _section(name, heading, body):
    return f'<section id="{name}"><h2>{escape(heading)}</h2>{body}</section>'


def _table(heads, rows, most=MOST_ROWS):
    head = "".join(f"<th>{escape(text)}</th>" for text in heads)
    body = "".join("<tr>" + "".join(f"<td>{cell}</td>" for cell in row) + "</tr>"
                   for row in rows[:most])
    left = f"<p>And {len(rows) - most} more.</p>" if len(rows) > most else ""
    table = f"<table><thead><tr>{head}</tr></thead><tbody>{body}</tbody></table>"
    return f'<div class="scroll">{table}</div>{left}'


def _mod(name):
    return f'<span class="mod">{escape(name)}</span>'


def _path(path):
    return f'<span class="path">{escape(path)}</span>'


# A mod's id as a word of a shell.
def _word(name):
    plain = all(letter.isalnum() or letter in "_-." for letter in name)
    return escape(name if plain else "'" + name.replace("'", "'\\''") + "'")


# The files as columns: path, winner by its number in the load order, reason and providers where
# there are several, what others changed, what the plan does.
def _data(world):
    number = {mod: index for index, mod in enumerate(world.mods)}
    paths = world.winners.keys() | world.changes.keys() | world.sets.keys()
    paths = sorted(paths, key=lambda path: path.encode())
    kinds = {kind: index for index, kind in enumerate(CLASSES)}
    steps = {"link": 0, "back": 1, "off": 2}
    value = dict(
        mods=world.mods,
        paths=paths,
        winners=[number.get(world.winners.get(path, ("",))[0], -1) for path in paths],
        conflicts=[
            [index, REASONS.index(world.conflicts[path][1])]
            + [number.get(mod, -1) for mod in world.conflicts[path][2]]
            for index, path in enumerate(paths)
            if path in world.conflicts
        ],
        changes=[[index, kinds.get(world.changes[path], -1)]
                 for index, path in enumerate(paths) if path in world.changes],
        sets=[[index, steps[world.sets[path]], int(path in world.saves)]
              for index, path in enumerate(paths) if path in world.sets],
        reasons=REASONS,
        classes=CLASSES,
    )
    text = json.dumps(value, separators=(",", ":"), ensure_ascii=False)
    if len(text) <= PLAIN_BYTES:
        text = text.replace("<", "\\u003c")
        return f'<script type="application/json" id="data">{text}</script>'
    packed = base64.b64encode(zlib.compress(text.encode("utf-8", "replace"), 9)).decode()
    return f'<script type="text/plain" id="packed">{packed}</script>'


def _read(name):
    with open(os.path.join(HERE, name), encoding="utf-8") as file:
        return file.read()
