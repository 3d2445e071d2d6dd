"""The page that tools/report writes of a world."""

import base64
import json
import os
import re
import subprocess
import sys
import zlib
from html.parser import HTMLParser

from harness import LIMIT_SECONDS, Failure, needs, same

REPORT = os.path.join(os.path.dirname(os.path.abspath(__file__)), "..", "tools", "report")
EMPTY_TAGS = {"meta", "input"}


# A page: its text, each section's text by its name, its arcs, and the data that its script shows.
class _Page(HTMLParser):
    def __init__(self, text):
        super().__init__()
        self.open = []
        self.links = []
        self.arcs = []
        self.nodes = []
        self.texts = {}
        self.section = None
        self.feed(text)
        self.close()
        same("tags that aren't closed", self.open, [])
        plain = re.search(r'id="data">(.*?)</script>', text, re.DOTALL)
        packed = re.search(r'id="packed">(.*?)</script>', text, re.DOTALL)
        data = plain[1] if plain else zlib.decompress(base64.b64decode(packed[1])).decode()
        self.data = json.loads(data)

    def handle_starttag(self, tag, attrs):
        attrs = dict(attrs)
        self.links += [attrs[name] for name in ("href", "src", "action") if name in attrs]
        if tag == "section":
            self.section = attrs.get("id", attrs.get("class"))
        if attrs.get("class", "").startswith("arc "):
            self.arcs.append((*attrs["data-mods"].split("\t"), attrs["class"].split()[1]))
        if attrs.get("class") == "node":
            self.nodes.append(attrs["data-mod"])
        if tag not in EMPTY_TAGS:
            self.open.append(tag)

    def handle_startendtag(self, tag, attrs):
        self.handle_starttag(tag, attrs)
        if tag not in EMPTY_TAGS:
            self.open.pop()

    def handle_endtag(self, tag):
        same("the tag that is closed", tag, self.open.pop())

    def handle_data(self, data):
        if "section" in self.open and "script" not in self.open:
            self.texts.setdefault(self.section, []).append(data)

    def text(self, section):
        return " ".join(" ".join(self.texts.get(section, [])).split())

    def has(self, section, *parts):
        for part in parts:
            if part not in self.text(section):
                raise Failure(f"{part!r} isn't in {section}: {self.text(section)!r}")
        return self


def _written(*words):
    done = subprocess.run(
        [sys.executable, REPORT, *words], capture_output=True, timeout=LIMIT_SECONDS, check=False
    )
    same("standard error", done.stderr, b"")
    same("the status", done.returncode, 0)
    return done.stdout


def _page(world):
    before = world.everything()
    page = _Page(_written(world.base, "--program", world.program).decode())
    world.unchanged(before)
    return page


# Three mods: a rule decides between two of them, an override once, and else the position.
def _contested(world):
    world.roots().file("game/y", "game")
    for mod in ["base", "textures", "weather"]:
        world.file(f"stage/{mod}/sky.dds", mod)
    world.file("stage/base/d/stone", "B").file("stage/textures/d/stone", "T")
    world.file("stage/base/y", "B").file("stage/weather/z", "W").file("stage/textures/z", "T")
    world.profile(
        "version = 1",
        'mods = [{id = "base"}, {id = "weather"},',
        '  {id = "textures", rules = [{kind = "after", ref = "base"}]}]',
        'overrides = [{path = "sky.dds", mod = "base"}]',
    )
    return world


def a_page_shows_who_overwrites_whom_and_why(world):
    page = _page(_contested(world))
    page.has("overwrites", "base textures 1 1 override sky.dds")
    page.has("overwrites", "base weather 1 1 override sky.dds")
    page.has("overwrites", "textures base 1 1 rule d/stone")
    page.has("overwrites", "textures weather 1 1 position z")
    page.has("mods", "1 base 2 1 1 2 weather 0 0 2 3 textures 2 2 1")
    page.has("pairs", "base weather rule weather after base")
    page.has("pairs", "weather textures rule textures after weather")


def a_page_draws_an_arc_for_each_pair(world):
    page = _page(_contested(world))
    same("the mods in the graph", page.nodes, ["base", "weather", "textures"])
    same(
        "the arcs",
        sorted(page.arcs),
        [
            ("base", "textures", "override"),
            ("base", "weather", "override"),
            ("textures", "base", "rule"),
            ("textures", "weather", "position"),
        ],
    )


def a_page_has_each_file_with_its_winner(world):
    data = _page(_contested(world)).data
    same("the paths", data["paths"], ["d/stone", "sky.dds", "y", "z"])
    winners = [data["mods"][number] for number in data["winners"]]
    same("the winners", winners, ["textures", "base", "base", "textures"])
    conflicts = [[row[0], data["reasons"][row[1]], *row[2:]] for row in data["conflicts"]]
    same(
        "the conflicts",
        conflicts,
        [[0, "rule", 0, 2], [1, "override", 0, 1, 2], [3, "position", 1, 2]],
    )


@needs("plan", "deploy")
def a_page_shows_what_a_deployment_would_do(world):
    page = _page(_contested(world))
    page.has("plan", "Links to set 4", "Files of the game to keep beside them 1")
    page.has("plan", "Folders to make 1")
    same("the plan", page.data["sets"], [[0, 0, 0], [1, 0, 0], [2, 0, 1], [3, 0, 0]])
    world.run("deploy").ends(0)
    _page(world).has("plan", "Nothing")


@needs("deploy")
def a_page_shows_what_others_changed(world):
    _contested(world).run("deploy").ends(0)
    _page(world).has("changes", "None.")
    world.remove("game/z").replace("game/sky.dds", "new")
    page = _page(world)
    page.has("changes", "1 Replaced, 1 Deleted.", "Replaced sky.dds", "Deleted z")
    same("the changes", page.data["changes"], [[1, 0], [3, 2]])
    page.has("trouble", "plan answers refused 31 ChangesFound sky.dds 2")


def a_page_tells_what_is_refused(world):
    world.two_mods().profile(
        "version = 1",
        'mods = [{id = "a", rules = [{kind = "after", ref = "a"}]}, {id = "b"}]',
    )
    page = _page(world)
    for command in ["order", "winners", "conflicts"]:
        page.has("trouble", f"{command} answers refused 18 Cycle a")
    same("the mods in the graph", page.nodes, [])


def a_page_of_an_empty_world_is_a_page(world):
    page = _page(world.roots())
    page.has("overwrites", "Nobody.")
    same("the paths", page.data["paths"], [])


def a_page_asks_for_nothing_else(world):
    page = _page(_contested(world))
    same("links that lead elsewhere", [link for link in page.links if not link.startswith("#")], [])


def names_stand_in_a_page_as_they_are(world):
    names = ["<b>&\"'", "{{script}}", "</script><i>"[:9].replace("/", "_")]
    world.roots()
    for name in names:
        world.file(f"stage/{name}/<img src=x>&amp;", name)
    page = _page(world)
    same("the mods", page.data["mods"], sorted(names))
    same("the mods in the graph", page.nodes, sorted(names))
    same("the paths", page.data["paths"], ["<img src=x>&amp;"])
    page.has("overwrites", "<img src=x>&amp;", "<b>&\"'")


def a_page_is_made_of_saved_answers_too(world):
    _contested(world)
    saved = world.folder("saved").path("saved")
    for command in ["order", "winners", "conflicts", "check", "status"]:
        world.run(command, stdout=os.path.join(saved, command)).ends(0)
    page = _Page(_written("--saved", saved).decode())
    page.has("overwrites", "textures base 1 1 rule d/stone")
    same("the paths", page.data["paths"], ["d/stone", "sky.dds", "y", "z"])
    os.remove(os.path.join(saved, "check"))
    _Page(_written("--saved", saved).decode()).has("trouble", "What check prints wasn't there.")


# The program isn't run: its lines are made here.
def a_page_of_two_hundred_thousand_files_stays_small(world):
    saved = world.folder("saved").path("saved")
    mods = [f"mod_{number:04d}_texture_pack" for number in range(2000)]
    winners, conflicts = [], []
    for number in range(200_000):
        mod = number // 100
        folder = f"Data/textures/area{mod % 50:02d}/set{mod:04d}"
        path = f"{folder}/piece_{mod:04d}_{number:06d}_diffuse.dds"
        winners.append(f"{path}\t{mods[mod]}\torder")
        if number % 5 == 0 and mod:
            reason = "rule" if number % 2 else "position"
            conflicts.append(f"path\t{path}\t{mods[mod]}\t{reason}\t{mods[mod - 1]}\t{mods[mod]}")
    conflicts += [f"pair\t{one}\t{other}" for one, other in zip(mods, mods[1:])]
    for command, lines in [("order", mods), ("winners", winners), ("conflicts", conflicts)]:
        with open(os.path.join(saved, command), "w", encoding="utf-8") as file:
            file.write("".join(line + "\n" for line in lines))
    page = _written("--saved", saved)
    if len(page) > 10_000_000:
        raise Failure(f"a page of {len(page)} bytes")
    page = _Page(page.decode())
    same("how many files", len(page.data["paths"]), 200_000)
    page.has("graph", "the 60 mods of 2000")
    page.has("overwrites", "And 999 more.")
