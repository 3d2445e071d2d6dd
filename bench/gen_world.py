#!/usr/bin/env python3
"""Makes a world of mods with folders.

usage: bench/gen_world.py sample NUMBER FOLDER
       bench/gen_world.py large MODS FILES FOLDER

FOLDER gets `world` with `stage`, `game` and `keep`, and `winners.tsv` with a line for each path:
the staged place of its winner, a tab, its place in the game, in path order.

`sample` makes 20 + NUMBER mod 181 mods of 100 files each, of which each shares 50 with the next;
some of them stand under a rule or an override, and the game has some files of its own (number
100: 12,000 staged files and 6,050 paths). `large` makes MODS mods of FILES files of some ten
bytes in eight folders each, with paths of 66 bytes; 1,850 mods of 100 files have 199,800 entries,
about as many as the program takes.
"""

import os
import sys


class Maker:
    def __init__(self, folder):
        self.folder = folder
        self.world = os.path.join(folder, "world")
        self.made = set()
        for root in ("stage", "game", "keep"):
            os.makedirs(os.path.join(self.world, root))

    def put(self, place, text):
        path = os.path.join(self.world, place)
        above = os.path.dirname(path)
        if above not in self.made:
            os.makedirs(above, exist_ok=True)
            self.made.add(above)
        with open(path, "w", encoding="utf-8") as file:
            file.write(text)

    def ends(self, winners):
        """Writes the winners, given as the mod of each path, and tells how many paths there are."""
        with open(os.path.join(self.folder, "winners.tsv"), "w", encoding="utf-8") as file:
            for path, mod in sorted(winners.items()):
                file.write(f"stage/{mod}/{path}\tgame/{path}\n")
        return len(winners)


def make_sample(number, folder):
    """The world of this number; gives how many paths there are."""
    maker = Maker(folder)
    mods = 20 + number % 181
    names = [f"m{mod:03d}" for mod in range(mods)]
    lines = ["version = 1"]
    overrides = []
    for mod in range(mods):
        for file in range(50 * mod, 50 * mod + 100):
            maker.put(f"stage/{names[mod]}/{_path(file)}", f"{mod} {file}")
        lines.append(f'[[mods]]\nid = "{names[mod]}"')
        if mod >= 1 and mod % 10 == number % 10:
            lines.append(f'rules = [{{kind = "before", ref = "{names[mod - 1]}"}}]')
        if mod >= 1 and mod % 20 == number % 20:
            overrides.append(mod)
    for mod in overrides:
        lines.append(f'[[overrides]]\npath = "{_path(50 * mod)}"\nmod = "{names[mod]}"')
    maker.put("keep/profile.toml", "\n".join(lines) + "\n")
    for file in range(50 * (mods + 1)):
        if (file // 100) % 2 == 0 and file % 7 == number % 7:
            maker.put(f"game/{_path(file)}", f"game {file}")
    # A mod that must load before the one in front of it loses to that one.
    winners = {}
    for file in range(50 * (mods + 1)):
        last = min(file // 50, mods - 1)
        first = max(file // 50 - 1, 0)
        turned = last > first and last >= 1 and last % 10 == number % 10
        winners[_path(file)] = names[first if turned else last]
    for mod in overrides:
        winners[_path(50 * mod)] = names[mod]
    return maker.ends(winners)


def _path(file):
    return f"d{file // 100:03d}/f{file:05d}.txt"


def make_large(mods, files, folder, share=0):
    """So many mods of so many files, of which one in `share` is one that the mod before has too;
    gives how many paths there are."""
    maker = Maker(folder)
    winners = {}
    for mod in range(mods):
        name = f"mod_{mod:04d}_texture_pack"
        for file in range(files):
            shared = share and mod > 0 and file % share == 0
            owner, number = (mod - 1, file + 1) if shared else (mod, file)
            path = (
                f"Data/textures/area{owner % 50:02d}/set{owner:04d}/part{number // 25}/"
                f"piece_{owner:04d}_{number:03d}_diffuse.dds"
            )
            maker.put(f"stage/{name}/{path}", f"{mod} {file}")
            winners[path] = name
    return maker.ends(winners)


def main(words):
    if len(words) == 3 and words[0] == "sample":
        print(f"{make_sample(int(words[1]), words[2])} paths")
    elif len(words) == 4 and words[0] == "large":
        print(f"{make_large(int(words[1]), int(words[2]), words[3])} paths")
    else:
        sys.exit(__doc__)


if __name__ == "__main__":
    main(sys.argv[1:])
