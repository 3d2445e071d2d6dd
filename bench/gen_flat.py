#!/usr/bin/env python3
"""Makes a world of flat mods. usage: bench/gen_flat.py FILES MODS FOLDER [--share K]

FOLDER gets `stage`, `game` and `keep`, with FILES staged files spread evenly over MODS mods. With
--share K one file in K of a mod has the name of a file of the mod before it, which it wins.
"""

import argparse
import os


def make_world(files, mods, folder, share=0):
    """Makes the world, and gives how many paths are provided."""
    for root in ("stage", "game", "keep"):
        os.makedirs(os.path.join(folder, root))
    provided = set()
    for mod in range(mods):
        place = os.path.join(folder, "stage", f"mod_{mod:04d}_textures")
        os.mkdir(place)
        for at in range(files * mod // mods, files * (mod + 1) // mods):
            is_shared = share and mod and at % share == 0
            owner, number = (mod - 1, at - files // mods + 1) if is_shared else (mod, at)
            name = f"piece_{owner:04d}_{number:06d}_diffuse.dds"
            provided.add(name)
            with open(os.path.join(place, name), "w") as out:
                out.write(f"{mod} {at}")
    return len(provided)


def main():
    parser = argparse.ArgumentParser(description=__doc__)
    parser.add_argument("files", type=int)
    parser.add_argument("mods", type=int)
    parser.add_argument("folder")
    parser.add_argument("--share", type=int, default=0)
    words = parser.parse_args()
    paths = make_world(words.files, words.mods, words.folder, words.share)
    print(f"{words.files} files in {words.mods} mods, {paths} paths")


if __name__ == "__main__":
    main()
