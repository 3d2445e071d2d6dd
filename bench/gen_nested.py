#!/usr/bin/env python3
"""Makes a world of mods with folders. usage: bench/gen_nested.py FILES FOLDERS MODS FOLDER

FOLDER gets `stage`, `game` and `keep`, with FOLDERS folders spread evenly over MODS mods, and FILES
empty files spread evenly over the folders. Tells how many bytes the files' paths below their mods
have together.
"""

import argparse
import os


def spread(count, over, at):
    """The numbers below `count` that fall to number `at` of `over`."""
    return range(count * at // over, count * (at + 1) // over)


def make_world(files, folders, mods, folder):
    """Makes the world, and gives how many bytes the files' paths have together."""
    for root in ("stage", "game", "keep"):
        os.makedirs(os.path.join(folder, root))
    text = 0
    for mod in range(mods):
        place = os.path.join(folder, "stage", f"mod_{mod:04d}_textures")
        os.mkdir(place)
        for part in spread(folders, mods, mod):
            above = f"part_{part:05d}"
            os.mkdir(os.path.join(place, above))
            for piece in spread(files, folders, part):
                path = f"{above}/piece_{piece:06d}_diffuse.dds"
                os.mknod(os.path.join(place, path))
                text += len(path)
    return text


def main():
    parser = argparse.ArgumentParser(description=__doc__)
    parser.add_argument("files", type=int)
    parser.add_argument("folders", type=int)
    parser.add_argument("mods", type=int)
    parser.add_argument("folder")
    words = parser.parse_args()
    text = make_world(words.files, words.folders, words.mods, words.folder)
    print(f"{words.files} files in {words.folders} folders of {words.mods} mods")
    print(f"{text} bytes of paths")


if __name__ == "__main__":
    main()
