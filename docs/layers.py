#!/usr/bin/env python3
"""Prints the crates of crates.txt in layers, for docs/ARCHITECTURE.md: python3 docs/layers.py

A crate is one layer above the highest crate of the repository that it uses. With --check it compares the page with that.
"""

import os
import sys

TOP = os.path.dirname(os.path.dirname(os.path.abspath(__file__)))
WIDTH = 100


def stands():
    """The crates of the repository that each crate uses."""
    with open(os.path.join(TOP, "crates.txt"), encoding="utf-8") as file:
        lines = [line.split("#")[0].partition(":") for line in file]
    named = {name.strip(): words.split() for name, colon, words in lines if colon}
    return {name: [word for word in words if word in named] for name, words in named.items()}


def layers(below):
    heights = {}

    def height(name):
        if name not in heights:
            heights[name] = 1 + max((height(other) for other in below[name]), default=0)
        return heights[name]

    found = {}
    for name in below:
        found.setdefault(height(name), []).append(name.removeprefix("desk_"))
    return [sorted(found[level]) for level in sorted(found)]


def drawn(found):
    """A line for each layer, the highest first, with the names without `desk_`."""
    lines = []
    for level in range(len(found), 0, -1):
        line = f"{level:2} "
        for name in found[level - 1]:
            if len(line) + 1 + len(name) > WIDTH:
                lines.append(line)
                line = "   "
            line += " " + name
        lines.append(line)
    return "\n".join(lines) + "\n"


def main():
    text = drawn(layers(stands()))
    if sys.argv[1:] == ["--check"]:
        with open(os.path.join(TOP, "docs/ARCHITECTURE.md"), encoding="utf-8") as file:
            same = text in file.read()
        print("layers: passed" if same else "docs/ARCHITECTURE.md doesn't show the layers of crates.txt: python3 docs/layers.py")
        return 0 if same else 1
    sys.stdout.write(text)
    return 0


if __name__ == "__main__":
    sys.exit(main())
