#!/usr/bin/env python3
"""Prints the licence texts of the toolchain's crates that the program is made from: python3 packaging/licences.py

They are the crates that crates.txt names and the toolchain has, and those that these name in turn, by the paths in their sources. A path
may name a module instead, so it may print a text that isn't needed, but none is missing."""
import os
import re
import subprocess

TOP = os.path.dirname(os.path.dirname(os.path.abspath(__file__)))


def kit_folder():
    doc = subprocess.run(["rt", "doc"], stdout=subprocess.PIPE, text=True, check=True).stdout.strip()
    return os.path.join(os.path.dirname(doc), "rattle")


def named_by_the_desk():
    """The libraries that crates.txt names and doesn't declare."""
    with open(os.path.join(TOP, "crates.txt"), encoding="utf-8") as listed:
        lines = [line.split("#")[0].partition(":") for line in listed]
    declared = {name.split()[0] for name, colon, _ in lines if colon}
    return {word for _, _, words in lines for word in words.split()} - declared


def named_in(folder):
    """The first names of the paths in the sources of a crate."""
    for at, _, names in os.walk(os.path.join(folder, "src")):
        for name in names:
            if name.endswith(".rt"):
                with open(os.path.join(at, name), encoding="utf-8") as file:
                    yield from re.findall(r"\b(\w+)::", file.read())


def crates(kit):
    """The crates of the toolchain that the program is made from."""
    found, left = set(), named_by_the_desk()
    while left:
        found |= left
        left = {word for name in left for word in named_in(os.path.join(kit, name))} - found
        left = {word for word in left if os.path.isdir(os.path.join(kit, word, "src"))}
    return sorted(found - {"std"})


def texts(kit, names):
    """Each licence text, with the crates and the names of files that have it, and the crates without one."""
    found, without = {}, []
    for name in names:
        folder = os.path.join(kit, name)
        licences = sorted(it for it in os.listdir(folder) if it.startswith("LICENSE"))
        for licence in licences:
            with open(os.path.join(folder, licence), encoding="utf-8") as file:
                found.setdefault(file.read().strip(), []).append(f"{name} ({licence})")
        if not licences:
            without.append(name)
    return found, without


def main():
    kit = kit_folder()
    found, without = texts(kit, crates(kit))
    print("The program `desk` is made from the crates of its own source tree, under the Apache License 2.0, and from crates of the")
    print("Rattle toolchain, most of them after Rust crates of these names. The toolchain has these licence texts with them.")
    for text, names in found.items():
        print(f"\n{'=' * 80}\n{', '.join(names)}\n{'=' * 80}\n\n{text}")
    print(f"\n{'=' * 80}\nNo text of their own: std, {', '.join(without)}")


main()
