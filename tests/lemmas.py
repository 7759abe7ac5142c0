#!/usr/bin/env python3
"""Looks for lemmas that are stated twice: python3 tests/lemmas.py

Two lemmas are the same if their statements are, apart from the names of what they bind and from what is in braces. One of them is enough if
both are in one crate, or if the crate of one names that of the other in `crates.txt`; then both are printed, and the status is 1. Lemmas
inside modules with parameters and inside `where` aren't compared."""

import collections
import os
import re
import sys

TOP = os.path.dirname(os.path.dirname(os.path.abspath(__file__)))
TOKEN = re.compile(r"◌|[^\W\d][\w\-'≡≢₁₂₃]*|\d+|[(){}]|[^\s\w(){}]+")
HEAD = re.compile(r"(?:pub )?([^\s:(){}]+) : (.*)$")
USE = re.compile(r"^(?:pub )?use ([\w.]+)\.\{([^}]*)\}$", re.M)
DEFINED = re.compile(r"^(?:(?:pub|abbrev|unfoldable|opaque|record|data) )*([^\s:(){}]+) (?::|\()", re.M)
KEYWORDS = {"use", "mod", "module", "record", "data", "abbrev", "pub"}
# A statement of fewer tokens is too general to be compared.
SHORTEST = 8


def libraries():
    """The libraries that each crate names."""
    stands = {}
    for line in open(os.path.join(TOP, "crates.txt"), encoding="utf-8"):
        name, colon, used = line.split("#")[0].partition(":")
        if colon:
            stands[name.strip()] = set(used.split())
    return stands


def is_name(token):
    return re.match(r"[^\W\d]", token) is not None and token != "λ"


def closing(tokens, at):
    """The place after the bracket that closes the one at a place."""
    opens, closes = tokens[at], {"(": ")", "{": "}"}[tokens[at]]
    depth = 0
    for place in range(at, len(tokens)):
        depth += (tokens[place] == opens) - (tokens[place] == closes)
        if depth == 0:
            return place + 1
    return len(tokens)


def binder(tokens, at):
    """The names that a bracket at a place binds, and the place of the colon after them."""
    place = at + 1
    while place < len(tokens) and is_name(tokens[place]):
        place += 1
    is_one = at + 1 < place < len(tokens) and tokens[place] == ":"
    return (tokens[at + 1 : place], place) if is_one else ([], at)


def behind(tokens, end):
    """The place after a binder and the arrow that may follow it."""
    return end + (end < len(tokens) and tokens[end] == "→")


def flat(tokens):
    """The tokens without what is in braces, with a bracket for each name that is bound; and the names that are bound."""
    left, bound, at = [], set(), 0
    while at < len(tokens):
        names, colon = binder(tokens, at) if tokens[at] in ("(", "{") else ([], at)
        end = closing(tokens, at) if names else at
        if names:
            bound.update(names)
            kind, inner = flat(tokens[colon + 1 : end - 1])
            bound |= inner
            left += [it for name in names for it in ("(", name, ":", *kind, ")")] if tokens[at] == "(" else []
            at = behind(tokens, end)
            continue
        if tokens[at] == "λ":
            place = at + 1
            while place < len(tokens) and is_name(tokens[place]):
                bound.add(tokens[place])
                place += 1
        left.append(tokens[at])
        at += 1
    return left, bound


def shape(statement):
    """The statement with the names that it binds numbered in their order."""
    tokens, bound = flat(TOKEN.findall(statement))
    places = {}
    return tuple(places.setdefault(it, len(places)) if it in bound else it for it in tokens)


def lemmas(text):
    """The lemmas at the left margin: the name, the statement and the line of each."""
    lines = text.split("\n")
    for number, line in enumerate(lines):
        head = HEAD.match(line)
        if not head or head[1] in KEYWORDS or line.startswith("--"):
            continue
        end = number + 1
        while end < len(lines) and lines[end].startswith(" "):
            end += 1
        if end < len(lines) and lines[end].startswith((head[1] + " ", "unfolding")):
            yield head[1], " ".join([head[2], *(it.strip() for it in lines[number + 1 : end])]), number + 1


def homes(module, text):
    """Our modules that define the names that a file may use."""
    stand = {}
    for source, names in USE.findall(text):
        if source.startswith("Rattle.desk_"):
            stand.update((name.strip().split(" as ")[-1], source) for name in names.split(","))
    stand.update((name, module) for name in DEFINED.findall(text) if name not in KEYWORDS)
    return stand


def found():
    """All lemmas by what they say: the crate, the file with the line, and the name of each."""
    same = collections.defaultdict(list)
    for crate in libraries():
        for folder, _, names in os.walk(os.path.join(TOP, "crates", crate, "proofs")):
            for path in (os.path.join(folder, name) for name in sorted(names) if name.endswith(".antt")):
                text = open(path, encoding="utf-8").read()
                shown = os.path.relpath(path, TOP)
                stand = homes(shown, text)
                for name, statement, line in lemmas(text):
                    said = shape(statement)
                    if len(said) < SHORTEST or statement.startswith("goal."):
                        continue
                    ours = {(it, stand[it]) for token in said for it in (token, f"◌{token}◌") if it in stand}
                    same[said, frozenset(ours)].append((crate, f"{shown}:{line}", name))
    return same


def main():
    stands, twice = libraries(), 0
    for places in found().values():
        for number, (crate, place, name) in enumerate(places):
            for other, there, known in places[:number]:
                if crate == other or crate in stands[other] or other in stands[crate]:
                    print(f"{place}: `{name}` says what `{known}` says in {there}")
                    twice += 1
    print(f"Lemmas that are stated twice: {twice}.")
    return 1 if twice else 0


sys.exit(main())
