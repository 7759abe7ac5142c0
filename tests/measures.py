#!/usr/bin/env python3
"""Checks the sources of the crates against the measures of CONTRIBUTING.md: python3 tests/measures.py

Lines and functions of a crate, lines of a file and of a function's body, parameters, loops, the width of clauses, files of a folder; and
that a comment is directly above each definition in `specs` and each public item, field and variant in `src`. Each breach is printed with
its file and line.

What exceeds a measure is in EXCEEDS with its figure. An entry only shrinks: one above the figure that is found fails too, so that it is
lowered.
"""

import os
import re
import sys

TOP = os.path.dirname(os.path.dirname(os.path.abspath(__file__)))

# The most of each measure.
# (without those that are comments)
CRATE_LINES = 1_500
CRATE_FUNCTIONS = 100
FUNCTION_LINES = 40
PARAMETERS = 7
LOOPS = 1
FILE_LINES = 800
# (about a hundred; tests/format.py checks that nearly all lines have at most 100)
COLUMNS = 120
FOLDER_FILES = 40

# Folders with a file for each case or edit.
CASES = ("tests/edits/", "tests/acceptance", "tests/dialogues")

# What exceeds a measure: by its place, the measure and the figure.
EXCEEDS = {
    ("crates/desk_alts/proofs", "files of a folder"): 43,
    ("crates/desk_alts/src/covering.rt covers", "loops"): 2,
    ("crates/desk_alts/src/fronts.rt minimal_sets", "loops"): 2,
    ("crates/desk_alts/src/listed.rt add_own", "loops"): 2,
    ("crates/desk_alts/src/truth.rt holds_in", "loops"): 2,
    ("crates/desk_alts/src/truth.rt holds_without", "loops"): 2,
    ("crates/desk_catalogue/src/order.rt sorted_set", "loops"): 2,
    ("crates/desk_expr/src/expr.rt clone", "loops"): 2,
    ("crates/desk_expr/src/listing.rt collect_terms", "loops"): 2,
    ("crates/desk_expr/src/printing.rt add_to", "loops"): 2,
    ("crates/desk_history_laws/proofs", "files of a folder"): 55,
    ("crates/desk_memory/src/store.rt write", "lines of a body"): 42,
    ("crates/desk_program/src", "lines of a crate"): 1_510,
    ("crates/desk_sql_write/src/change.rt make", "lines of a body"): 45,
}

LOOP = re.compile(r"\s*(?:'\w+: )?(?:for|while|loop)\b.*\{$")
FUNCTION = re.compile(r"( *)(?:pub(?:\([a-z]+\))? )?(?:const )?fn (\w+)")
PUBLIC = re.compile(r"( *)pub (?:const )?(fn|struct|enum|trait|type|const|static|(?=\w+:)) ?(\w+)")
MEMBER = re.compile(r"( *)(?:const )?(?:(?:fn|type|const) )?(\w+)")
FIELD = re.compile(r"( *)(\w+): ")
DEFINITION = re.compile(r"( *)(?:pub |abbrev |unfoldable |opaque |record |data )*([^\s:(){}=-][^\s:(){}=]*) ")


class Found:
    """What was found: the breaches, and the highest figure of each measure at each place, with its line."""

    def __init__(self):
        self.breaches, self.figures = [], {}

    def measure(self, place, line, what, figure, most):
        """Notes a figure, if it exceeds the measure."""
        if figure > most:
            self.figures[place, what] = max(self.figures.get((place, what), (0, 0, 0)), (figure, line, most))

    def bare(self, path, line, name):
        self.breaches.append(f"{path}:{line}: {name} has no comment above it")

    def compare(self):
        """Compares the figures with their entries in EXCEEDS."""
        for (place, what), (figure, line, most) in self.figures.items():
            entry = EXCEEDS.get((place, what), most)
            if figure > entry:
                self.breaches.append(f"{place}:{line}: {figure} {what}, {entry} at most")
            if figure < entry:
                self.breaches.append(f"{place}:{line}: {figure} {what}: take the entry in tests/measures.py down from {entry}")
        for place, what in set(EXCEEDS) - set(self.figures):
            self.breaches.append(f"{place}: {what}: no longer exceeded: take the entry out of tests/measures.py")


def folders(*parts):
    """The folders below one, without built ones, each with its files."""
    for at, below, names in os.walk(os.path.join(TOP, *parts)):
        below[:] = sorted(it for it in below if it not in ("out", "build", "declared", ".git", "__pycache__"))
        yield os.path.relpath(at, TOP), sorted(names)


def sources(crate, part, ending):
    """The files of a part of a crate, each with its lines."""
    for at, names in folders("crates", crate, part):
        for name in names:
            if name.endswith(ending):
                path = os.path.join(at, name)
                with open(os.path.join(TOP, path), encoding="utf-8") as file:
                    yield path, file.read().removesuffix("\n").split("\n")


def tests_at(lines):
    """The place of the tests at the end of a file, or its end."""
    return lines.index("#[cfg(test)]") if "#[cfg(test)]" in lines else len(lines)


# Functions


def body_of(lines, at, indent):
    """The first and the last line of the body of the function at a line; nothing if it has none."""
    if lines[at].endswith("}"):
        return at, at
    for place in range(at, len(lines)):
        line = lines[place]
        is_outer = line.startswith(indent) and not line.startswith(indent + " ")
        if is_outer and line.endswith("{"):
            return place, lines.index(indent + "}", place)
        if is_outer and line.endswith("{}"):
            return place, place
        # what follows the head is indented one step, except the end of its parameters and the word before its bounds
        if place > at and not line.startswith((indent + " ", indent + ")", indent + "where")):
            return None
    return None


def inner(lines, at):
    """The text between the parentheses of the function at a line."""
    text = "\n".join(lines[at : at + 60])
    text = text[re.search(r"\bfn \w+", text).end() :]
    depth, start = 0, None
    angles = 0
    for place, sign in enumerate(text):
        before = text[place - 1] if place else ""
        angles += (sign == "<") - (sign == ">" and before not in "-=")
        if sign in "([{":
            start = place + 1 if start is None and sign == "(" and angles == 0 else start
            depth += start is not None
        elif sign in ")]}" and start is not None:
            depth -= 1
            if depth == 0:
                return text[start:place]
    return ""


def parameters(text):
    """How many parameters a list has: what its outermost commas separate."""
    depth, parts = 0, [""]
    for place, sign in enumerate(text):
        depth += sign in "([{<"
        depth -= sign in ")]}" or (sign == ">" and text[place - 1] not in "-=")
        if sign == "," and depth == 0:
            parts.append("")
        else:
            parts[-1] += sign
    return sum(bool(part.strip()) for part in parts)


def see_functions(found, path, lines):
    """Measures the functions of a file, and returns how many they are."""
    count = 0
    for at, line in enumerate(lines):
        head = FUNCTION.match(line)
        if head is None:
            continue
        count += 1
        place = f"{path} {head[2]}"
        found.measure(place, at + 1, "parameters", parameters(inner(lines, at)), PARAMETERS)
        body = body_of(lines, at, head[1])
        if body:
            inside = lines[body[0] + 1 : body[1]]
            found.measure(place, at + 1, "lines of a body", len(inside), FUNCTION_LINES)
            found.measure(place, at + 1, "loops", sum(LOOP.match(it) is not None for it in inside), LOOPS)
    return count


# Comments


def is_commented(lines, at):
    """Whether a comment is right above a line and the attributes of what begins there, or the text of an error."""
    while at > 0:
        above = lines[at - 1].strip()
        if above.startswith(("//", "#[error(")):
            return True
        # an attribute, maybe over several lines
        if above.startswith("#[") or above.endswith(")]"):
            at -= 1
            while at > 0 and not lines[at].strip().startswith("#["):
                at -= 1
            continue
        return False
    return False


def member_of(kind, indent, line):
    """The name of what a line of a public enum or trait declares: a variant, a field of one on a separate line, or an item of the trait."""
    if kind == "struct" or line.strip().startswith(("ghost", "where", "#", "//")):
        return None
    field, member = FIELD.match(line), MEMBER.match(line)
    if kind == "enum" and field and field[1] == indent + 8 * " ":
        return field[2]
    return member[2] if member and member[1] == indent + 4 * " " else None


def see_public(found, path, lines):
    """Checks that the public items of a file, and what is in them, have comments."""
    inside = None
    for at, line in enumerate(lines):
        if inside and line == inside[1] + "}":
            inside = None
        item = PUBLIC.match(line)
        name = item[3] if item else inside and member_of(*inside, line)
        # nothing else uses the fields of a type that isn't public
        is_hidden = item and not item[2] and inside is None
        if name and not is_hidden and not is_commented(lines, at):
            found.bare(path, at + 1, name)
        if item and item[2] in ("struct", "enum", "trait") and line.endswith("{"):
            inside = (item[2], item[1])


def see_definitions(found, path, lines):
    """Checks that each definition of a file has a comment: those at the margin, and those of a module with parameters or a mutual block."""
    is_block = False
    for at, line in enumerate(lines):
        if line and not line.startswith(" "):
            is_block = line.startswith(("module ", "mutual", "abbrev mutual"))
            if is_block:
                continue
        head = DEFINITION.match(line)
        if not head or (head[1] and not is_block) or len(head[1]) > 2:
            continue
        if head[2] in ("use", "mod") or not begins(line.strip()):
            continue
        above = lines[at - 1].strip() if at else ""
        # (a heading is about several)
        if not above.startswith("--") or above.startswith("-- ----"):
            found.bare(path, at + 1, head[2])


def begins(line):
    """Whether a line begins a definition, not a clause of one."""
    words = line.split(" ")
    return words[0] in ("pub", "abbrev", "unfoldable", "opaque", "record", "data") or words[1:2] == [":"]


# Crates and folders


def see_columns(found, path, lines):
    """Checks that no line is too wide, except imports, hints to the prover and texts."""
    for at, line in enumerate(lines):
        is_free = line.strip().startswith(("use ", "pub use ", "ghost use ", "#[")) or '"' in line
        if len(line) > COLUMNS and not is_free:
            found.breaches.append(f"{path}:{at + 1}: {len(line)} columns, {COLUMNS} at most")


def see_crate(found, crate):
    count = total = 0
    for path, lines in sources(crate, "src", ".rt"):
        found.measure(path, 1, "lines of a file", len(lines), FILE_LINES)
        lines = lines[: tests_at(lines)]
        total += sum(not line.lstrip().startswith("//") for line in lines)
        count += see_functions(found, path, lines)
        see_public(found, path, lines)
        see_columns(found, path, lines)
    found.measure(f"crates/{crate}/src", 1, "lines of a crate", total, CRATE_LINES)
    found.measure(f"crates/{crate}/src", 1, "functions of a crate", count, CRATE_FUNCTIONS)
    for path, lines in sources(crate, "specs", ".antt"):
        found.measure(path, 1, "lines of a file", len(lines), FILE_LINES)
        see_definitions(found, path, lines)
        see_columns(found, path, lines)
    for path, lines in sources(crate, "proofs", ".antt"):
        found.measure(path, 1, "lines of a file", len(lines), FILE_LINES)


def see_folders(found):
    for at, names in folders():
        if not at.startswith(CASES) and not at.endswith("/must-fail"):
            found.measure(at, 1, "files of a folder", len(names), FOLDER_FILES)


def main():
    found = Found()
    for crate in sorted(os.listdir(os.path.join(TOP, "crates"))):
        see_crate(found, crate)
    see_folders(found)
    found.compare()
    for breach in found.breaches:
        print(breach)
    print(f"Breaches of measures: {len(found.breaches)}.")
    return 1 if found.breaches else 0


if __name__ == "__main__":
    sys.exit(main())
