"""Folders with a REUSE.toml from a grammar and by mutation, patterns of paths, and files with tags: many folders in one tree.

Each folder is one input. `desk lint` reports what is wrong in any of them, `desk gather` what is stated in those without a fault."""

import json
import os
import random
import re
import tempfile

import catalogue_faults
import mutations
import running
import tree_read

NAME, SIZE = "folders", 60
NAMES = ["a.c", "b.h", "x/a.c", "x/y/a.c", "*", "\\", "a*b", "?", "é", "aab", "a-b", "x/b", "x/y/z/ab", "LICENSE", "a.c.license", "b", "[a]"]
PIECES = ["a", "b", "*", "**", "***", "\\", "\\*", "\\\\", "/", "x", "y", ".c", "?", "é", "[a]", "**/", "/**", "a*", "*b", "\\a"]
LICENCES = ["MIT", "Zlib", "MIT OR Zlib", "LicenseRef-1", "GPL-2.0+ WITH x", "MIT AND", "NONE", "mit", "a b", "()", " MIT", "Zlib\t", "DocumentRef-D:LicenseRef-1", "(zlib)OR(Mit+)"]
NOTICES = ["2025 Firm", "2024 Other", "© é", "2025 </text>", "x"]
PRECEDENCES = ["closest", "aggregate", "override", "closest", "aggregate", "override", "nearest", ""]
TAGS = [tree_read.LICENCE_TAG.decode(), tree_read.NOTICE_TAG.decode()]
WORDS = [*TAGS, *TAGS, " MIT", " Zlib OR MIT", " a b", " 2025 Firm", " */", "-->", " *)", "-}", "\n", "\n", "\n", "\r\n", "\r", "\t", " ", "//",
         tree_read.START.decode(), tree_read.END.decode(), "SPDX-", "x", "\xe9", "é"]


def pattern(turn):
    if turn.random() < 0.4:
        return turn.choice(["**", "*", "*.c", "**.c", "x/*", "x/**", "a.c", "**/a.c", "*/a.c", "x/**/a.c"])
    return "".join(turn.choice(PIECES) for _ in range(turn.randint(0, 6)))


def one_or_more(turn, values, few):
    chosen = [turn.choice(values[:few] if turn.random() < 0.9 else values) for _ in range(turn.choice([1, 1, 1, 2, 3, 0]))]
    return json.dumps(chosen[0] if len(chosen) == 1 and turn.random() < 0.8 else chosen, ensure_ascii=False)


def annotation(turn):
    rows = [f"path = {json.dumps([pattern(turn) for _ in range(turn.choice([1, 1, 2, 3]))], ensure_ascii=False)}"]
    if turn.random() < 0.5:
        rows.append(f'precedence = "{turn.choice(PRECEDENCES[:6] if turn.random() < 0.95 else PRECEDENCES)}"')
    if turn.random() < 0.7:
        rows.append(f"{tree_read.NOTICE_KEY} = {one_or_more(turn, NOTICES, 5)}")
    if turn.random() < 0.8:
        rows.append(f"{tree_read.LICENCE_KEY} = {one_or_more(turn, LICENCES, 5)}")
    if turn.random() < 0.03:
        rows[turn.randrange(len(rows))] = turn.choice(["path = 1", "precedence = true", f"{tree_read.LICENCE_KEY} = [1]", "more = {}", "# c"])
    return "[[annotations]]\n" + "".join(row + "\n" for row in rows)


def reuse_file(turn):
    head = "version = 1\n" if turn.random() < 0.97 else turn.choice(["", "version = 2\n", "version = 1.0\n", "version = '1'\n", "annotations = 1\n"])
    text = head + "".join(annotation(turn) for _ in range(turn.choice([0, 1, 1, 2, 3])))
    if turn.random() < 0.25:
        changed = mutations.changed(turn, text.encode())
        return changed if catalogue_faults.is_sure(changed.decode(errors="replace")) else text.encode()
    return text.encode()


def contents(turn):
    """A file's bytes: tags, ignored stretches and other words."""
    kind = turn.random()
    if kind < 0.3:
        return b"x\n"
    text = "".join(turn.choice(WORDS) for _ in range(turn.randint(1, 14)))
    data = text.encode("latin-1" if kind > 0.95 else "utf-8", "replace")
    return mutations.changed(turn, data) if kind < 0.5 else data


def folder(turn):
    """The files of a folder, by their paths in it."""
    files = {name: contents(turn) for name in turn.sample(NAMES, turn.randint(1, 5))}
    if turn.random() < 0.85:
        files["REUSE.toml"] = reuse_file(turn)
    if turn.random() < 0.2:
        files["x/REUSE.toml"] = reuse_file(turn)
    if "x" in files or any(path + "/" in other for path in files for other in files):
        return folder(turn)
    return files


def inputs(seed, start):
    return (folder(random.Random(f"{seed} {NAME} {number}")) for number in range(start, start + SIZE))


def write(room, files):
    for path, data in files.items():
        place = os.path.join(room, path)
        os.makedirs(os.path.dirname(place), exist_ok=True)
        with open(place, "wb") as file:
            file.write(data)


NAMING = ["--name", "n", "--namespace", "https://example.org/n", "--created", "2025-01-01T00:00:00Z"]


def value(text):
    text = text.removeprefix("<text>").removesuffix("</text>")
    return "-" if text == "NOASSERTION" else text.replace("\n", "; ")


def gathered(out):
    """What `desk gather` printed: of each file by its path, or the line of the fault."""
    text = out.decode()
    if not text.startswith("SPDXVersion: "):
        return text.removesuffix("\n")
    told = {}
    for part in re.split(r"\n\nFileName: \./", text)[1:]:
        licences = re.search(r"^LicenseConcluded: (.*)$", part, re.M).group(1)
        notices = re.search(r"^FileCopyrightText: ((?:.|\n)*?)\n?\Z", part, re.M).group(1)
        told[part.partition("\n")[0]] = f"{value(notices)} / {value(licences)}"
    return told


def flawed(out):
    """What `desk lint --json` listed: flaws, missing and unused texts, bare files."""
    flaws, missing, unused, bare = [], [], [], []
    for problem in json.loads(out)["problems"]:
        kind, path = problem["kind"], problem["path"]
        if kind == "Missing":
            name, _, named = problem["message"].removeprefix("no text of ").partition(", which ")
            missing.append((name, named.rpartition(" names: ")[0]))
        elif kind in ("Unused", "Bare"):
            (unused if kind == "Unused" else bare).append(path)
        else:
            flaws.append((kind, path) if problem["line"] is None else (kind, path, problem["line"]))
    return flaws, missing, unused, bare


def cannot_stand(files):
    """The only licence in a REUSE.toml, with blanks at its ends, can't be in its field: then `gather` ends with status 2."""
    tree = tree_read.Tree(files)
    licences = (tree.information(path)[1] for path in tree.covered())
    return any(len(each) == 1 and (each[0] != each[0].strip(" \t") or "\n" in each[0]) for each in licences)


def told_beside(gather):
    """What standard error says besides the output of `gather`: the fault again, or what the document lacks."""
    rows = gather.out.split(b"\n")
    licences, notices = (rows.count(tag + b": NOASSERTION") for tag in (b"LicenseConcluded", b"FileCopyrightText"))
    words = b"files without a licence: %d, without a notice: %d; the document says NOASSERTION of them\n" % (licences, notices)
    return gather.out if gather.status == 1 else words if licences or notices else b""


def runs(program, files):
    """What `gather` and `lint` say of a tree, or what no answer may be."""
    with tempfile.TemporaryDirectory(dir=running.ROOM) as room:
        write(room, files)
        size = sum(map(len, files.values()))
        gather = program.run("gather", room, *NAMING, size=size)
        lint = program.run("lint", "--json", room, size=size)
    wrong = running.unlike(gather, beside=told_beside(gather)) or running.unlike(lint, {0, 1})
    return gather, lint, wrong


def tree_of(batch):
    return {f"{place}/{path}": data for place, files in enumerate(batch) for path, data in files.items()}


def differing(told, wanted):
    """The folders in which two lists or two tables differ."""
    if isinstance(told, dict) and isinstance(wanted, dict):
        paths = [path for path in {**told, **wanted} if told.get(path) != wanted.get(path)]
        return {int(path.partition("/")[0]): f"{path}: {told.get(path)!r}, and not {wanted.get(path)!r}" for path in paths}
    if not isinstance(told, list) or not isinstance(wanted, list):
        return {0: f"{told!r:.300}, and not {wanted!r:.300}"}
    rows = [row for row in (*told, *wanted) if (row in told) != (row in wanted)]
    paths = {row: row if isinstance(row, str) else row[1] for row in rows}
    found = {int(path.partition("/")[0]): f"{row!r} is {'reported' if row in told else 'not reported'}" for row, path in paths.items()}
    return found if found or told == wanted else {0: f"another order: {told!r:.300}, and not {wanted!r:.300}"}


def differences(program, batch):
    files = tree_of(batch)
    _, lint, wrong = runs(program, files)
    if wrong:
        yield 0, wrong
        return
    (flaws, missing, _, bare), wanted = flawed(lint.out), tree_read.linted(files)
    for told, want in ((flaws, wanted[0]), (bare, wanted[3])):
        yield from differing(told, want).items()
    if missing != wanted[1]:
        yield 0, f"texts that are missing: {set(missing) ^ set(wanted[1])}"
    faulty = {int(path.partition("/")[0]) for _, path, *_ in (*flaws, *wanted[0])}
    sound = {path: data for path, data in files.items() if int(path.partition("/")[0]) not in faulty}
    gather, _, wrong = runs(program, sound)
    if wrong:
        yield 0, wrong
    elif gather.status == 2:
        yield from [] if cannot_stand(sound) else [(0, f"gather: {gather!r}")]
    else:
        yield from differing(gathered(gather.out), tree_read.gathered(sound)).items()


def shown(one):
    return repr(one)
