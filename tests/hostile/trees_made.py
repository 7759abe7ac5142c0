"""Source trees from a grammar: nested folders, licence texts, what is left out, links, and names that are barely allowed. A tree is an input."""

import os
import random
import tempfile

import folders
import running
import tree_read

NAME, SIZE = "trees", 20
FOLDERS = ["", "", "src/", "src/x/", "lib/", "LICENSES/", ".reuse/", ".git/", "src/LICENSES/", "src/.git/"]
NAMES = ["a.c", "b.h", "LICENSE", "COPYING.txt", "a.c.license", "b.h.license", "é", "d", "LICENSE-MIT", "License", "-x", "a b", "dep5"]
TEXTS = ["MIT.txt", "Zlib", "mit.md", "LicenseRef-1.txt", "GPL-2.0.txt", "x", "a.b.c", ".txt", "Apache-2.0.txt", "MIT.license"]


def tree(turn):
    files = {}
    for _ in range(turn.randint(0, 9)):
        files[turn.choice(FOLDERS) + turn.choice(NAMES)] = folders.contents(turn) if turn.random() < 0.9 else b""
    for _ in range(turn.randint(0, 3)):
        files["LICENSES/" + turn.choice(TEXTS)] = b"text\n"
    for place in ("", "src/", "src/x/", "lib/"):
        if turn.random() < 0.4:
            files[place + "REUSE.toml"] = folders.reuse_file(turn)
    return files


def inputs(seed, start):
    return (tree(random.Random(f"{seed} {NAME} {number}")) for number in range(start, start + SIZE))


def compared(files, gather, lint):
    """What differs, of the four lists of `lint` and of what is gathered."""
    for name, told, wanted in zip(("flaws", "missing", "unused", "bare"), folders.flawed(lint.out), tree_read.linted(files)):
        if told != wanted:
            return f"{name}: {told!r:.600}, and not {wanted!r:.600}"
    if gather.status == 2:
        return None if folders.cannot_stand(files) else f"gather: {gather!r}"
    told, wanted = folders.gathered(gather.out), tree_read.gathered(files)
    return None if told == wanted else f"gather: {told!r:.600}, and not {wanted!r:.600}"


def with_links(room, files):
    """Links and a pipe in the tree are ignored."""
    os.symlink("/etc/passwd", os.path.join(room, "link"))
    os.symlink(room, os.path.join(room, "round"))
    os.mkfifo(os.path.join(room, "pipe"))
    return files


def differences(program, batch):
    for place, files in enumerate(batch):
        with tempfile.TemporaryDirectory(dir=running.ROOM) as room:
            folders.write(room, files)
            if place % 4 == 0:
                with_links(room, files)
            size = sum(map(len, files.values()))
            gather = program.run("gather", room, *folders.NAMING, size=size)
            lint = program.run("lint", "--json", room, size=size)
        found = running.unlike(gather, beside=folders.told_beside(gather)) or running.unlike(lint, {0, 1}) or compared(files, gather, lint)
        if found:
            yield place, found


def shown(one):
    return repr(one)
