"""Source trees with notices in comments, in tags and in REUSE.toml files: `desk credits` writes what a second reader of docs/CREDITS.md, over
Python's tomllib, finds in them, once as a table and once in its comments."""

import os
import random
import tempfile
import tomllib

import folders
import running
import text_folders
import tree_read

NAME, SIZE = "credit trees", 40
PLACES = ["", "", "src/", "src/x/", "LICENSES/", ".git/"]
NAMES = ["a.c", "b", "LICENSE", "a.c.license", "é", "d e", "-x", "\u202ef", "g\x7f"]

# The table of docs/CREDITS.md.
STARTS = """/// //! // /** /* /' ** * ## #= #* # --- -- ;;; ;; ; <!-- <%-- <#-- {{!-- {# {- (* (: : %% % ! .\\" .. " ' dnl REM rem @Comment{""".split()
ENDS = "*/ '/ =# *# --%> --> --}} #} -} *) :) }".split()
WORD, MARKS, SIGN = b"Copyright", [b"(c)", b"(C)", "©".encode()], "©".encode()

TEXTS = ["Copyright 2024 Firm", "Copyright (c) 2024 Firm", "Copyright© Firm", "Copyright", "Copyrights are", "copyright 2024", "(c) Firm", "(C)2024", "(c)", "© 2023 é",
         "©", "NONE", "Copyright\t2024", "Copyright1", "Copyright: x", tree_read.NOTICE_TAG.decode() + " 2022 Tagged", "Copyright 2024 " + tree_read.NOTICE_TAG.decode() + " x",
         tree_read.NOTICE_TAG.decode() + " Copyright 2024 Firm", "Copyright 2024 x\x7fy", tree_read.LICENCE_TAG.decode() + " a b"]
BLANKS = ["", "", " ", " ", "\t", "  \t "]

# What inputs of this kind must meet.
MEETS = {"stated", "by pattern", "twice", "none", "a flaw", "too long", "not UTF-8", "a version"}
MET = set()


# ---- trees


def line(turn):
    """A line, mostly a comment with a notice."""
    start = turn.choice(STARTS) if turn.random() < 0.85 else turn.choice(["", "x", "/", "<!", "Rem", "//\u00a0"])
    end = turn.choice(["", "", turn.choice(ENDS), turn.choice(ENDS)])
    text = "".join([turn.choice(BLANKS), start, turn.choice(BLANKS), turn.choice(TEXTS), turn.choice(BLANKS), end, turn.choice(BLANKS)])
    if turn.random() < 0.1:
        text += "x" * (turn.choice([1023, 1024, 1025, 1026]) - len(text.encode()))
    return text.encode() + turn.choice([b"\n", b"\n", b"\r\n", b"\r", b""])


def contents(turn):
    data = b"".join(line(turn) for _ in range(turn.randint(0, 5)))
    return data + b"\xff" if turn.random() < 0.08 else data


def tree(turn):
    files = {turn.choice(PLACES) + turn.choice(NAMES): contents(turn) if turn.random() < 0.8 else folders.contents(turn) for _ in range(turn.randint(0, 6))}
    for place in ("", "src/"):
        if turn.random() < 0.3:
            files[place + "REUSE.toml"] = folders.reuse_file(turn)
    return files, turn.choice(["p", "a \"b\"", "é\n"]), turn.choice([None, None, "1.0", ""])


def inputs(seed, start):
    return [tree(random.Random(f"{seed} {NAME} {number}")) for number in range(start, start + SIZE)]


# ---- the second reader


def is_notice(text):
    behind = text[len(WORD) :]
    if text.startswith(WORD) and (behind[:1] in (b" ", b"\t", b"(", *(b"%d" % digit for digit in range(10))) or behind.startswith(SIGN)):
        return True
    return any(text.startswith(mark) and len(text) > len(mark) for mark in MARKS)


def by_pattern(data):
    """The notice that a line has by pattern, or None."""
    if len(data) > 1024:
        MET.add("too long")
        return None
    text = data.strip(b" \t")
    start = next((start.encode() for start in STARTS if text.startswith(start.encode())), None)
    if tree_read.NOTICE_TAG in data or start is None:
        return None
    text = text[len(start) :].strip(b" \t")
    end = next((end.encode() for end in ENDS if text.endswith(end.encode())), b"")
    text = text[: len(text) - len(end)].rstrip(b" \t")
    return text.decode() if is_notice(text) else None


def lines_of(data):
    """The lines of a file that is UTF-8, with their numbers."""
    try:
        data.decode()
    except UnicodeDecodeError:
        MET.add("not UTF-8")
        return []
    return [(number, each.removesuffix(b"\r")) for number, each in enumerate(data.split(b"\n"), 1)]


def last_line(data):
    """Whether a file's last line has no LF: then a CR at its end belongs to it."""
    return data.count(b"\n") + 1 if data and not data.endswith(b"\n") else 0


def notices_of(files):
    """Each notice once, with the place at which it was found by pattern first, or None."""
    reuse, found = tree_read.Tree(files), {}
    for path in reuse.covered():
        for text in reuse.information(path)[0]:
            if text not in ("", "NONE", "NOASSERTION"):
                MET.add("stated")
                found.setdefault(text, None)
        data = reuse.files[path]
        for number, each in lines_of(data):
            if number == last_line(data):
                each = data.rpartition(b"\n")[2]
            text = by_pattern(each)
            if text is not None:
                MET.add("twice" if text in found else "by pattern")
                found.setdefault(text, (path, number))
    return found


def shown_path(path):
    return "".join("?" if text_folders.is_hidden(char) else char for char in path)


def told_of(files):
    """What standard error says of the REUSE.toml files."""
    reuse, told = tree_read.Tree(files), []
    for path in sorted((path for path in reuse.files if tree_read.is_reuse(path)), key=str.encode):
        found = reuse.annotations[path.rpartition("REUSE.toml")[0]]
        if found is None:
            told.append(f"{shown_path(path)}: it is no TOML document of version 1\n")
        else:
            told += [f"{shown_path(path)}: its annotation {number} can not be read\n" for number, each in enumerate(found) if isinstance(each, int)]
    if told:
        MET.add("a flaw")
    return "".join(told)


def wanted(files, name, version):
    """The table, the comments, what standard error says, and the status."""
    found, told = notices_of(files), told_of(files)
    if not found:
        MET.add("none")
        return {}, [], told + "no notice is found\n", 1
    if version is not None:
        MET.add("a version")
    comments = [f"# found by pattern, to be checked: {shown_path(place[0])}:{place[1]}" for place in found.values() if place]
    credit = {"package": name, "text": "\n".join(found)} | ({} if version is None else {"version": version})
    return {"credit": [credit]}, comments, told, 0


def difference(program, folder, files, name, version):
    words = ["credits", folder, "--name", name] + ([] if version is None else ["--of-version", version])
    done = program.run(*words, size=1 << 20)
    table, comments, told, status = wanted(files, name, version)
    if (done.status, done.err.decode()) != (status, told):
        return f"{done!r}, and not {(status, told)!r:.600}"
    text = done.out.decode()
    if tomllib.loads(text) != table:
        return f"{text!r:.600}, and not {table!r:.600}"
    if text.partition("[[credit]]")[0].splitlines() != comments:
        return f"{text!r:.600}, and not {comments!r:.600}"
    return None


def differences(program, batch):
    for place, (files, name, version) in enumerate(batch):
        with tempfile.TemporaryDirectory(dir=running.ROOM) as room:
            folders.write(room, files)
            words = difference(program, room, files, name, version)
        if words:
            yield place, words


def shown(one):
    return repr(one)
