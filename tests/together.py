"""Which edits of a crate one check can try together, and what it says about each.

A function is proved from its own body and proof, the types that it names, and the contracts of what it calls; no other function's body is
seen. So if each edit changes the body of one function, and none of these functions calls another, directly or through others, then each
function has the same goals as with its edit on its own, and the prover does the same with them. Much of a check's time goes into reading
the crate and its libraries; this is then spent only once.

An edit counts as refused here only if the prover says that its own function isn't proved, not because of one that it calls, and refuses a
goal that is located in the function's text or in the files of its proof: not at a limit, and not only because a name is missing. All others
are tried separately: those that change anything but the body of one function, those that weren't refused, and those for which this can't be
determined. Calls are found by their words; if one is missed, the prover names it, and the edit of the caller is tried separately."""
import functools
import os
import re
import shutil
import subprocess
from typing import NamedTuple

# The most edits of one check.
MOST = 16
HEAD = re.compile(r"( *)(?:pub(?:\([a-z ]+\))? )?(const )?(?:unsafe )?fn (\w+)")
# An impl with functions named only after the type.
OWNER = re.compile(r"impl(?:<[^>]*>)? (\w+)(?:<'[^>]*>)? \{$")
# How a plain function is called or passed on, and how a method is.
CALL = re.compile(r"(?<![.\w])(\w+)(?:::<[^>]*>)?\(|::(\w+)|[(,=] *(\w+)(?=[,);])")
METHOD_CALL = re.compile(r"\.(\w+)(?:::<[^>]*>)?\(|::(\w+)")
TOLD = re.compile(r"(?:note: )?(?:\./)?((?:src|proofs)/\S+?):(\d+):\d+: ")
# What says nothing about a contract: an edit removed a name that a proof cites, or what depends on such a proof; a limit of the prover.
GONE = r"(note: )?(\./)?proofs/.*(has no field|is not in scope|has no `|was not admitted)"
IDLE = re.compile(GONE + r"|.*(antt ran out of|outgrew the memory limit|stopped at the step limit)")


class Function(NamedTuple):
    """A function with a body: its file, name, and the type that its path names; its first line, that of its body, and its last; its text."""

    file: str
    name: str
    owner: str
    first: int
    body: int
    last: int
    text: str

    def module(self):
        path = self.file.removeprefix("src/").removesuffix(".rt").removesuffix("/mod")
        return [] if path in ("lib", "main") else path.split("/")

    def path(self):
        """What to give to --only: the function, or otherwise its module."""
        named = self.owner is not None
        return "::".join(self.module() + ([*filter(None, [self.owner]), self.name] if named else []))

    def holds(self, path, line):
        """Whether this place is the function's own: in its text, or in the files of its proof."""
        if path == self.file:
            return self.first <= line <= self.last
        folders = path.split("/")[1:-1]
        own = ["proofs", *self.module(), *filter(None, [self.owner])]
        named = folders[-1:] in ([self.name], [f"+{self.name}"])
        return named and (path.split("/")[:-2] == own if self.owner is not None else path.split("/")[: len(own)] == own)

    def is_of(self, crate, path):
        """Whether the prover's name of a function may be that of this one."""
        start = [crate, *self.module(), *filter(None, [self.owner])]
        parts = path.split("::")
        return parts[-1] == self.name and (parts[:-1] == start if self.owner is not None else parts[: len(start)] == start)


def functions(file, text):
    """The functions of a file that is in `rt fmt`'s layout, those within another left out, and those that constants may call."""
    lines, found, owner, at = text.split("\n"), [], "", 0
    while at < len(lines):
        head = HEAD.match(lines[at])
        if lines[at][:1].strip() and not head:
            outer = OWNER.match(lines[at])
            owner = outer[1] if outer else None if lines[at].startswith(("impl", "trait", "pub trait", "mod", "pub mod")) else owner
        at += 1
        if not head or lines[at - 1].endswith("}"):
            continue
        first, edge = at - 1, head[1]
        body = next((it for it in range(first, len(lines)) if re.match(edge + r"(\S.*)?[{;]$", lines[it])), len(lines))
        last = next((it for it in range(body, len(lines)) if lines[it] == edge + "}"), None)
        if last is None or lines[body].endswith(";"):
            continue
        at = last + 1
        if not head[2]:
            found.append(Function(file, head[3], owner if edge else "", first + 1, body + 1, last + 1, "\n".join(lines[body : last + 1])))
    return found


def changed_function(texts, were, every):
    """The function whose body is all that these texts change, if there is one."""
    found = set()
    for file, text in texts.items():
        new, old = text.split("\n"), were(file).split("\n")
        lines = [at + 1 for at, pair in enumerate(zip(new, old)) if pair[0] != pair[1]]
        if len(new) != len(old) or not file.startswith("src/"):
            return None
        found |= {next((it for it in every if it.file == file and it.body < line < it.last), None) for line in lines}
    return found.pop() if len(found) == 1 else None


def reached(every, new):
    """What each function may call, directly or through others, as far as its words show; `new` has what edits make of them."""
    called = lambda pattern, text: {word for it in pattern.finditer(text) for word in it.groups() if word}
    calls = {}
    for it in every:
        text = "\n".join([it.text, *new.get(it, ())])
        plain, methods = called(CALL, text), called(METHOD_CALL, text)
        calls[it] = {other for other in every if other.name in (plain if other.owner == "" else methods)}
    found = {}
    for it in every:
        seen, left = set(), [it]
        while left:
            more = calls[left.pop()] - seen
            seen |= more
            left += more
        found[it] = seen
    return found


def batches(changed, reach):
    """Groups of edits such that the function of an edit calls no function of another edit."""
    groups = []
    for edit in sorted(changed, key=lambda it: (-len(reach[changed[it]]), it)):
        one = changed[edit]
        fits = lambda other: one != other and one not in reach[other] and other not in reach[one]
        group = next((it for it in groups if len(it) < MOST and all(fits(changed[other]) for other in it)), None)
        if group is None:
            groups.append([edit])
        else:
            group.append(edit)
    return groups


def linked(folder, to):
    """Copies what a check kept, by links to the checked modules: a check replaces such a file, and changes none."""
    copy = lambda one, other: os.link(one, other) if one.endswith(".oantt") else shutil.copy2(one, other)
    shutil.copytree(folder, to, copy_function=copy)


def checked(room, paths):
    """What a check of these functions says, and how it ends. What it began with is there again for the next."""
    kept, begun = os.path.join(room, "out", "incremental"), os.path.join(room, "out", "begun")
    if not os.path.isdir(begun):
        linked(kept, begun)
    only = [word for path in sorted(set(paths)) for word in ("--only", path)] if all(paths) else []
    words = ["rt", "check", "--jobs", "1", *only]
    how = {"stdin": subprocess.DEVNULL, "stdout": subprocess.PIPE, "stderr": subprocess.STDOUT, "text": True, "errors": "replace"}
    done = subprocess.run(words, cwd=room, **how)
    shutil.rmtree(kept, ignore_errors=True)
    linked(begun, kept)
    return checked(room, [""]) if only and done.returncode == 2 else (done.stdout.split("\n"), done.returncode)


def refusal(crate, one, lines):
    """The line by which the prover refuses a goal of this function, if it does so for no other's sake."""
    said = [it[2] for it in (re.match(r"fn (\S+?): (.*)", line) for line in lines) if it and one.is_of(crate, it[1])]
    if len(said) != 1 or not re.match(r"no proof|not proved", said[0]) or re.search(r", which (is|are) not proved", said[0]):
        return None
    own = ".".join(["Rattle", crate, "proofs", *one.module(), ""])
    if any(not it.startswith(own) or f".{one.name}." not in it.replace("+", "") for it in re.findall(r"`(Rattle\.\S+?)`", said[0])):
        return None
    placed = [(line, it) for line in lines for it in [TOLD.match(line)] if it and (": error" in line or line.startswith("note: "))]
    told = [line for line, it in placed if one.holds(it[1], int(it[2]))]
    # (the prover couldn't read the text, say)
    unread = any(re.match(r"(\./)?src/", line) for line in told)
    return None if unread else next((line for line in told if not IDLE.match(line)), None)


def edit_files(room, texts):
    for file, text in texts.items():
        with open(os.path.join(room, file), "w") as out:
            out.write(text)


def merged(were, texts):
    """The texts with the lines of all these edits, each of which changes other lines."""
    found = {}
    for it in texts:
        for file, text in it.items():
            old = were(file).split("\n")
            lines = found.setdefault(file, list(old))
            for at, line in enumerate(text.split("\n")):
                if line != old[at]:
                    lines[at] = line
    return {file: "\n".join(lines) for file, lines in found.items()}


def tried(room, crate, batch, changed, texts, were):
    """The line by which the prover refuses each of these edits, for those for which it can be determined."""
    if not batch:
        return {}
    whole = merged(were, [texts[it] for it in batch])
    edit_files(room, whole)
    try:
        lines, status = checked(room, [changed[it].path() for it in batch])
    finally:
        edit_files(room, {file: were(file) for file in whole})
    stops = [(it[1], int(it[2])) for it in map(TOLD.match, lines) if it and re.search(r": error\[", it.string)]
    if stops:
        left = [it for it in batch if not any(changed[it].holds(*stop) for stop in stops)]
        again = tried if len(left) < len(batch) else tried_in_halves
        return again(room, crate, left, changed, texts, were)
    if status == 0:
        return {}
    if status != 1 or not any(re.match(r"only=\d+ proved=\d+|logic=not-proved", line) for line in lines):
        return tried_in_halves(room, crate, batch, changed, texts, were)
    found = {it: refusal(crate, changed[it], lines) for it in batch}
    return {it: line for it, line in found.items() if line}


def tried_in_halves(room, crate, batch, *rest):
    """The same, if something that can't be attributed stopped a check of all."""
    if len(batch) < 2:
        return {}
    half = len(batch) // 2
    return {**tried(room, crate, batch[:half], *rest), **tried(room, crate, batch[half:], *rest)}


def together(room, crate, texts):
    """Tries these edits of a crate in the folder `room`, which is proved: each with the files as it changes them. Yields for each batch its
    edits, each with the line by which the prover refuses it, or None if it has to be tried separately."""

    @functools.cache
    def were(file):
        with open(os.path.join(room, file)) as it:
            return it.read()

    every = []
    for at, _, names in os.walk(os.path.join(room, "src")):
        every += [it for name in names if name.endswith(".rt") for it in functions_in(room, os.path.join(at, name))]
    found = {it: changed_function(texts[it], were, every) for it in texts}
    changed = {it: one for it, one in found.items() if one}
    new = {}
    for it, one in changed.items():
        new.setdefault(one, []).extend(added(texts[it], were))
    for batch in batches(changed, reached(every, new)):
        lines = tried(room, crate, batch, changed, texts, were)
        yield {it: lines.get(it) for it in batch}


def functions_in(room, path):
    with open(path) as it:
        return functions(os.path.relpath(path, room), it.read())


def added(texts, were):
    """The lines that an edit changes, as they are then."""
    return [line for file, text in texts.items() for line, old in zip(text.split("\n"), were(file).split("\n")) if line != old]
