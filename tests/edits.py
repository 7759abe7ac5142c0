#!/usr/bin/env python3
"""Edits that change a meaning, each of which the prover must refuse: those that the gate tries (`crates/NAME/must-fail`) and the others
(`tests/edits/NAME`).

    tests/edits.py [CRATE ..]   tries the edits that no record has as refused yet, of these crates or of all, the lowest first, of as many crates
                                at a time as RT_JOBS says
    tests/edits.py --texts      checks that each edit still has its place: each text that it replaces occurs exactly once
    tests/edits.py --records    checks that each crate has a record of its edits, or is listed as owing one

A record, `tests/edits/NAME/record`, has a sum over the crate's own files, one over those of the crates below it, and a line for each edit:
its name, a sum over it, and what the prover said. The sums over files leave out comment lines. The record is written as the edits are
tried, so a run that was stopped continues where it was. If the sum of the crate's own files has changed, its lines no longer count. If only
the crates below changed, the crate is listed: a contract there may have become weaker. Its edits are tried again if it is named.

`tests/edits/owed` lists the crates without a complete record. It only shrinks: a crate that isn't on it must have a complete record of its
current files, and one on it must not.

An edit counts as tried only if the prover refused a goal. One that was stopped by the types, the borrow checker or a limit of the prover,
or that only removed a name that a proof cites, says nothing about a contract, and is reported as such.

Edits that each change the body of one function are first tried together, many in one check (`together.py` says why the result is the
same). What such a check doesn't settle is tried separately, by `rt must-fail`."""
import hashlib
import os
import re
import shutil
import subprocess
import sys
import tempfile
import threading
from concurrent.futures import ThreadPoolExecutor

sys.dont_write_bytecode = True

import together

TOP = os.path.dirname(os.path.dirname(os.path.abspath(__file__)))
EDITS = os.path.join(TOP, "tests/edits")
OWED = os.path.join(EDITS, "owed")
PARTS = ("src", "specs", "proofs")
# A run of `rt must-fail`, which reports at its end, tries this many edits one by one.
BATCH = 12
SAID = 140
# This many crates are tried at a time.
JOBS = max(1, int(os.environ.get("RT_JOBS") or 1))
# What `rt must-fail` also counts as refused, although it says nothing about a contract.
UNTRIED = {
    "refused, as it must be (only because a proof file names": "it only takes away a name that a proof cites",
    "refused, as it must be (only by a limit of the prover": "only a limit of the prover stopped it",
}


def crates():
    """What each crate of the repository depends on there."""
    lines = [line.split("#")[0].partition(":") for line in open(os.path.join(TOP, "crates.txt"))]
    named = {name.split()[0]: words.split() for name, colon, words in lines if colon}
    return {name: [word for word in words if word in named] for name, words in named.items()}


def below(stands, name):
    """All crates that a crate depends on."""
    found, left = set(), [name]
    while left:
        for lower in stands[left.pop()]:
            if lower not in found:
                found.add(lower)
                left.append(lower)
    return sorted(found)


def edits(name):
    """The edits of a crate, by name."""
    folders = [os.path.join(TOP, "crates", name, "must-fail"), os.path.join(EDITS, name)]
    paths = [os.path.join(folder, it) for folder in folders if os.path.isdir(folder) for it in os.listdir(folder)]
    return sorted((it for it in paths if it.endswith(".edit")), key=os.path.basename)


def label(path):
    return os.path.basename(path).removesuffix(".edit")


def files(name, parts=PARTS):
    found = []
    for part in parts:
        for at, _, names in os.walk(os.path.join(TOP, "crates", name, part)):
            found += [os.path.join(at, it) for it in names if it.endswith((".rt", ".antt"))]
    return sorted(found)


def uncommented(path):
    """A file without its lines that are comments, which say nothing to the prover."""
    mark = b"--" if path.endswith(".antt") else b"//"
    with open(path, "rb") as it:
        return b"".join(line for line in it if not line.lstrip().startswith(mark))


def sum_of(paths):
    total = hashlib.sha256()
    for path in paths:
        text = uncommented(path)
        total.update(f"{os.path.relpath(path, TOP)} {len(text)}\n".encode() + text)
    return total.hexdigest()[:16]


def sums(stands, name):
    """The sum over a crate's own files, and that over what it may use of the crates below."""
    lower = sum_of([path for it in below(stands, name) for path in files(it, ("src", "specs"))])
    return sum_of(files(name)), lower


def sum_of_edit(path):
    with open(path, "rb") as it:
        return hashlib.sha256(it.read()).hexdigest()[:8]


class Record:
    """What the prover said of a crate's edits: by their names, each with the sum over it."""

    def __init__(self, name, own="", lower="", told=()):
        self.name, self.own, self.lower, self.told = name, own, lower, dict(told)

    @classmethod
    def of(cls, name):
        """The record of a crate, which is empty if there is none."""
        try:
            with open(cls(name).path()) as it:
                lines = [line.rstrip("\n") for line in it if not line.startswith("#")]
        except FileNotFoundError:
            return cls(name)
        (_, own), (_, lower), *told = (line.split(" ", 2) for line in lines)
        return cls(name, own, lower, ((edit, (mark, words)) for edit, mark, words in told))

    def path(self):
        return os.path.join(EDITS, self.name, "record")

    def write(self):
        os.makedirs(os.path.dirname(self.path()), exist_ok=True)
        with open(self.path(), "w") as out:
            out.write(f"# What the prover said of each edit of {self.name}.\nfiles {self.own}\nbelow {self.lower}\n")
            out.writelines(f"{edit} {mark} {words}\n" for edit, (mark, words) in sorted(self.told.items()))

    def is_refused(self, path):
        """Whether this edit, as it is, was refused."""
        mark, words = self.told.get(label(path), ("", ""))
        return mark == sum_of_edit(path) and words.startswith("refused: ")

    def lacks(self):
        """What the record lacks of all edits of the crate as it is, or nothing."""
        if not self.own:
            return "has no record of its edits"
        if self.own != sum_of(files(self.name)):
            return "is no longer what its edits were tried on"
        strays = set(self.told) - set(map(label, edits(self.name)))
        if strays:
            return f"has a record of edits that are not there: {' '.join(sorted(strays))}"
        left = [label(it) for it in edits(self.name) if not self.is_refused(it)]
        return f"has edits that are not recorded as refused: {' '.join(left)}" if left else None


def owed():
    with open(OWED) as it:
        return [line.strip() for line in it if line.strip() and not line.startswith("#")]


def pay(name, turn=threading.Lock()):
    """Removes a crate from the list of those without a complete record."""
    with turn:
        with open(OWED) as it:
            lines = it.readlines()
        with open(OWED, "w") as out:
            out.writelines(line for line in lines if line.strip() != name)


def edited(name, edit):
    """The texts of the files that an edit changes, by their path in the crate; or why it has no place."""
    path, old, texts = None, None, {}
    for line in open(edit).read().split("\n"):
        if line.startswith("file: "):
            path = line[6:].strip()
        elif line.startswith("old: "):
            old = line[5:]
        elif line.startswith("new:"):
            try:
                text = texts.get(path) or open(os.path.join(TOP, "crates", name, path)).read()
            except OSError as error:
                return None, str(error)
            if text.count(old) != 1:
                return None, f"{path} has a text {text.count(old)} times, not once: {old.strip()}"
            texts[path] = text.replace(old, line[4:].removeprefix(" "))
    return (texts, None) if texts else (None, "it changes nothing")


def misplaced(name):
    """The edits of a crate that have no place, each with why."""
    names = [label(it) for it in edits(name)]
    for edit in edits(name):
        why = "another edit has its name" if names.count(label(edit)) > 1 else edited(name, edit)[1]
        if why:
            yield edit, why


def see_texts():
    stands = crates()
    bad = [(os.path.relpath(edit, TOP), why) for name in sorted(stands) for edit, why in misplaced(name)]
    placed = sum(len(edits(name)) for name in stands) - len(bad)
    bad += [(f"tests/edits/{stray}", "there is no such crate") for stray in sorted(set(os.listdir(EDITS)) - set(stands) - {"owed"})]
    for what, why in bad:
        print(f"{what}: {why}")
    print(f"{placed} edits have their place, {len(bad)} have not.")
    return len(bad)


def see_records():
    stands, still = crates(), owed()
    kept = {name: Record.of(name) for name in sorted(stands) if edits(name)}
    lacking = {name: kept[name].lacks() for name in kept}
    whole = [name for name in kept if not lacking[name]]
    bad = [f"{name} {lacking[name]}: make edits CRATES={name}" for name in kept if name not in still and lacking[name]]
    bad += [f"{name} has its record: remove it from tests/edits/owed" for name in still if name in whole]
    bad += [f"{name} has no edits: remove it from tests/edits/owed" for name in still if name not in kept]
    print(f"The edits of {len(whole)} crates are recorded as refused, {sum(len(edits(name)) for name in whole)} edits; records of {len(set(still))} are owed.")
    lower = [name for name in whole if kept[name].lower != sums(stands, name)[1]]
    if lower:
        print(f"What they depend on has changed since for: {' '.join(lower)}")
    proved = [f"{name}/{edit}" for name in kept for edit, (_, words) in sorted(kept[name].told.items()) if words == "PROVED"]
    for line in [f"The crate is still proved with {edit}." for edit in proved] + bad:
        print(line)
    return len(bad)


def judged(words):
    """What `rt must-fail` says about an edit, in the form of a record."""
    if words.startswith("NOT REFUSED"):
        return "PROVED"
    for start, why in UNTRIED.items():
        if words.startswith(start):
            return f"not tried: {why}"
    refused = re.match(r"refused, as it must be: (?:note: )?(?:\./)?(\S+?):\d+:\d+: (?:error: )?(.*)", words)
    kind, text = ("refused", f"{refused[1]}: {refused[2]}") if refused else ("not tried", words)
    text = re.sub(r"; `search` gave up.*", "", text)
    return f"{kind}: {text if len(text) <= SAID else text[:SAID].rpartition(' ')[0] + ' ..'}"


def run(room, *words):
    how = {"stdin": subprocess.DEVNULL, "stdout": subprocess.PIPE, "stderr": subprocess.STDOUT, "text": True, "errors": "replace"}
    done = subprocess.run(["rt", *words], cwd=room, env={**os.environ, "RT_JOBS": "1"}, **how)
    return done.stdout, done.returncode


def copied(stands, name, room):
    """The crate in a copy of the repository, with those below it."""
    wanted = [*below(stands, name), name]
    shutil.copy(os.path.join(TOP, "HANDLES"), room)
    with open(os.path.join(TOP, "crates.txt")) as listed, open(os.path.join(room, "crates.txt"), "w") as out:
        out.writelines(line for line in listed if line.partition(":")[0].strip() in wanted)
    for it in wanted:
        for part in PARTS:
            at = os.path.join(TOP, "crates", it, part)
            if os.path.isdir(at):
                shutil.copytree(at, os.path.join(room, "crates", it, part))
        keep_proved(name, it, room)
    return os.path.join(room, "crates", name)


def linked(source, target):
    """A second name of a file, or a copy where it can't have one."""
    try:
        os.link(source, target)
    except OSError:
        shutil.copy2(source, target)


def keep_proved(name, it, room):
    """Lets a crate of the copy use what was proved of it here: the work of the one whose edits are tried, and the built libraries below."""
    part = "out/incremental" if it == name else "out/rlib"
    at, to = (os.path.join(top, "crates", it, part) for top in (TOP, room))
    if os.path.isdir(at):
        # (a built library is only read)
        shutil.copytree(at, to, copy_function=shutil.copy2 if it == name else linked)


def tried(room, name, batch):
    """What the prover says of each of these edits, by their paths."""
    folder = os.path.join(room, "crates", name, "must-fail")
    shutil.rmtree(folder, ignore_errors=True)
    os.makedirs(folder)
    for edit in batch:
        shutil.copy(edit, folder)
    told, _ = run(room, "must-fail", name)
    words = dict(re.findall(rf"^rt: must-fail {name}/(\S+)\.edit: (.*)$", told, flags=re.M))
    return {edit: judged(words.get(label(edit), told.rstrip().rpartition("\n")[2])) for edit in batch}


def outcomes(room, crate, name, left):
    """What the prover says of these edits of a crate that is proved, as it comes to be known."""
    texts = {edit: it for edit in left for it in [edited(name, edit)[0]] if it}
    alone = [edit for edit in left if edit not in texts]
    for told in together.together(crate, name, texts):
        alone += [edit for edit, line in told.items() if not line]
        yield {edit: judged(f"refused, as it must be: {line[:160]}") for edit, line in told.items() if line}
        texts = {edit: it for edit, it in texts.items() if edit not in told}
    alone = sorted([*alone, *texts])
    for at in range(0, len(alone), BATCH):
        yield tried(room, name, alone[at : at + BATCH])


def try_edits(stands, kept, left):
    """Tries these edits of a crate, and writes its record as it goes."""
    with tempfile.TemporaryDirectory() as room:
        crate = copied(stands, kept.name, room)
        told, status = run(crate, "check", "--jobs", "1")
        if status:
            print(f"{kept.name} itself is not proved:\n{told}")
            return
        for found in outcomes(room, crate, kept.name, left):
            for edit, words in found.items():
                kept.told[label(edit)] = sum_of_edit(edit), words
                print(f"{kept.name}/{label(edit)}: {words}", flush=True)
            if sum_of(files(kept.name)) != kept.own:
                print(f"{kept.name} has changed meanwhile")
                return
            kept.write()


def record(stands, name, is_named):
    """Tries what the record of a crate lacks, and returns whether it is complete then."""
    kept, (own, lower) = Record.of(name), sums(stands, name)
    if kept.own != own or is_named and kept.lower != lower:
        kept = Record(name, own, lower)
    names = set(map(label, edits(name)))
    kept.told = {edit: said for edit, said in kept.told.items() if edit in names}
    left = [it for it in edits(name) if not kept.is_refused(it)]
    if left:
        try_edits(stands, kept, left)
    elif edits(name):
        kept.write()
    is_whole = not Record.of(name).lacks()
    if is_whole:
        pay(name)
    return is_whole


def main(words):
    if words == ["--texts"]:
        return 1 if see_texts() else 0
    if words == ["--records"]:
        return 1 if see_records() else 0
    stands = crates()
    if set(words) - set(stands):
        sys.exit(f"there is no such crate: {' '.join(sorted(set(words) - set(stands)))}")
    names = words or sorted((it for it in stands if edits(it)), key=lambda it: (len(below(stands, it)), it))
    names = [name for name in names if edits(name)]
    with ThreadPoolExecutor(JOBS) as pool:
        whole = pool.map(lambda name: record(stands, name, bool(words)), names)
        bad = [name for name, is_whole in zip(names, whole) if not is_whole]
    if bad:
        print(f"Not all edits were refused of: {' '.join(bad)}")
    return 1 if bad else 0


if __name__ == "__main__":
    sys.exit(main(sys.argv[1:]))
