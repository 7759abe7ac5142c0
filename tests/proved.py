#!/usr/bin/env python3
"""What the merge gate proved and tested, and for which files: build/proved.

    tests/proved.py           prints a sum over the files of each crate, and at the end one over all sources
    tests/proved.py --check   says whether build/proved is for these sources and for build/desk
    tests/proved.py --text    prints it for those who install the program: the text PROOF of a package

A sum is the SHA-256 of the lines that `sha256sum` prints for the files, in the byte order of their names. So a shell can compute it too, at
the top of the repository, for a crate and for all sources:

    find crates/NAME -type f ! -path '*/out/*' | LC_ALL=C sort | xargs sha256sum | sha256sum
    find HANDLES crates crates.txt -type f ! -path '*/out/*' | LC_ALL=C sort | xargs sha256sum | sha256sum

The gate deletes build/proved when it begins, and writes it when all its steps have passed."""
import hashlib
import os
import sys
import time

TOP = os.path.dirname(os.path.dirname(os.path.abspath(__file__)))
RECORD = os.path.join(TOP, "build/proved")
DESK = os.path.join(TOP, "build/desk")
# One line each, in this order; then a line for each step, and one for each crate.
FIELDS = ("version", "kit", "date", "program", "sources", "seconds", "proofs")


def sum_of(path):
    with open(path, "rb") as file:
        return hashlib.file_digest(file, "sha256").hexdigest()


def files(*starts):
    """The files at or below some paths, from the top, in the order of their bytes."""
    found = []
    for start in starts:
        if os.path.isfile(os.path.join(TOP, start)):
            found.append(start)
        for at, folders, names in os.walk(os.path.join(TOP, start)):
            folders[:] = [name for name in folders if name != "out"]
            found += [os.path.relpath(os.path.join(at, name), TOP) for name in names]
    return sorted(found, key=os.fsencode)


def sum_over(paths):
    lines = (f"{sum_of(os.path.join(TOP, path))}  {path}\n" for path in paths)
    return hashlib.sha256("".join(lines).encode()).hexdigest()


def sums():
    """The sum over the files of each crate, by its name."""
    return {name: sum_over(files(f"crates/{name}")) for name in sorted(os.listdir(os.path.join(TOP, "crates")))}


def sources():
    return sum_over(files("HANDLES", "crates", "crates.txt"))


def write(fields, steps):
    """Writes the record of a run that passed: these fields, and the last line of each step."""
    fields |= {"date": time.strftime("%Y-%m-%dT%H:%M:%SZ", time.gmtime()), "program": sum_of(DESK), "sources": sources()}
    with open(RECORD, "w", encoding="utf-8") as out:
        out.writelines(f"{field} {fields[field]}\n" for field in FIELDS)
        out.writelines(f"step {what} {said}\n" for what, said in steps.items())
        out.writelines(f"crate {name} {it}\n" for name, it in sums().items())


class Record:
    """A record as it was written."""

    def __init__(self):
        with open(RECORD, encoding="utf-8") as file:
            lines = [line.rstrip("\n").partition(" ") for line in file]
        self.fields = {what: said for what, _, said in lines if what in FIELDS}
        self.steps = [said for what, _, said in lines if what == "step"]
        self.crates = dict(said.split() for what, _, said in lines if what == "crate")


def fault():
    """Why there is nothing to pack, if so."""
    if not os.path.isfile(RECORD):
        return "There is no build/proved, so nothing says that this desk was proved and tested."
    record = Record()
    here = sums()
    changed = [name for name in sorted(here | record.crates) if here.get(name) != record.crates.get(name)]
    if changed:
        return f"These crates are not those that the last make test proved: {' '.join(changed)}."
    if record.fields["sources"] != sources():
        return "HANDLES or crates.txt is not that of the last make test."
    if not os.path.isfile(DESK) or record.fields["program"] != sum_of(DESK):
        return "build/desk is not the program that the last make test tried."
    return None


def text(record):
    """The record for people."""
    fields = record.fields
    day, _, clock = fields["date"].partition("T")
    yield f"What was proved and tested of desk {fields['version']}\n"
    yield f"On {day} at {clock[:5]} UTC a run of `make test` ended with all of its {len(record.steps)} steps passed:\n"
    yield f"  toolchain  {fields['kit']} (the line of `rt version`)"
    yield f"  program    SHA-256 {fields['program']} of bin/desk"
    yield f"  sources    SHA-256 {fields['sources']} over the files of all crates"
    yield f"  proofs     {fields['proofs']}"
    yield f"  time       {fields['seconds']}\n"
    yield "The proofs show that each function meets its contract. docs/TRUST.md says what they promise, what they"
    yield "rest on, and what was only tested. The files are as they were built: no step changed them after the tests.\n"
    yield "To prove it again\n"
    yield f"  1. Take the source of this version, and the toolchain {fields['kit']} with its command `rt`,"
    yield "     make, Python 3.11 or later and a C compiler."
    yield "  2. Compare the sources: `python3 tests/proved.py` prints the sums below, the last one over all sources."
    yield "  3. Run `make test`. It takes an hour or two, says which step failed, if one does, and ends with the words"
    yield f"     'All {len(record.steps)} steps passed'; `python3 tests/proved.py --text` then prints such a page of that run.\n"
    yield "The last line of each step\n"
    yield from (f"  {step}" for step in record.steps)
    yield "\nThe crates\n"
    yield "A sum is the SHA-256 of the lines that `sha256sum` prints of a crate's files, sorted by their names' bytes:"
    yield "find crates/NAME -type f ! -path '*/out/*' | LC_ALL=C sort | xargs sha256sum | sha256sum\n"
    yield from (f"  {it}  {name}" for name, it in record.crates.items())


def main(words):
    if not words:
        print("".join(f"{it}  {name}\n" for name, it in sums().items()) + f"{sources()}  all sources")
        return 0
    if words not in (["--check"], ["--text"]):
        sys.exit(__doc__)
    why = fault()
    if why:
        print(f"{why} Run make test.", file=sys.stderr)
        return 1
    if words == ["--text"]:
        print("\n".join(text(Record())))
    return 0


if __name__ == "__main__":
    sys.exit(main(sys.argv[1:]))
