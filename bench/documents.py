#!/usr/bin/env python3
"""Makes documents of 1, 2 and 4 MiB and more costly ones in a folder, and times their reading, compared with `sha1sum`.

`python3 bench/documents.py PROGRAM FOLDER`: PROGRAM is what bench/programs/build.sh makes of bench/programs/documents.
The peak is that of the whole process after one reading, the document itself included, as a multiple of the document's bytes, less what the
process takes with an empty document."""
import itertools
import os
import string
import subprocess
import sys
import time

program, folder = sys.argv[1:]
HEAD = ("SPDXVersion: SPDX-2.3\nDataLicense: CC0-1.0\nSPDXID: SPDXRef-DOCUMENT\nDocumentName: big\n"
        "DocumentNamespace: https://example.org/big\nCreator: Tool: x-1\nCreated: 2025-01-01T00:00:00Z\n")


def packages(count):
    for k in range(count):
        yield (f"\n##### Package {k}\n\nPackageName: package-number-{k}\nSPDXID: SPDXRef-Package-{k}\nPackageVersion: 1.{k}\n"
               f"PackageDownloadLocation: https://example.org/downloads/package-{k}.tar.gz\nFilesAnalyzed: false\n"
               "PackageLicenseConcluded: MIT OR Apache-2.0\nPackageLicenseDeclared: NOASSERTION\n"
               f"PackageCopyrightText: <text>Copyright 2020\nThe authors of {k}\n</text>\n"
               f"Relationship: SPDXRef-Package-{k} DEPENDS_ON SPDXRef-Package-{k * 7 % count}\n")


def many():
    for k in range(10000):
        yield f"FileName: ./f{k}\nSPDXID: SPDXRef-F{k}\nFileChecksum: SHA1: {k:040x}\n"
    for k in range(40000):
        yield f"Relationship: SPDXRef-F{k % 10000} DEPENDS_ON SPDXRef-F{k * 7 % 10000}\n"


def short_packages():
    """Packages of the fewest bytes possible, which take the most memory for their bytes."""
    digits = string.ascii_letters + string.digits + "-."
    short = ["".join(word) for length in (1, 2, 3) for word in itertools.product(digits, repeat=length)]
    for name in short[:9999]:
        yield f"PackageName:\nSPDXID:SPDXRef-{name}\n"


LIMIT = 4 << 20


def full(line):
    """A document of 4 MiB, or a few bytes less: the head, then one line over and over."""
    return [line * ((LIMIT - len(HEAD)) // len(line))]


DOCUMENTS = {
    "packages-1": lambda: packages(2500),
    "packages-2": lambda: packages(5000),
    "packages-4": lambda: packages(9900),
    "many-edges": many,
    "short-ones": short_packages,
    "three-bytes": lambda: full("A:\n"),
    "four-bytes": lambda: full("a:b\n"),
    "edges-alone": lambda: full("Relationship:SPDXRef-a A NONE\n"),
    "empty-lines": lambda: full("\n"),
    "colons": lambda: full("a:::::::\n"),
    "one-line": lambda: ["A: " + "x " * 2000000],
    "open-text": lambda: ["a: <text>" + "<" * 4000000],
}


def timed(path):
    """The lines that the program prints of a document."""
    told = subprocess.run([program, path], capture_output=True, text=True, check=True).stdout
    return [line.split() for line in told.splitlines()]


os.makedirs(folder, exist_ok=True)
nothing = os.path.join(folder, "nothing")
open(nothing, "w").close()
idle = int(timed(nothing)[0][4])
print(f"{'document':12} {'bytes':>8} {'fields ms':>9} {'read ms':>8} {'MB/s':>6} {'peak':>5} {'sha1sum ms':>10}")
for name, parts in DOCUMENTS.items():
    path = os.path.join(folder, name + ".spdx")
    with open(path, "w") as out:
        out.write(HEAD)
        out.writelines(parts())
    rows = timed(path)
    size = int(rows[0][1])
    cutting = min(int(row[2]) for row in rows) / 1e6
    reading = min(int(row[3]) for row in rows) / 1e6
    peak = (int(rows[0][4]) - idle) * 1024 / size
    sums = []
    for _ in range(3):
        start = time.perf_counter()
        subprocess.run(["sha1sum", path], capture_output=True, check=True)
        sums.append((time.perf_counter() - start) * 1e3)
    print(f"{name:12} {size:8} {cutting:9.2f} {reading:8.2f} {size / reading / 1e3:6.0f} {peak:5.1f} {min(sums):10.2f}")
print(f"with an empty document the process takes {idle} KiB")
