#!/usr/bin/env python3
"""Makes documents in a folder and times the questions about them, compared with their reading.

`python3 bench/bom.py PROGRAM FOLDER`: PROGRAM is what bench/programs/build.sh makes of bench/programs/bom. Each time
is the least of nine."""
import os
import subprocess
import sys

program, folder = sys.argv[1:]
HEAD = ("SPDXVersion: SPDX-2.3\nDataLicense: CC0-1.0\nSPDXID: SPDXRef-DOCUMENT\nDocumentName: big\n"
        "DocumentNamespace: https://example.org/big\nCreator: Tool: x-1\nCreated: 2025-01-01T00:00:00Z\n")


def package(k, code, name="Package-"):
    return (f"PackageName: package-{k}\nSPDXID: SPDXRef-{name}{k}\nPackageVersion: 1.{k}\n"
            f"PackageDownloadLocation: https://example.org/package-{k}.tar.gz\nPackageVerificationCode: {code:040x}\n"
            "PackageLicenseConcluded: MIT OR Apache-2.0\nPackageLicenseDeclared: NOASSERTION\n")


def file(k):
    return f"FileName: ./f{k}\nSPDXID: SPDXRef-F{k}\nFileChecksum: SHA1: {k:040x}\nLicenseConcluded: MIT\n"


def mixed(elements, relationships, name="Package-"):
    """Packages with a file each, and relationships among them, every other one from a package to a file."""
    count = elements // 2
    yield f"Relationship: SPDXRef-DOCUMENT DESCRIBES SPDXRef-{name}0\n"
    for k in range(count):
        yield package(k, k, name) + file(k)
    for k in range(relationships):
        target = "CONTAINS SPDXRef-F" if k % 2 else f"DEPENDS_ON SPDXRef-{name}"
        yield f"Relationship: SPDXRef-{name}{k % count} {target}{(k * 7 + 1) % count}\n"


def chain():
    yield "Relationship: SPDXRef-DOCUMENT DESCRIBES SPDXRef-Package-0\n"
    for k in range(10000):
        yield package(k, 0)
        if k:
            yield f"Relationship: SPDXRef-Package-{k - 1} DEPENDS_ON SPDXRef-Package-{k}\n"


def ring():
    """Packages that each depend on the next one, and the last one on the first."""
    yield "Relationship: SPDXRef-DOCUMENT DESCRIBES SPDXRef-Package-0\n"
    for k in range(10000):
        yield package(k, 0) + f"Relationship: SPDXRef-Package-{k} DEPENDS_ON SPDXRef-Package-{(k + 1) % 10000}\n"


def shared():
    """Packages that each contain the same file."""
    yield file(0)
    for k in range(9999):
        yield package(k, k) + f"Relationship: SPDXRef-Package-{k} CONTAINS SPDXRef-F0\n"


def one_package():
    """A package that has all files, half of them excluded."""
    names = ", ".join(f"./f{k}" for k in range(0, 9999, 2))
    yield f"PackageName: p\nSPDXID: SPDXRef-p\nPackageVerificationCode: {0:040x} (excludes: {names})\n"
    for k in range(9999):
        yield file(k)


DOCUMENTS = {
    "mixed-1": lambda: mixed(2500, 10000),
    "mixed-2": lambda: mixed(5000, 20000),
    "mixed-4": lambda: mixed(9200, 36000),
    "mixed-5": lambda: mixed(10000, 40000, "P"),
    "chain": chain,
    "ring": ring,
    "shared-file": shared,
    "one-package": one_package,
}


def made(name):
    path = os.path.join(folder, name)
    with open(path, "w", encoding="utf-8") as document:
        document.write(HEAD + "".join(DOCUMENTS[name]()))
    return path


def least(path):
    """The least times of reading, shipping, states and findings in nine runs of three."""
    rows = []
    for _ in range(3):
        out = subprocess.run([program, path], check=True, capture_output=True, text=True).stdout
        rows += [[int(word) for word in line.split()[2:]] for line in out.splitlines()]
    return [min(column) for column in zip(*rows)] if rows else None


os.makedirs(folder, exist_ok=True)
print("| Document | Bytes | `read` | `shipped` | all code states | `findings` | together, in times of `read` |")
print("|---|---|---|---|---|---|---|")
for name in DOCUMENTS:
    path = made(name)
    times = least(path)
    if times is None:
        sys.exit(f"{name} isn't read")
    read, *asked = times
    cells = [f"{time / 1e6:.1f} ms" for time in times]
    print(f"| {name} | {os.path.getsize(path):,} | {' | '.join(cells)} | {sum(asked) / read:.1f} |")
