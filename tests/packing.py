#!/usr/bin/env python3
"""Packs a built program for installation: python3 tests/packing.py PROGRAM

This is done in a copy of the tree, with an invented record of a run. The archive and the Debian package must contain the program byte for
byte, what was proved, and each page that their pages name; packed twice, they must be the same bytes. Without a record, or with other
sources or another program than those of the record, nothing is packed. Without dpkg-deb the package is left out."""
import hashlib
import os
import re
import shutil
import subprocess
import sys
import tarfile
import tempfile

TREE = os.path.dirname(os.path.dirname(os.path.abspath(__file__)))
# Writes the record, with an older time than now, so that nothing in a package is as new as the package.
WRITE = """
import time
time.gmtime = lambda: time.struct_time((2026, 1, 2, 3, 4, 5, 4, 2, 0))
import proved
proved.write({"version": "0.0.0 (tables 0)", "kit": "a kit", "seconds": "no time", "proofs": "none: a test"}, {"A step:": "passed"})
"""

failures = []


def expect(is_so, what):
    if not is_so:
        failures.append(what)


def run(room, *words):
    done = subprocess.run(words, cwd=room, stdin=subprocess.DEVNULL, capture_output=True, text=True, check=False)
    return done.returncode, done.stdout + done.stderr


def read(path):
    with open(path, "rb") as file:
        return file.read()


def packed(room, target):
    """What a target packs, twice with the same bytes."""
    found = []
    for _ in range(2):
        status, said = run(room, "make", "-s", target)
        path = re.fullmatch(r"Packed (build/dist/\S+)\.\n", said)
        if status or not path:
            failures.append(f"make {target}: status {status}, {said}")
            return None
        found.append(read(os.path.join(room, path[1])))
    expect(found[0] == found[1], f"make {target} packs other bytes the second time")
    return os.path.join(room, path[1])


def check_archive(room, path):
    with tarfile.open(path) as archive:
        names = archive.getnames()
        top = names[0]
        texts = {name.removeprefix(f"{top}/"): archive.extractfile(name).read() for name in names if archive.getmember(name).isfile()}
        expect({(it.uid, it.gid, it.mtime) for it in archive} == {(0, 0, 1767323045)}, "the archive has other owners or times")
    version = read(os.path.join(TREE, "VERSION")).decode().strip()
    expect(top == f"desk-{version}-linux-x86_64", f"the archive's folder is {top}")
    check_contents(texts, texts.get("PROOF", b"").decode(), room)
    expect({"INSTALL", "LICENSES/Apache-2.0.txt", "THIRD-PARTY"} <= set(texts), "the archive lacks a text at its top")


def check_contents(texts, proof, room):
    """What both have: the program, what was proved of it, and each page for users that the README names."""
    program = read(os.path.join(room, "build/desk"))
    expect(texts.get("bin/desk") == program, "the program is another")
    sources = run(room, "python3", "tests/proved.py")[1].split("\n")[-2].split()[0]
    expect({hashlib.sha256(program).hexdigest(), sources, "2026-01-02", "none: a test"} <= set(re.findall(r"\d{4}-\d\d-\d\d|none: a test|\w+", proof)), f"PROOF says: {proof[:400]}")
    users = re.search(r"^- For users: (.*)$", texts.get("share/doc/desk/README.md", b"").decode(), flags=re.M)
    pages = re.findall(r"`(docs/\w+\.md)`", users[1]) if users else []
    lacking = [page for page in [*pages, "docs/TRUST.md", "docs/COUNSEL.md"] if f"share/doc/desk/{page}" not in texts]
    expect(pages and not lacking, f"these pages are lacking: {lacking}")


def check_package(room, path):
    """The package as dpkg-deb unpacks it, with the sums that it has of its files."""
    with tempfile.TemporaryDirectory() as unpacked:
        run(room, "dpkg-deb", "-R", path, unpacked)
        status, said = run(unpacked, "md5sum", "--quiet", "-c", "DEBIAN/md5sums")
        expect(not status, f"the sums of the package differ: {said}")
        found = [os.path.relpath(os.path.join(at, name), unpacked) for at, _, names in os.walk(unpacked) for name in names]
        texts = {name.removeprefix("usr/"): read(os.path.join(unpacked, name)) for name in found if name.startswith("usr/")}
        sums = {line.split()[1] for line in read(os.path.join(unpacked, "DEBIAN/md5sums")).decode().splitlines()}
        expect(sums == {name for name in found if name.startswith("usr/")}, "the package has no sum of some file")
        control = read(os.path.join(unpacked, "DEBIAN/control")).decode()
        expect("@" not in re.sub(r"<\S+@\S+>", "", control), f"the package's control is {control}")
    check_contents(texts, texts.get("share/doc/desk/PROOF", b"").decode(), room)


def check_refusals(room):
    """What isn't packed, and why."""
    source, program = "crates/desk_base/src/lib.rt", "build/desk"
    for path, why in ((source, "those that the last make test proved: desk_base."), (program, "is not the program that the last make test tried."), ("crates.txt", "crates.txt is not that")):
        before = read(os.path.join(room, path))
        with open(os.path.join(room, path), "ab") as file:
            file.write(b"\n")
        status, said = run(room, "python3", "tests/proved.py", "--check")
        expect(status == 1 and why in said and said.endswith("Run make test.\n"), f"with another {path}: status {status}, {said}")
        with open(os.path.join(room, path), "wb") as file:
            file.write(before)
    os.remove(os.path.join(room, "build/proved"))
    for target in ("dist", "deb"):
        status, said = run(room, "make", "-s", target)
        expect(status and "Run make test." in said, f"make {target} with no record: status {status}, {said}")


def main():
    program = os.path.abspath(sys.argv[1])
    has_packages = shutil.which("dpkg-deb") is not None
    with tempfile.TemporaryDirectory() as folder:
        room = os.path.join(folder, "tree")
        shutil.copytree(TREE, room, ignore=shutil.ignore_patterns("out", "build", ".git", "__pycache__", "edits", "acceptance"))
        os.mkdir(os.path.join(room, "build"))
        shutil.copy(program, os.path.join(room, "build/desk"))
        subprocess.run([sys.executable, "-B", "-c", WRITE], cwd=os.path.join(room, "tests"), check=True)
        archive = packed(room, "dist")
        if archive:
            check_archive(room, archive)
        package = packed(room, "deb") if has_packages else None
        if package:
            check_package(room, package)
        check_refusals(room)
    for failure in failures:
        print(failure)
    told = "an archive and a package" if has_packages else "an archive, and no package since there is no dpkg-deb"
    print(f"packing: {len(failures)} differences" if failures else f"{told}: passed")
    return 1 if failures else 0


if __name__ == "__main__":
    sys.exit(main())
