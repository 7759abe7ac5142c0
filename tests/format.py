#!/usr/bin/env python3
"""Checks that the sources of all crates are laid out as by `rt fmt`, and that few of their lines have more than 100 columns: imports, names of
goals, and texts."""
import os
import shutil
import subprocess
import sys
import tempfile

MOST_COLUMNS = 100
top = os.path.dirname(os.path.dirname(os.path.abspath(__file__)))
kit = os.path.dirname(subprocess.run(["rt", "doc"], stdout=subprocess.PIPE, text=True, check=True).stdout.strip())
sources = []
for crate in sorted(os.listdir(os.path.join(top, "crates"))):
    for part in ("src", "specs", "proofs"):
        for at, _, names in os.walk(os.path.join(top, "crates", crate, part)):
            sources += [os.path.join(at, it) for it in sorted(names) if it.endswith((".rt", ".antt"))]
with tempfile.TemporaryDirectory() as room:
    # sources that are kept as texts, so that no check takes them for a crate's
    for at, _, names in os.walk(top):
        for name in names:
            if name.endswith(".rt.in") and "/build/" not in at:
                to = os.path.join(room, os.path.relpath(at, top))
                os.makedirs(to, exist_ok=True)
                sources.append(shutil.copy(os.path.join(at, name), os.path.join(to, name[: -len(".in")])))
    status = subprocess.call([os.path.join(kit, "bin/rattle"), "fmt", "--check", *sources])
print("The sources are laid out." if not status else "Run rt fmt in the folders of these crates.")
lines = [line for path in sources if path.startswith(top) for line in open(path, encoding="utf-8").read().split("\n")]
long = sum(len(line) > MOST_COLUMNS for line in lines)
if long * 100 > len(lines):
    print(f"{long} of {len(lines)} lines have more than {MOST_COLUMNS} columns: break some, so that it's less than one in a hundred.")
    status = 1
sys.exit(1 if status else 0)
