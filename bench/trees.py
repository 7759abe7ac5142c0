"""Times `desk gather` and `desk lint` on trees that it makes, compared with `sha1sum` of all their files: python3 bench/trees.py PROGRAM

Both read each file whole, with the files in the system's cache. Each time is the least of five runs of the whole process. The peak is
that of the process, as a multiple of the bytes of the tree. If `reuse` is installed, `reuse lint` is timed once.
"""

import os
import resource
import shutil
import subprocess
import sys
import tempfile
import time

RUNS = 5
# Written in parts, since these are tags of the trees and not of this file.
NOTICE, LICENCE = "SPDX-" + "FileCopyrightText: 2025 Firm", "SPDX-" + "License-Identifier: MIT"
HEAD = f"// {NOTICE}\n// {LICENCE}\n\n"
LINE = "    total = total + values[index] * weights[index]; // the next one\n"
ANNOTATION = 'version = 1\n\n[[annotations]]\npath = "**"\nprecedence = "closest"\nSPDX-FileCopyrightText = "2025 Firm"\nSPDX-License-Identifier = "MIT"\n'
DRAFT = ["--name", "n", "--namespace", "https://example.org/n", "--created", "2025-01-01T00:00:00Z"]


def write(root, path, text):
    whole = os.path.join(root, path)
    os.makedirs(os.path.dirname(whole), exist_ok=True)
    with open(whole, "wb") as file:
        file.write(text if isinstance(text, bytes) else text.encode())


def sources(root, count, size, head, folder=lambda n: f"src/{n // 100}"):
    body = (LINE * (size // len(LINE) + 1))[: size - len(head)]
    for n in range(count):
        write(root, f"{folder(n)}/file{n}.c", head + body)
    write(root, "LICENSES/MIT.txt", "MIT text\n")


def ordinary(root):
    sources(root, 4_000, 10_000, HEAD)


def tagged_at_the_end(root):
    body = (LINE * 150)[:9_900]
    for n in range(4_000):
        write(root, f"src/{n // 100}/file{n}.c", body + "\n" + HEAD)
    write(root, "LICENSES/MIT.txt", "MIT text\n")


def nested(root):
    """10,000 files in 20 nested folders, each of which has a REUSE.toml."""
    folders = ["/".join(f"d{n}" for n in range(depth + 1)) for depth in range(20)]
    sources(root, 9_979, 200, "", lambda n: folders[n % 20])
    for folder in folders:
        write(root, f"{folder}/REUSE.toml", ANNOTATION)


def annotated_by_many(root):
    """1,000 files under 1,000 annotations of one REUSE.toml, each for another path."""
    sources(root, 999, 200, "")
    write(root, "REUSE.toml", "version = 1\n" + "".join(ANNOTATION[12:].replace("**", f"src/{n // 100}/file{n}.c") for n in range(1_000)))


def one_large(root):
    write(root, "REUSE.toml", ANNOTATION)
    write(root, "large.c", (LINE * (100_000_000 // len(LINE) + 1))[:100_000_000])
    write(root, "LICENSES/MIT.txt", "MIT text\n")


def million_tags(root):
    write(root, "tags.txt", f"# {LICENCE}\n" * 1_000_000)
    write(root, "LICENSES/MIT.txt", "MIT text\n")


TREES = [
    ("4,000 files of 10,000 bytes, tags at their head", ordinary),
    ("the same, tags at their end", tagged_at_the_end),
    ("10,000 files in 20 nested folders with a REUSE.toml each", nested),
    ("1,000 files under 1,000 annotations", annotated_by_many),
    ("one file of 100 MB without a tag", one_large),
    ("one file of a million tags", million_tags),
]


def least(command):
    times = []
    for _ in range(RUNS):
        begun = time.perf_counter()
        done = subprocess.run(command, stdout=subprocess.DEVNULL, stderr=subprocess.PIPE, check=False)
        times.append(time.perf_counter() - begun)
        if done.returncode not in (0, 1):
            sys.exit(f"{command}: status {done.returncode}, {done.stderr[:300]!r}")
    return min(times)


def peak(command):
    """The most memory that the process had, in bytes."""
    child = os.fork()
    if child == 0:
        null = os.open(os.devnull, os.O_WRONLY)
        os.dup2(null, 1)
        os.execv(command[0], command)
    return os.wait4(child, 0)[2].ru_maxrss * (1024 if resource.getpagesize() else 1)


def size_of(root):
    return sum(os.path.getsize(os.path.join(folder, name)) for folder, _, names in os.walk(root) for name in names)


def main():
    program = os.path.abspath(sys.argv[1])
    reuse = shutil.which("reuse")
    print(f"{'tree':58} {'bytes':>12} {'gather':>10} {'lint':>10} {'sha1sum':>10} {'times':>6} {'peak':>6}")
    for name, make in TREES:
        with tempfile.TemporaryDirectory() as root:
            make(root)
            size = size_of(root)
            beside = least(["sh", "-c", f"find {root} -type f -print0 | xargs -0 sha1sum"])
            gather, lint = least([program, "gather", root, *DRAFT]), least([program, "lint", root])
            most = peak([program, "gather", root, *DRAFT])
            print(f"{name:58} {size:12,} {gather * 1000:7.1f} ms {lint * 1000:7.1f} ms {beside * 1000:7.1f} ms {gather / beside:6.2f} {most / size:6.2f}", flush=True)
            if reuse:
                begun = time.perf_counter()
                subprocess.run([reuse, "--root", root, "lint"], stdout=subprocess.DEVNULL, check=False)
                print(f"  reuse lint {time.perf_counter() - begun:.1f} s", flush=True)


if __name__ == "__main__":
    main()
