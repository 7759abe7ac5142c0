#!/usr/bin/env python3
"""Lists the functions of a crate whose proofs take longest.

    python3 tests/slowest.py CRATE [COUNT]

The crate is proved from nothing in a copy, one function after another, over the libraries that `rt lib` built in this checkout. It prints
processor seconds, the largest first (40 of them): a line's seconds are all that passed since the function before it was done, including
what both need and nothing had computed yet. The last line has the seconds of the whole crate.
"""
import os
import shutil
import subprocess
import sys
import tempfile

TICKS = os.sysconf("SC_CLK_TCK")
# `rt check` itself would start from what another checkout kept of the crate.
CHECK = [sys.executable, f"{os.path.dirname(os.path.realpath(shutil.which('rt')))}/rtlib.py", "check", "--progress", "--jobs", "1"]


def crates_below(lines, name):
    """The lines of crates.txt for a crate and for all that it depends on."""
    wanted, left = {}, [name]
    while left:
        crate = left.pop()
        if crate in lines and crate not in wanted:
            wanted[crate] = lines[crate]
            left += lines[crate].split(":", 1)[1].split()
    return wanted


def processes():
    """The parent and the seconds of each process, with those of its children that ended."""
    found = {}
    for name in filter(str.isdigit, os.listdir("/proc")):
        try:
            with open(f"/proc/{name}/stat") as file:
                fields = file.read().rsplit(")", 1)[1].split()
        except OSError:
            continue
        found[int(name)] = int(fields[1]), sum(map(int, fields[11:15])) / TICKS
    return found


def seconds_of(root):
    """The processor seconds of a process and of all below it."""
    found = processes()
    total, left = 0.0, [root]
    while left:
        parent = left.pop()
        total += found.get(parent, (0, 0.0))[1]
        left += [child for child, (above, _) in found.items() if above == parent]
    return total


def timed(folder):
    """The seconds of each function, and of all, during the check of the crate in a folder."""
    times, last = [], 0.0
    check = subprocess.Popen(CHECK, cwd=folder, stdout=subprocess.PIPE, stderr=subprocess.STDOUT, text=True, bufsize=1)
    said = []
    for line in check.stdout:
        said.append(line)
        if line.startswith("checked "):
            now = seconds_of(check.pid)
            times.append((now - last, line[len("checked "):].split(", ")[0]))
            last = now
    _, status, used = os.wait4(check.pid, 0)
    if status:
        sys.exit("".join(said[-20:]) + "The crate was not proved.")
    return times, used.ru_utime + used.ru_stime


def main():
    if len(sys.argv) not in (2, 3):
        sys.exit(__doc__)
    name, count = sys.argv[1], int(sys.argv[2]) if len(sys.argv) > 2 else 40
    root = os.path.dirname(os.path.dirname(os.path.abspath(__file__)))
    with open(f"{root}/crates.txt") as file:
        lines = {line.split(":")[0].split()[0]: line for line in file if ":" in line and not line.startswith("#")}
    if name not in lines:
        sys.exit(f"crates.txt has no crate {name}.")
    with tempfile.TemporaryDirectory() as scratch:
        wanted = crates_below(lines, name)
        for crate in wanted:
            left_out = ["out"] if crate == name else ["incremental"]
            shutil.copytree(f"{root}/crates/{crate}", f"{scratch}/crates/{crate}", symlinks=True,
                            ignore=lambda folder, names, out=left_out: [n for n in names if n in out])
        with open(f"{scratch}/crates.txt", "w") as file:
            file.writelines(wanted.values())
        times, whole = timed(f"{scratch}/crates/{name}")
    for seconds, function in sorted(times, reverse=True)[:count]:
        print(f"{seconds:8.1f}  {function}")
    print(f"{whole:8.1f}  {name}, with its {len(times)} functions")


main()
