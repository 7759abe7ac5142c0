#!/usr/bin/env python3
"""Times patterns of at most 1,000 bytes on paths of at most 4,096, from ordinary ones to the slowest known.

`python3 bench/globs.py PROGRAM`: PROGRAM is what bench/programs/build.sh makes of bench/programs/globs."""
import subprocess
import sys

PATH, PATTERN = 4096, 1000


def tail(length):
    """Bytes that nearly match at each place of a path of `a`."""
    return "a" * (length - 1) + "b"


def cases():
    deep = "src/" * 20 + "main.c"
    yield "`**/*.c` on a path of 86 bytes", "**/*.c", deep
    yield "`src/**/test/*` on a path of 86 bytes", "src/**/test/*", deep
    yield "`*` on a name of 4,096 bytes", "*", "a" * PATH
    yield "1,000 bytes that match themselves", "a" * PATTERN, "a" * PATTERN
    yield "`*a` 500 times on a name", "*a" * (PATTERN // 2), "a" * PATH
    yield "`*a` 499 times and `*b` on a name", "*a" * (PATTERN // 2 - 1) + "*b", "a" * PATH
    yield "`*` before 999 bytes on a name", "*" + tail(PATTERN - 1), "a" * PATH
    yield "`**` before 998 bytes on a name", "**" + tail(PATTERN - 2), "a" * PATH
    yield f"`**a*` before {PATTERN - 4} bytes on a name", "**a*" + tail(PATTERN - 4), "a" * PATH
    yield f"`**a*` before {PATTERN - 4} bytes on names of 64 bytes", "**a*" + tail(PATTERN - 4), ("a" * 63 + "/") * (PATH // 64)
    yield "`**` and `/*` 498 times and `b` on names of one byte", "**" + "/*" * 498 + "b", "a/" * (PATH // 2)
    yield "`**ab/` and `*ab/` 248 times on names of two bytes", "**ab/" + "*ab/" * 248 + "c", "ab/" * (PATH // 3)
    yield "`**aa` 249 times and `b` on a name", "**aa" * 249 + "b", "a" * PATH
    yield "`**a*b` 199 times and `c` on names of three bytes", "**a*b" * 199 + "c", "aab/" * (PATH // 4)


for name, pattern, path in cases():
    assert len(pattern) <= PATTERN and len(path) <= PATH
    ran = subprocess.run([sys.argv[1], pattern, path], stdout=subprocess.PIPE, text=True, check=True)
    matched, nanoseconds = ran.stdout.split()
    print(f"| {name} | {matched} | {int(nanoseconds) / 1e6:.4g} ms |", flush=True)
