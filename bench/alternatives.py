"""Times `desk alternatives` at the limits of a listing, compared with bench/listing.py: python3 bench/alternatives.py PROGRAM

Each time is the best of several runs of the whole process, its start included. The first row is a small expression, so it is mostly
the start: the last two columns are without it. Both programs must write the same lines.
"""

import os
import sys

from bench import RUNS, best

BYTES = 16_384


def joined(word, parts):
    return f" {word} ".join(parts)


def enclosed(parts):
    return [f"({part})" for part in parts]


def factors(first, count):
    return joined("AND", [f"(a{k} OR b{k})" for k in range(first, first + count)])


def driven_out(count, name):
    """This many sets, of which the last is a part of each union with a set of the other list."""
    mine, other = ("x", "y") if name == "a" else ("y", "x")
    return joined("OR", [f"{mine} AND {name}{k}" for k in range(count - 1)] + [f"{mine} AND {other}"])


def wide(name, first):
    """64 sets of seven or two terms from 13 terms or so: a product of such lists is large before it is small."""
    mine, other = ("x", "y") if name == "a" else ("y", "x")
    choices = joined("AND", [f"({name}{k} OR {name}{k + 50})" for k in range(first, first + 5)])
    return f"{mine} AND {choices} OR {mine} AND {other}"


def cases():
    names = [f"x{k:03}" for k in range(1_024)]
    yield "one term", "MIT"
    yield "64 terms twice", joined("AND", enclosed([joined("OR", names[:64])] * 2))
    yield "64 sets by 64 sets of 128 terms, one is left", joined("AND", enclosed([driven_out(64, "a"), driven_out(64, "b")]))
    yield "64 sets by 64 sets of 128 terms, refused", joined("AND", enclosed([joined("OR", names[:64]), joined("OR", names[64:128])]))
    yield "128 terms joined by AND", joined("AND", names[:128])
    yield "six choices 85 times, 1,020 terms", joined("AND", enclosed([factors(0, 6)] * 85))
    pairs = [joined("AND", enclosed([wide("a", 5 * (k % 5)), wide("b", 5 * (k % 5))])) for k in range(36)]
    yield "36 products of 33 sets by 33 sets, one is left", joined("OR", enclosed(pairs))
    yield "1,024 terms joined by OR, refused", joined("OR", names)
    yield f"{BYTES} bytes, 600 terms of 8", joined("OR", enclosed([joined("AND", names[k % 8 : k % 8 + 2]) for k in range(300)])).ljust(BYTES)


def main():
    desk = os.path.abspath(sys.argv[1])
    other = [sys.executable, os.path.join(os.path.dirname(os.path.abspath(__file__)), "listing.py")]
    print(f"best of {RUNS} runs, in milliseconds, on one of {os.cpu_count()} processors")
    print(f"{'case':48} {'desk':>8} {'python':>8} | {'desk':>8} {'python':>8} without the start")
    start = None
    for name, expression in cases():
        mine, answer = best([desk, "alternatives", expression])
        theirs, expected = best([*other, expression])
        if answer != expected:
            sys.exit(f"{name}: {answer} is not {expected}")
        start = start or (mine, theirs)
        whole, rest = (mine, theirs), (mine - start[0], theirs - start[1])
        print(f"{name:48} " + " | ".join(" ".join(f"{t * 1000:8.2f}" for t in pair) for pair in (whole, rest)))


main()
