"""Times `desk check` at the limits of an expression, compared with bench/check.py: python3 bench/bench.py PROGRAM

Each time is the best of several runs of the whole process, its start included. The first row is a
small expression, so it is mostly the start: the last three columns are without it. The second of
the desk's columns is for the same expression with its operators in small letters, read by the profile
that allows them. All must give the same answer.
"""

import os
import subprocess
import sys
import time

RUNS = 7
TERMS = 1_024
BYTES = 16_384


def cases():
    names = [f"t{n}" for n in range(1_000, 1_000 + TERMS)]
    yield "one term", "MIT", ["mit"]
    yield f"{TERMS} terms joined by AND, all listed", " AND ".join(names), names
    yield f"{TERMS} terms joined by OR, all listed", " OR ".join(names), names
    pairs = [f"({a} OR {b})" for a, b in zip(names[::2], names[1::2])]
    yield f"{TERMS // 2} pairs, one of each listed", " AND ".join(pairs), names[::2]
    yield f"{TERMS // 2} pairs, all listed", " AND ".join(pairs), names
    long_names = [f"licence-number-{n:x}" for n in range(16, 16 + 1_024)]
    text = " OR ".join(long_names)[:BYTES]
    text = text[: text.rindex(" OR ")].ljust(BYTES)
    yield f"{BYTES} bytes read, one term listed", text, [long_names[0]]
    yield f"{BYTES} bytes, one licence", "l" * BYTES, ["l" * BYTES]


def best(command):
    least, answer = None, None
    for _ in range(RUNS):
        start = time.perf_counter()
        done = subprocess.run(command, stdout=subprocess.PIPE, check=False)
        spent = time.perf_counter() - start
        least = spent if least is None else min(least, spent)
        answer = (done.returncode, done.stdout)
    return least, answer


def main():
    desk = os.path.abspath(sys.argv[1])
    other = [sys.executable, os.path.join(os.path.dirname(os.path.abspath(__file__)), "check.py")]
    print(f"best of {RUNS} runs, in milliseconds, on one of {os.cpu_count()} processors")
    heads = " ".join(f"{head:>8}" for head in ("desk", "either", "python"))
    print(f"{'case':38} {heads} | {heads} without the start")
    start = None
    for name, expression, terms in cases():
        small = expression.replace(" AND ", " and ").replace(" OR ", " or ")
        commands = (
            [desk, "check", expression, *terms],
            [desk, "check", "--profile", "2", small, *terms],
            [*other, expression, *terms],
        )
        whole, answers = zip(*map(best, commands))
        if answers.count(answers[-1]) != len(answers):
            sys.exit(f"{name}: {answers[:-1]} is not {answers[-1]}")
        start = start or whole
        rest = [spent - first for spent, first in zip(whole, start)]
        print(f"{name:38} " + " | ".join(" ".join(f"{t * 1000:8.2f}" for t in times) for times in (whole, rest)))


if __name__ == "__main__":
    main()
