"""Compares what `check` prints with what is expected: python3 checks.py PROGRAM <CASES

Each case with a different answer is printed, with that answer, and then the number of cases. A case is a line

    EXPRESSION; TERM, TERM => the line that is expected

and `capitals: ` or `either: ` precedes an expression that is read by a profile of operators. «1..7:TEXT» is a text once for each of these
numbers, and ‹ff› a byte by its hexadecimal digits, as in a dialogue. A line that begins with # is skipped.
"""

import subprocess
import sys

import dialogue

PROFILES = {b"capitals: ": ["--profile", "1"], b"either: ": ["--profile", "2"]}


def told(program, question):
    """The line that the program prints."""
    expression, terms = question.split(b"; ")
    words = []
    for name, profile in PROFILES.items():
        if expression.startswith(name):
            expression, words = expression[len(name) :], profile
    done = subprocess.run([program, "check", *words, expression, *terms.split(b", ")], capture_output=True, check=False)
    return done.stdout.decode().removesuffix("\n")


def main():
    count = 0
    for case in sys.stdin.buffer.read().decode().splitlines():
        if case.startswith("#"):
            continue
        question, wanted = case.rsplit(" => ", 1)
        answer = told(sys.argv[1], dialogue.written_out(question))
        count += 1
        if answer != wanted:
            print(f"{case}: {answer}")
    print(f"{count} cases")


if __name__ == "__main__":
    main()
