#!/usr/bin/env python3
"""Tries hostile inputs on the built program, and compares each answer with a second reader's:

    python3 tests/hostile/hostile.py PROGRAM [--minutes M] [--seed S] [--kinds KIND,..] [--count N] [--checked]
    python3 tests/hostile/hostile.py PROGRAM --seed S --show KIND NUMBER

Inputs are generated from a grammar and by mutation, from a seed, the kind and a number, so that each can be generated again: `--show`
generates one, prints it, and tries it with the others of its batch. `--count` tries this many of each kind instead of running for some
minutes. `--checked` is for a program that was compiled with memory checks: it has no memory limit, and more time. Ends with status 1 if
something differs."""

import argparse
import os
import sys
import time

HERE = os.path.dirname(os.path.abspath(__file__))
sys.path.insert(0, HERE)
sys.dont_write_bytecode = True

import running

import catalogues
import connections
import credit_trees
import database_files
import documents
import expressions
import fills
import folders
import json_documents
import lines
import reports
import text_folders
import trees_made

KINDS = {kind.NAME: kind for kind in (expressions, documents, json_documents, catalogues, lines, reports, fills, text_folders, credit_trees, connections, folders,
                                      trees_made, database_files)}
SHOWN = 10
# This many inputs of a kind meet what each run of them must meet.
ENOUGH = 600


def batch_of(kind, seed, number):
    """The batch that contains an input, and where it begins."""
    start = number // kind.SIZE * kind.SIZE
    return list(kind.inputs(seed, start)), start


def tried(program, kind, seed, start):
    """Tries a batch, prints what differs, and returns how many inputs there were and how many differ."""
    batch, start = batch_of(kind, seed, start)
    differing = {}
    for place, words in kind.differences(program, batch):
        differing.setdefault(start + place, words)
    for number, words in sorted(differing.items())[:SHOWN]:
        print(f"seed {seed}, {kind.NAME} {number}: {words}", flush=True)
    return len(batch), len(differing)


def unmet_of(kind):
    """What the inputs of a kind must meet, and didn't."""
    return sorted(getattr(kind, "MEETS", set()) - set(getattr(kind, "MET", ())))


def slice_of(program, kind, seed, is_over):
    """Tries batches until the time is over, and prints what was tried."""
    begun, count, differing = time.monotonic(), 0, 0
    program.longest = program.runs = 0
    while not is_over(begun, count):
        inputs, found = tried(program, kind, seed, count)
        count, differing = count + inputs, differing + found
    seconds = time.monotonic() - begun
    told = f"{count:>12,} {kind.NAME:12} {seconds:7.0f} s {count / max(seconds, 0.001):>9,.0f} a second"
    print(f"{told}, {program.runs:>8,} runs, the longest {program.longest:.2f} s, {differing} differ", flush=True)
    unmet = unmet_of(kind) if count >= ENOUGH else []
    if unmet:
        print(f"seed {seed}, {kind.NAME}: no input met {', '.join(unmet)}", flush=True)
    return count, differing + len(unmet)


def shown(program, kind, seed, number):
    batch, start = batch_of(kind, seed, number)
    print(f"seed {seed}, {kind.NAME} {number}: {kind.shown(batch[number - start])}")
    found = [words for place, words in kind.differences(program, batch) if start + place == number]
    print(found[0] if found else "It is answered as it should be.")
    return bool(found)


def words_of():
    parser = argparse.ArgumentParser(description="Tries hostile inputs on the built program.")
    parser.add_argument("program")
    parser.add_argument("--minutes", type=float, default=1)
    parser.add_argument("--seed", type=int, default=1)
    parser.add_argument("--kinds", default=",".join(KINDS))
    parser.add_argument("--count", type=int)
    parser.add_argument("--checked", action="store_true")
    parser.add_argument("--show", nargs=2, metavar=("KIND", "NUMBER"))
    return parser.parse_args()


def main():
    words = words_of()
    program = running.Program(words.program, words.checked)
    if words.show:
        return shown(program, KINDS[words.show[0]], words.seed, int(words.show[1]))
    kinds = [KINDS[name] for name in words.kinds.split(",")]
    seconds = words.minutes * 60 / len(kinds)

    def is_over(begun, count):
        return count >= words.count if words.count else time.monotonic() - begun >= seconds

    begun, count, differing = time.monotonic(), 0, 0
    for kind in kinds:
        inputs, found = slice_of(program, kind, words.seed, is_over)
        count, differing = count + inputs, differing + found
    print(f"{count:,} hostile inputs of seed {words.seed} in {time.monotonic() - begun:.0f} seconds: {differing} differ")
    return differing > 0


if __name__ == "__main__":
    sys.exit(main())
