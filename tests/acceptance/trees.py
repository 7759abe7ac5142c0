"""Compares what a program reports about small trees with what is expected: python3 trees.py PROGRAM WAY <CASES

Each case with a different answer is printed, with that answer, and then the number of cases. In CASES ‹ff› is a byte by its hexadecimal
digits. For `gather` and `lint` a case is a tree, which gets its own folder:

    = its name
    @PATH       a file, whose lines follow
    > ANSWER    what is reported about the tree

Files before the first case are in each tree. `gather` reports for each file of the document `PATH: NOTICES / LICENCES`, or the line of the
fault; `lint` reports the texts that are missing and unused and the files that are bare, and for any other problem its kind and path. For
`patterns` and `tags` all cases are about one tree, one on each line:

    PATTERN | PATH => yes       the pattern of a REUSE.toml matches a path of its folder, or doesn't (no)
    "TEXT" => ANSWER            what a file with this text states, NOTICES / LICENCES; the text is a string of JSON

NOTICES are those of the document, with a semicolon between them, and LICENCES its expression; `-` means NOASSERTION.
"""

import json
import os
import re
import subprocess
import sys
import tempfile

NAMES = ["--name", "n", "--namespace", "https://example.org/n", "--created", "2025-01-01T00:00:00Z"]
TAG = "SPDX-License-" + "Identifier"


def in_bytes(text):
    return re.sub("‹(..)›".encode(), lambda match: bytes.fromhex(match.group(1).decode()), text.encode())


def make(folder, files):
    """Writes files, a list of paths and texts."""
    for path, text in files:
        place = os.path.join(in_bytes(folder), in_bytes(path))
        os.makedirs(os.path.dirname(place), exist_ok=True)
        with open(place, "wb") as file:
            file.write(in_bytes(text))


def run(program, *words):
    return subprocess.run([program, *words], capture_output=True, check=False).stdout.decode()


def value(text):
    text = text.removeprefix("<text>").removesuffix("</text>")
    return "-" if text == "NOASSERTION" else text.replace("\n", "; ")


def gathered(program, folder):
    """What is reported about each file by its path, or the line of the fault."""
    text = run(program, "gather", folder, *NAMES)
    if not text.startswith("SPDXVersion: "):
        return text.rstrip("\n")
    told = {}
    for part in re.split(r"\n\nFileName: \./", text)[1:]:
        path = part.split("\n")[0]
        licences = re.search(r"^LicenseConcluded: (.*)$", part, re.M).group(1)
        notices = re.search(r"^FileCopyrightText: ((?:.|\n)*?)\n?\Z", part, re.M).group(1)
        told[path] = f"{value(notices)} / {value(licences)}"
    return told


def gather(program, folder):
    told = gathered(program, folder)
    return [told] if isinstance(told, str) else [f"{path}: {each}" for path, each in told.items()]


def lint(program, folder):
    lists, others = {"Missing": "missing", "Unused": "unused", "Bare": "bare"}, []
    for problem in json.loads(run(program, "lint", "--json", folder))["problems"]:
        kind, path = problem["kind"], problem["path"]
        if kind == "Missing":
            path = problem["message"].removeprefix("no text of ").split(", which")[0]
        if kind in lists:
            lists[kind] += f" [{path}]"
        else:
            others.append(f"{kind} {path}")
    return ["; ".join([*lists.values(), *others])]


def trees(text):
    """The name, the files and the answer of each case."""
    common, cases = [], []
    files = common
    for line in text.split("\n")[:-1]:
        if line.startswith("= "):
            cases.append((line[2:], list(common), []))
            files = cases[-1][1]
        elif line.startswith("@"):
            files.append((line[1:], ""))
        elif line.startswith("> "):
            cases[-1][2].append(line[2:])
        elif files:
            path, before = files.pop()
            files.append((path, before + line + "\n"))
    return cases


def told_of_trees(program, tell, text):
    """Each case with what is expected and what is reported."""
    for name, files, wanted in trees(text):
        with tempfile.TemporaryDirectory() as folder:
            make(folder, files)
            yield name, wanted, tell(program, folder)


def told_of_one_tree(program, way, text):
    """Each case with what is expected and what is reported, from one tree for all."""
    cases, files = text.splitlines(), []
    for number, case in enumerate(cases):
        question = case.rsplit(" => ", 1)[0]
        if way == "patterns":
            pattern, path = question.split(" | ")
            toml = f"version = 1\n[[annotations]]\npath = '{pattern}'\n{TAG} = 'yes'\n"
            files += [(f"{number}/REUSE.toml", toml), (f"{number}/{path}", "x\n")]
        else:
            files.append((f"{number}", json.loads(question)))
    with tempfile.TemporaryDirectory() as folder:
        make(folder, files)
        told = gathered(program, folder)
    if isinstance(told, str):
        told = {}
    for number, case in enumerate(cases):
        question, wanted = case.rsplit(" => ", 1)
        if way == "patterns":
            of_case = told.get(f"{number}/" + question.split(" | ")[1])
            yield case, wanted, {"- / yes": "yes", "- / -": "no"}.get(of_case)
        else:
            yield case, wanted, told.get(f"{number}")


def main():
    program, way = sys.argv[1:]
    text = sys.stdin.buffer.read().decode()
    count = 0
    tell = {"gather": gather, "lint": lint}.get(way)
    for case, wanted, told in told_of_trees(program, tell, text) if tell else told_of_one_tree(program, way, text):
        count += 1
        if told != wanted:
            print(f"{case}: {told}, and not {wanted}")
    print(f"{count} cases")


if __name__ == "__main__":
    main()
