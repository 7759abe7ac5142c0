"""Splits a dialogue into the requests of a script and the replies to them: python3 dialogue.py NAME.dialogue REQUESTS REPLIES

A dialogue is a text of lines:

    # why it is there
    > a request
    < the reply to it
    = another dialogue next to it, whose requests and replies are inserted here
    status 1                    the exit status that is expected (none: 0)
    repeat 2..998 by 2          the lines down to `end`, once for each of these numbers, which replaces % in them, and the next number
    end                         replaces %+1

A blank line has no reply. {{NAME}} is the text of a fixture as a JSON string, and {{NAME: OLD => NEW; ..}} the same with NEW in place of
OLD, which occurs in it once; in both \n is a line feed. ‹ff› is a byte by its hexadecimal digits, and «1..7:TEXT» a text once for each of
these numbers, as with `repeat`. A request after `>|` has no line end: it is the last one. In a page (NAME.md) the dialogue is what is in
its blocks that begin with ```dialogue.
"""

import json
import os
import re
import sys

HERE = os.path.dirname(os.path.abspath(__file__))
TOP = os.path.join(HERE, "../..")

FIXTURES = {
    "small catalogue": "examples/first-release/catalogue.toml",
    "small document": "examples/first-release/document.spdx",
    "document with findings": "examples/findings/document.spdx",
    "later catalogue": "tests/fixtures/later-catalogue.toml",
    "catalogue of real documents": "tests/fixtures/real-documents.toml",
    "document of a build": "tests/documents/build.spdx",
    "document of a scanner": "tests/documents/scanner.spdx",
    "document of reuse": "tests/documents/reuse.spdx",
    "document with every tag": "tests/documents/whole.spdx",
}


NUMBERS = r"«(\d+)\.\.(\d+)(?: by (\d+))?"


def fixture(name):
    with open(os.path.join(TOP, FIXTURES[name]), encoding="utf-8", newline="") as file:
        return file.read()


def put_in(match):
    """The JSON string that replaces {{..}}."""
    name, _, changes = match.group(1).partition(": ")
    text = fixture(name)
    for change in changes.split("; ") if changes else []:
        old, new = change.replace("\\n", "\n").split(" => ")
        if text.count(old) != 1:
            raise ValueError(f"{old!r} appears {text.count(old)} times in the {name}")
        text = text.replace(old, new)
    return json.dumps(text, ensure_ascii=False)


def copies(first, last, step, text):
    """The text once for each number from the first on, which replaces % in it."""
    for number in range(int(first), int(last) + 1, int(step or 1)):
        yield re.sub(r"%(?:\+(\d+))?", lambda match: str(number + int(match.group(1) or 0)), text)


def written_out(text):
    text = re.sub(NUMBERS + ":(.*?)»", lambda match: "".join(copies(*match.groups())), text)
    text = re.sub(r"\{\{(.*?)\}\}", put_in, text).encode()
    return re.sub("‹(..)›".encode(), lambda match: bytes.fromhex(match.group(1).decode()), text)


def lines_of(path):
    """The lines of a dialogue, each with its number."""
    with open(path, encoding="utf-8", newline="\n") as file:
        lines = enumerate(file.read().split("\n"), 1)
    if not path.endswith(".md"):
        return lines
    kept, is_kept = [], False
    for number, line in lines:
        if line.startswith("```"):
            is_kept = line == "```dialogue"
        elif is_kept:
            kept.append((number, line))
    return kept


def unrolled(lines):
    """The lines with those that are repeated once for each copy."""
    repeated, kept = None, []
    for number, line in lines:
        if repeated and line == "end":
            for copy in copies(*repeated, "\n".join(kept)):
                yield from ((number, text) for text in copy.split("\n"))
            repeated, kept = None, []
        elif repeated:
            kept.append(line)
        elif line.startswith("repeat "):
            repeated = re.fullmatch(NUMBERS, "«" + line.removeprefix("repeat ")).groups()
        else:
            yield number, line
    if repeated:
        raise ValueError("a repetition without its end")


def read(path):
    """The requests and the replies of a dialogue as bytes, and its status."""
    requests, replies, status = [], [], 0
    for number, line in unrolled(lines_of(path)):
        mark, text = line[:2], line[2:]
        if mark in ("> ", ">"):
            requests.append(written_out(text) + b"\n")
        elif mark == ">|":
            requests.append(written_out(text.removeprefix(" ")))
        elif mark == "< ":
            replies.append(written_out(text) + b"\n")
        elif mark == "= ":
            asked, told, _ = read(os.path.join(os.path.dirname(path), text + ".dialogue"))
            requests.append(asked)
            replies.append(told)
        elif line.startswith("status "):
            status = int(line.removeprefix("status "))
        elif line and mark[0] != "#":
            raise ValueError(f"{path}:{number}: no line of a dialogue: {line}")
    return b"".join(requests), b"".join(replies), status


def main():
    path, requests, replies = sys.argv[1:]
    asked, told, status = read(path)
    with open(requests, "wb") as file:
        file.write(asked)
    with open(replies, "wb") as file:
        file.write(told)
    print(status)


if __name__ == "__main__":
    main()
