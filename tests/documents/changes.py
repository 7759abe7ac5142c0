#!/usr/bin/env python3
"""Imports each prefix of a document, or the document with one byte replaced by each other byte, and prints how often each answer occurs:
`changes.py PROGRAM prefixes FILE`, `changes.py PROGRAM changes FILE`.

The answers are written as `oracle.py` writes them, so both print the same. A document that can be read is new, or its namespace was
imported before. Bytes that aren't text are reported as such, by fault 1, when the program reports that they make no request."""
import json
import subprocess
import sys
from collections import Counter

PARTS = [json.dumps(chr(byte))[1:-1].encode() if byte < 128 else bytes([byte]) for byte in range(256)]


def request(data):
    """The import of these bytes, as they are."""
    return b'{"do":"import","text":"' + b"".join(PARTS[byte] for byte in data) + b'"}\n'


def answer(reply):
    told = json.loads(reply)
    if told == {"fault": "command"}:
        return "1 0 -"
    if told.get("name") == "BadDocument":
        number, line, *tag = told["at"]
        return f"{number} {line} {tag[0] if tag else '-'}"
    if "new" in told or told.get("name") == "NamespaceTaken":
        return "document"
    raise ValueError(reply)


def main():
    program, kind, path = sys.argv[1:]
    with open(path, "rb") as file:
        data = file.read()
    if kind == "prefixes":
        texts = [data[:n] for n in range(len(data) + 1)]
    else:
        texts = [data[:i] + bytes([b]) + data[i + 1:] for i in range(len(data)) for b in range(256) if b != data[i]]
    done = subprocess.run([program, "script"], input=b"".join(map(request, texts)), stdout=subprocess.PIPE, check=False)
    replies = done.stdout.splitlines()
    if len(replies) != len(texts):
        sys.exit(f"{len(replies)} replies to {len(texts)} requests")
    for text, count in sorted(Counter(map(answer, replies)).items()):
        print(f"{count} {text}")


main()
