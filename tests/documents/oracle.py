#!/usr/bin/env python3
"""A second reader of tag-value documents, written independently of the desk's, for expected values of tests.

It answers a document with `document`, and a fault with its number, its line and its tag or `-`. `oracle.py prefixes FILE` prints the
answers to all prefixes of a file, and `oracle.py changes FILE` how often each answer occurs if one byte of the file is replaced by each
other byte."""
import re
import sys
from collections import Counter

STARTS = {"PackageName": "package", "FileName": "file", "SnippetSPDXID": "snippet", "LicenseID": "extracted"}
ONCE_ANYWHERE = {"SPDXVersion", "DataLicense", "DocumentName", "DocumentNamespace", "Created"}
ONCE = {
    "document": {"SPDXID"},
    "package": {"SPDXID", "PackageVersion", "PackageDownloadLocation", "FilesAnalyzed", "PackageVerificationCode",
                "PackageLicenseConcluded", "PackageLicenseDeclared", "PackageCopyrightText"},
    "file": {"SPDXID", "LicenseConcluded", "FileCopyrightText"},
    "snippet": set(),
    "extracted": {"ExtractedText"},
}
ELEMENT = r"SPDXRef-[A-Za-z0-9.\-]+"
END = rf"(?:{ELEMENT}|DocumentRef-[A-Za-z0-9.\-+]+:{ELEMENT})"


class Fault(Exception):
    def __init__(self, number, line, tag="-"):
        super().__init__(f"{number} {line} {tag}")


def fields(text):
    if text.startswith("\ufeff"):
        text = text[1:]
    at, line, found = 0, 1, []
    while at < len(text):
        end = text.find("\n", at)
        stop = len(text) if end < 0 else end
        after = len(text) if end < 0 else end + 1
        body = text[at:stop - 1] if end >= 0 and text[at:stop].endswith("\r") else text[at:stop]
        core = body.strip(" \t")
        if core == "" or core[0] == "#":
            at, line = after, line + 1
            continue
        tag, colon, rest = body.partition(":")
        tag = tag.strip(" \t")
        if not colon or not tag:
            raise Fault(2, line)
        if not rest.strip(" \t").startswith("<text>"):
            found.append((line, tag, rest.strip(" \t")))
            at, line = after, line + 1
            continue
        start = text.index("<text>", at + body.index(":")) + 6
        close = text.find("</text>", start)
        if close < 0:
            raise Fault(3, line)
        value = text[start:close]
        last = line + value.count("\n")
        end = text.find("\n", close + 7)
        tail = text[close + 7:] if end < 0 else text[close + 7:end]
        if end >= 0 and tail.endswith("\r"):
            tail = tail[:-1]
        if tail.strip(" \t"):
            raise Fault(4, last)
        found.append((line, tag, value))
        at, line = (len(text) if end < 0 else end + 1), last + 1
    return found


def check(found):
    kind, here, anywhere, ids, licences, elements, missing = "document", set(), set(), set(), set(), 0, []
    starts, named = [], False
    for line, tag, value in found:
        if tag in STARTS:
            elements += 1
            if elements > 10000:
                raise Fault(12, line)
            kind, here = STARTS[tag], set()
            starts.append([kind, line, False])
        elif tag in ONCE_ANYWHERE:
            if tag in anywhere:
                raise Fault(9, line, tag)
            anywhere.add(tag)
        elif tag in ONCE[kind]:
            if tag in here:
                raise Fault(9, line, tag)
            here.add(tag)
        placed = tag == "SPDXID" and "SPDXID" in ONCE[kind]
        if placed or tag == "SnippetSPDXID":
            form = "SPDXRef-DOCUMENT" if placed and kind == "document" else ELEMENT
            if not re.fullmatch(form, value):
                raise Fault(7, line)
            if value in ids:
                raise Fault(8, line)
            ids.add(value)
            if starts:
                starts[-1][2] = True
            else:
                named = True
        if tag == "LicenseID":
            if not re.fullmatch(r"LicenseRef-[A-Za-z0-9.\-]+", value):
                raise Fault(7, line)
            if value in licences:
                raise Fault(8, line)
            licences.add(value)
        if tag == "SPDXVersion" and value not in ("SPDX-2.1", "SPDX-2.2", "SPDX-2.3"):
            raise Fault(5, line)
        if tag == "Relationship":
            words = [w for w in re.split("[ \t]+", value) if w]
            if not (len(words) == 3 and re.fullmatch(END, words[0]) and re.fullmatch("[A-Z_]+", words[1])
                    and re.fullmatch(rf"(?:{END}|NONE|NOASSERTION)", words[2])):
                raise Fault(10, line)
    for tag in ("SPDXVersion", "SPDXID", "DocumentName", "DocumentNamespace"):
        if tag == "SPDXID" and not named or tag != "SPDXID" and tag not in anywhere:
            raise Fault(6, 1, tag)
    for kind, line, has_id in starts:
        if kind in ("package", "file") and not has_id:
            raise Fault(6, line, "SPDXID")


def answer(data):
    try:
        if len(data) > 4 << 20:
            raise Fault(11, 0)
        try:
            text = data.decode("utf-8")
        except UnicodeDecodeError:
            raise Fault(1, 0) from None
        check(fields(text))
        return "document"
    except Fault as fault:
        return str(fault)


def main():
    data = open(sys.argv[2], "rb").read()
    if sys.argv[1] == "prefixes":
        answers = Counter(answer(data[:n]) for n in range(len(data) + 1))
    else:
        answers = Counter(answer(data[:i] + bytes([b]) + data[i + 1:])
                          for i in range(len(data)) for b in range(256) if b != data[i])
    for text, count in sorted(answers.items()):
        print(f"{count} {text}")


if __name__ == "__main__":
    main()
