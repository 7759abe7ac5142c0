"""Inputs that need memory, with enough memory: python3 tests/ample/ample.py PROGRAM

No contract says that a call fails only if no memory is left, so a program that failed beyond some size would be proved all the same. Here
are inputs beyond 64 bytes, 64 KiB and 4 MiB, many lines, words and duties, and each fault of each reader, with the exact replies. These are
worked out from the rules of docs/REQUESTS.md, docs/CATALOGUE.md and SPDX 2.3, never from what the program prints.
"""

import json
import os
import subprocess
import sys
import tempfile

SECONDS = 120
KIB, MIB = 1_024, 1_048_576
DOCUMENT_BYTES = CATALOGUE_BYTES = 4 * MIB
LINE_BYTES = 8 * MIB
EXPRESSION_BYTES = 16_384
PAST = (65, 64 * KIB + 1)

HEAD = (
    "SPDXVersion: SPDX-2.3\nDataLicense: CC0-1.0\nSPDXID: SPDXRef-DOCUMENT\nDocumentName: d\n"
    "DocumentNamespace: https://example.org/d\nCreator: Tool: x-1\nCreated: 2025-01-01T00:00:00Z\n"
)
HEAD_LINES = HEAD.count("\n")


def line(**request):
    return json.dumps(request, separators=(",", ":"), ensure_ascii=False) + "\n"


def refused(number, name, *at):
    return line(at=list(at), name=name, refused=number)


REVISION, DONE = line(revision=1), line(done=True)
NO_REQUEST = line(fault="command")


def package(spdx_id="SPDXRef-p", concluded="MIT", more=""):
    return (
        f"PackageName: p\nSPDXID: {spdx_id}\nPackageDownloadLocation: NOASSERTION\nFilesAnalyzed: false\n"
        f"PackageLicenseConcluded: {concluded}\nPackageCopyrightText: NOASSERTION\n{more}"
    )


def catalogue(term="MIT", codes=("include-text",), title="Ship the licence text", more=""):
    duties = "".join(f'[[duty]]\ncode = "{code}"\ntitle = "{title}"\n' for code in codes)
    listed = ", ".join(f'"{code}"' for code in codes)
    return f'forms = ["binary"]\n{duties}[[rule]]\nterm = "{term}"\nform = "binary"\nduties = [{listed}]\n{more}'


def load(text, reply=REVISION):
    return line(do="catalogue", text=text), reply


def take(text, reply=None):
    return line(do="import", text=text), reply or line(document=1, new=True)


def opened(release="r", reply=DONE):
    return line(do="open", release=release, form="binary"), reply


def attached(release="r", document=1, reply=DONE):
    return line(do="attach", release=release, document=document), reply


def choose(terms, reply=DONE, spdx_id="SPDXRef-p", release="r"):
    return line(do="choose", release=release, document=1, package=spdx_id, terms=terms), reply


def freeze(reply):
    return line(do="freeze", release="r", day="2025-03-03"), reply


def frozen(count):
    return freeze(line(count=count, first=1))


def duties(rows):
    return line(ask="duties", release="r"), line(rows=rows)


def findings(rows):
    return line(ask="findings", document=1), line(rows=rows)


def padded(text, size, filling="#"):
    """The text, followed by a comment that makes it this many bytes long."""
    return text + filling * (size - len(text.encode()))


# Each of the following yields names of scripts with their requests and replies.


def sizes_of_values():
    """Values of a document, past each size."""
    for size in PAST + (4 * MIB - KIB,):
        text = HEAD + package(more=f"PackageSummary: <text>{'x' * size}</text>\n")
        yield f"a value of {size} bytes", [take(text), (line(do="import", text=text), line(document=1, new=False))]
    for size in PAST + (4_000_000,):
        spdx_id = "SPDXRef-" + "p" * size
        yield f"an id of {size} bytes", [
            load(catalogue(codes=("give-notice", "include-text"))),
            take(HEAD + package(spdx_id)),
            opened(),
            attached(),
            freeze(refused(19, "NoChoice", 1, spdx_id)),
            choose(["MIT"], spdx_id=spdx_id),
            frozen(2),
            duties([
                [1, 1, spdx_id, "mit", "MIT", "give-notice", "open", "2025-03-03"],
                [2, 1, spdx_id, "mit", "MIT", "include-text", "open", "2025-03-03"],
            ]),
        ]
    for size in PAST:
        text = HEAD.replace("DocumentName: d", "DocumentName: " + "d" * size).replace("org/d", "org/" + "d" * size)
        yield f"a name and a namespace of {size} bytes", [
            take(text),
            (line(do="import", text=text + package()), refused(3, "NamespaceTaken", 1)),
        ]


def sizes_of_terms():
    """Licence ids up to the longest expression, and past it."""
    for size in (65, 4_096, EXPRESSION_BYTES):
        licence = "L" * size
        yield f"a licence of {size} bytes", [
            load(catalogue(licence)),
            take(HEAD + package(concluded=licence)),
            opened(),
            attached(),
            choose([licence.swapcase()]),
            frozen(1),
            duties([[1, 1, "SPDXRef-p", licence.lower(), licence, "include-text", "open", "2025-03-03"]]),
        ]
        yield f"a licence of {size} bytes without a rule", [
            load(catalogue()),
            take(HEAD + package(concluded=licence)),
            opened(),
            attached(),
            choose([licence, "MIT"], refused(18, "NotMinimal", "mit")),
            choose([licence]),
            freeze(refused(22, "NoRule", 1, "SPDXRef-p", licence.lower())),
        ]
    for size in (EXPRESSION_BYTES + 1, 64 * KIB + 1):
        yield f"a licence of {size} bytes", [
            load(catalogue()),
            load(catalogue("L" * size), refused(1, "BadCatalogue", 4, "rule", 0)),
            take(HEAD + package(concluded="L" * size)),
            opened(),
            attached(),
            choose(["MIT"], refused(16, "NoConclusion", 1, "SPDXRef-p")),
            choose(["MIT", "L" * size], refused(8, "BadTerm", 1)),
        ]
    reference = "LicenseRef-" + "x" * 16_000
    yield "a reference of 16,011 bytes", [
        load(catalogue()),
        take(HEAD + package(concluded=reference)),
        opened(),
        attached(),
        choose([reference]),
        freeze(refused(21, "NotAdopted", 1, reference)),
    ]
    yield "a bad term of 40,000 bytes", [
        load(catalogue()),
        choose(["MIT", "(" * 40_000], refused(8, "BadTerm", 1)),
        choose(["MIT AND " * 5_000], refused(8, "BadTerm", 0)),
        choose(["é" * 20_000], refused(8, "BadTerm", 0)),
        choose(["MIT", "MIT", "x" * (5 * MIB)], refused(8, "BadTerm", 2)),
    ]
    terms = [f"t{n}" for n in range(1_024)]
    yield "1,024 terms, and one too many", [
        load(catalogue()),
        take(HEAD + package(concluded=" AND ".join(terms)) + package("SPDXRef-q", " OR ".join(["t"] * 1_025))),
        opened(),
        attached(),
        choose(terms),
        choose(terms[1:], refused(17, "NotEnough")),
        choose(["t"], refused(16, "NoConclusion", 1, "SPDXRef-q"), "SPDXRef-q"),
        freeze(refused(22, "NoRule", 1, "SPDXRef-p", "t0")),
    ]
    yield "5,000 listed terms", [
        load(catalogue()),
        take(HEAD + package()),
        opened(),
        attached(),
        choose(["mit", "MIT"] * 2_500),
        choose(["MIT"] * 4_999 + ["Zlib"], refused(18, "NotMinimal", "zlib")),
        choose(["MIT"] * 4_999 + ["MIT+ +"], refused(8, "BadTerm", 4_999)),
        frozen(1),
    ]


def sizes_of_words():
    """Names, days and texts of requests."""
    yield "names of releases", [
        load(catalogue()),
        opened("r" * 64),
        opened("r" * 65, refused(9, "BadName")),
        opened("r" * (64 * KIB + 1), refused(9, "BadName")),
        opened("r" * (5 * MIB), refused(9, "BadName")),
        (line(do="open", release="s", form="b" * (5 * MIB)), refused(11, "UnknownForm")),
        (line(ask="totals", release="r" * (5 * MIB)), refused(12, "UnknownRelease")),
        (line(ask="totals", release="r" * 64), line(rows=[[0, 0, 0, 0, 0]])),
    ]
    yield "days and texts", [
        load(catalogue()),
        take(HEAD + package()),
        opened(),
        attached(),
        choose(["MIT"]),
        frozen(1),
        (line(do="meet", duty=1, day="2" * (5 * MIB), text="t"), refused(26, "BadDay")),
        (line(do="meet", duty=1, day="2025-03-04", text="t" * 1_025), refused(25, "BadText")),
        (line(do="meet", duty=1, day="2025-03-04", text="t" * (64 * KIB + 1)), refused(25, "BadText")),
        (line(do="meet", duty=1, day="2025-03-04", text="t" * (5 * MIB)), refused(25, "BadText")),
        (line(do="meet", duty=1, day="2025-03-04", text="é" * 512), DONE),
    ]
    yield "package ids that aren't there", [
        load(catalogue()),
        take(HEAD + package()),
        opened(),
        attached(),
        choose(["MIT"], refused(5, "UnknownPackage"), "SPDXRef-" + "q" * (64 * KIB)),
        choose(["MIT"], refused(5, "UnknownPackage"), "q" * (5 * MIB)),
    ]


def sizes_of_catalogues():
    text = catalogue() + "#"
    yield "catalogues of 4 MiB", [
        load(padded(text, CATALOGUE_BYTES)),
        load(padded(text, CATALOGUE_BYTES + 1), refused(1, "BadCatalogue", 8)),
        load(padded(text, 6 * MIB), refused(1, "BadCatalogue", 8)),
    ]
    note, body = "n" * (64 * KIB), "text" + "\n" * 3_000_000
    more = f'note = "{note}"\n[[text]]\nlicence = "MIT"\nbody = """{body}"""\n'
    yield "a value of another key and a text of 3 MB", [load(catalogue(more=more))]
    codes = [f"{'c' * 58}-{n:05}" for n in range(1_000)]
    yield "1,000 codes of 64 bytes", [load(catalogue(codes=codes, title="t" * 256))]
    rules = "".join(f'[[rule]]\nterm = "x{n}"\nform = "binary"\nduties = []\n' for n in range(20_000))
    yield "20,000 rules", [
        load(catalogue(more=rules)),
        load(catalogue(more=rules + '[[rule]]\nterm = "x"\n'), refused(1, "BadCatalogue", 2, "rule", 20_001)),
        load(
            catalogue(more=rules + '[[rule]]\nterm = "X0"\nform = "binary"\nduties = []\n'),
            refused(1, "BadCatalogue", 7, "rule", 20_001),
        ),
    ]
    texts = "".join(f'[[text]]\nlicence = "x{n}"\nbody = ""\n' for n in range(20_000))
    yield "20,000 texts", [
        load(catalogue(more=texts)),
        load(
            catalogue(more=texts + '[[text]]\nlicence = "X19999"\nbody = ""\n'),
            refused(1, "BadCatalogue", 7, "text", 20_000),
        ),
    ]


def lines_of_documents():
    many = "\n" * 65_536
    yield "65,536 lines", [
        take(HEAD + many + "x\n", refused(2, "BadDocument", 2, HEAD_LINES + 65_537)),
        take(HEAD + "# c\n" * 65_536 + package().replace("SPDXID: SPDXRef-p\n", ""),
             refused(2, "BadDocument", 6, HEAD_LINES + 65_537, "SPDXID")),
        take(HEAD + "DocumentComment: <text>" + many + "</text> x\n", refused(2, "BadDocument", 4, HEAD_LINES + 65_537)),
        take(HEAD + "PackageComment: c\n" * 65_536 + package()),
    ]
    text = padded(HEAD, DOCUMENT_BYTES)
    yield "a document of 4 MiB, and one byte too large", [
        take(text),
        (line(do="import", text=text + "#"), refused(2, "BadDocument", 11, 0)),
        (line(do="import", text=padded(HEAD, 8_000_000)), refused(2, "BadDocument", 11, 0)),
        (line(do="import", text=text), line(document=1, new=False)),
    ]
    packages = "".join(f"PackageName: p\nSPDXID: SPDXRef-{n}\n" for n in range(10_000))
    yield "10,000 packages, and one too many", [
        take(HEAD + packages),
        take(HEAD + packages + "PackageName: q\n", refused(2, "BadDocument", 12, HEAD_LINES + 20_001)),
    ]


def many_findings():
    unknown = [[HEAD_LINES + n, 1, "UnknownTag"] for n in range(1, 65_538)]
    yield "65,537 unknown tags", [take(HEAD + "x: y\n" * 65_537), findings(unknown)]
    packages = "".join(f"PackageName: p\nSPDXID: SPDXRef-{n}\nFilesAnalyzed: no\n" for n in range(10_000))
    of_each = [row for n in range(10_000) for row in ([HEAD_LINES + 3 * n + 1, 9, "MissingField"], [HEAD_LINES + 3 * n + 3, 10, "BadFlag"])]
    yield "10,000 packages with two findings each", [take(HEAD + packages), findings(of_each)]
    code = "PackageVerificationCode: x" + " y" * 32_768 + "\n"
    bad = "PackageLicenseConcluded: MIT AND" + " " * 65_536 + "\n"
    yield "long values with findings", [
        take(HEAD + package(concluded="NONE").replace("PackageLicenseConcluded: NONE\n", bad) + code),
        findings([[HEAD_LINES + 5, 3, "BadExpression"], [HEAD_LINES + 7, 5, "BadCode"], [HEAD_LINES + 7, 7, "CodeUnwanted"]]),
    ]


def faults_of_documents():
    """Each fault that a text can have; bytes that aren't text aren't a request."""
    start = "SPDXVersion: SPDX-2.3\n"
    missing = [
        ("SPDXVersion", HEAD.replace(start, "")),
        ("SPDXID", HEAD.replace("SPDXID: SPDXRef-DOCUMENT\n", "")),
        ("DocumentName", HEAD.replace("DocumentName: d\n", "")),
        ("DocumentNamespace", HEAD.replace("DocumentNamespace: https://example.org/d\n", "")),
    ]
    steps = [take(text, refused(2, "BadDocument", 6, 1, tag)) for tag, text in missing]
    second = HEAD_LINES + 1
    rows = [
        ("x", (2, second)),
        (": x", (2, second)),
        ("DocumentComment: <text>x", (3, second)),
        ("DocumentComment: <text>x\n\n</text> y", (4, second + 2)),
        ("PackageName: p", (6, second, "SPDXID")),
        ("FileName: ./f", (6, second, "SPDXID")),
        ("PackageName: p\nSPDXID: p", (7, second + 1)),
        ("PackageName: p\nSPDXID: SPDXRef-", (7, second + 1)),
        ("LicenseID: LicenseRef-a b", (7, second)),
        ("SnippetSPDXID: SPDXRef-s\nSnippetSPDXID: SPDXRef-s", (8, second + 1)),
        ("LicenseID: LicenseRef-1\nLicenseID: LicenseRef-1", (8, second + 1)),
        ("DocumentName: e", (9, second, "DocumentName")),
        ("PackageName: p\nSPDXID: SPDXRef-p\nSPDXID: SPDXRef-q", (9, second + 2, "SPDXID")),
        ("LicenseID: LicenseRef-1\nExtractedText: a\nExtractedText: b", (9, second + 2, "ExtractedText")),
        ("Relationship: SPDXRef-DOCUMENT DESCRIBES", (10, second)),
        ("Relationship: SPDXRef-DOCUMENT describes SPDXRef-p", (10, second)),
        ("Relationship: NONE DESCRIBES SPDXRef-p", (10, second)),
        ("Relationship: DocumentRef-:SPDXRef-p DESCRIBES NONE", (10, second)),
    ]
    steps += [take(HEAD + text + "\n", refused(2, "BadDocument", *at)) for text, at in rows]
    steps.append(take(HEAD.replace("SPDX-2.3", "SPDX-2.4"), refused(2, "BadDocument", 5, 1)))
    steps.append(('{"do":"import","text":"\\ud800"}\n', NO_REQUEST))
    yield "each fault of documents", steps


def faults_of_expressions():
    """A conclusion that isn't an expression, by each fault, or one of the two words that mean none."""
    values = ["", "MIT AND", "+", "MIT +", "(MIT", "WITH x", "(" * 65 + "MIT" + ")" * 65, "NONE", "NOASSERTION"]
    text = HEAD + "".join(package(f"SPDXRef-{n}", value) for n, value in enumerate(values))
    steps = [load(catalogue()), take(text), opened(), attached()]
    steps += [
        choose(["MIT"], refused(16, "NoConclusion", 1, f"SPDXRef-{n}"), f"SPDXRef-{n}") for n, _ in enumerate(values)
    ]
    yield "each fault of conclusions", steps


def faults_of_catalogues():
    rule = '[[rule]]\nterm = "{}"\nform = "{}"\nduties = [{}]\n'
    rows = [
        ("forms = [", (1,)),
        ("x = 1", (2, "forms", 0)),
        ("forms = []", (3, "forms", 0)),
        ('forms = ["a", "b", 3]', (3, "forms", 2)),
        ('forms = ["a"]\n[[duty]]\ncode = "c"', (2, "duty", 0)),
        ('forms = ["a"]\n[[duty]]\ncode = "c"\ntitle = ""', (3, "duty", 0)),
        ('forms = ["a"]\nrule = [1]', (3, "rule", 0)),
        ('forms = ["a"]\n' + rule.format("+", "a", ""), (4, "rule", 0)),
        ('forms = ["a"]\n' + rule.format("AND", "a", ""), (4, "rule", 0)),
        ('forms = ["a"]\n' + rule.format("A WITH", "a", ""), (4, "rule", 0)),
        ('forms = ["a"]\n' + rule.format("LicenseRef-1", "a", ""), (4, "rule", 0)),
        ('forms = ["a"]\n' + rule.format("A", "b", ""), (5, "rule", 0)),
        ('forms = ["a"]\n' + rule.format("A", "a", '"c"'), (6, "rule", 0)),
        ('forms = ["a", "a"]', (7, "forms", 1)),
        ('forms = ["a"]\n' + '[[duty]]\ncode = "c"\ntitle = "t"\n' * 2, (7, "duty", 1)),
        ('forms = ["a"]\n' + rule.format("A", "a", "") + rule.format("a", "a", ""), (7, "rule", 1)),
        ('forms = ["a"]\nduty = [{code = "c", title = "t"}]\n' + rule.format("A", "a", '"c", "c"'), (7, "rule", 0)),
        ('forms = ["a"]\ntext = [1]', (3, "text", 0)),
        ('forms = ["a"]\n[[text]]\nlicence = "A"', (2, "text", 0)),
        ('forms = ["a"]\n[[text]]\nlicence = "A+"\nbody = ""', (4, "text", 0)),
        ('forms = ["a"]\n' + '[[text]]\nlicence = "A"\nbody = ""\n' * 2, (7, "text", 1)),
    ]
    yield "each fault of catalogues", [load(text, refused(1, "BadCatalogue", *at)) for text, at in rows]


def a_thousand_duties():
    """100 packages of ten duties each."""
    codes = sorted(f"duty-{n}" for n in range(10))
    ids = sorted(f"SPDXRef-{n}" for n in range(100))
    text = HEAD + "".join(package(spdx_id) for spdx_id in reversed(ids))
    steps = [load(catalogue(codes=codes)), take(text), opened(), attached()]
    steps += [choose(["mIt"], spdx_id=spdx_id) for spdx_id in ids] + [frozen(1_000)]
    rows = [[spdx_id, code] for spdx_id in ids for code in codes]
    told = [[n, 1, spdx_id, "mit", "MIT", code, "open", "2025-03-03"] for n, (spdx_id, code) in enumerate(rows, 1)]
    steps.append(duties(told))
    steps += [(line(do="meet", duty=n, day="2025-03-04", text="t"), DONE) for n in (1, 1_000)]
    steps.append((line(do="meet", duty=1_001, day="2025-03-04", text="t"), refused(23, "UnknownDuty")))
    for row in (told[0], told[-1]):
        row[6:] = ["met", "2025-03-04"]
    steps.append(duties(told))
    steps.append((line(ask="totals", release="r"), line(rows=[[1_000, 998, 2, 0, 0]])))
    yield "a reply of a thousand duties", steps


def full(limit):
    return refused(27, "Full", limit)


def numbered(number):
    """A document with its own namespace, and its import."""
    text = HEAD.replace("org/d", f"org/d{number}")
    return take(text, line(document=number, new=True))


def limits_of_the_desk():
    """As many rows as a desk holds, and one too many."""
    text = catalogue()
    yield "4,096 revisions", [load(text, line(revision=n)) for n in range(1, 4_097)] + [load(text, full("revisions"))]
    again = numbered(7)[0], line(document=7, new=False)
    yield "4,096 documents", [numbered(n) for n in range(1, 4_097)] + [take(HEAD, full("documents")), again]
    yield "4,096 releases", [load(text)] + [opened(f"r{n}") for n in range(4_096)] + [opened("more", full("releases"))]
    steps = [load(text), opened("r"), opened("s")] + [numbered(n) for n in range(1, 66)]
    steps += [attached("r", n) for n in range(1, 65)] + [attached("r", 65, full("attached")), attached("s", 65)]
    yield "64 attached documents", steps


def a_hundred_thousand_duties():
    """100 packages of a thousand duties each, and one duty too many."""
    codes = sorted(f"duty-{n:03}" for n in range(1_000))
    ids = sorted(f"SPDXRef-{n:02}" for n in range(100))
    steps = [load(catalogue(codes=codes)), take(HEAD + "".join(map(package, ids)))]
    for release in ("r", "s"):
        steps += [opened(release), attached(release, 1)]
        steps += [choose(["MIT"], spdx_id=spdx_id, release=release) for spdx_id in ids]
    steps += [frozen(100_000), (line(do="freeze", release="s", day="2025-03-03"), full("duties"))]
    rows = ((spdx_id, code) for spdx_id in ids for code in codes)
    told = [[n, 1, spdx_id, "mit", "MIT", code, "open", "2025-03-03"] for n, (spdx_id, code) in enumerate(rows, 1)]
    steps.append(duties(told))
    steps.append((line(do="meet", duty=100_000, day="2025-03-04", text="t"), DONE))
    steps.append((line(ask="totals", release="r"), line(rows=[[100_000, 99_999, 1, 0, 0]])))
    steps.append((line(ask="totals", release="s"), line(rows=[[0, 0, 0, 0, 0]])))
    yield "100,000 duties", steps


def opened_again():
    """50 packages of a thousand duties each in a file, and what the desk replies after it is opened again."""
    codes = sorted(f"duty-{n:03}" for n in range(1_000))
    ids = sorted(f"SPDXRef-{n:02}" for n in range(50))
    steps = [load(catalogue(codes=codes)), take(HEAD + "".join(map(package, ids))), opened(), attached()]
    yield "50,000 duties in a file", steps + [choose(["MIT"], spdx_id=spdx_id) for spdx_id in ids] + [frozen(50_000)]
    rows = ((spdx_id, code) for spdx_id in ids for code in codes)
    told = [[n, 1, spdx_id, "mit", "MIT", code, "open", "2025-03-03"] for n, (spdx_id, code) in enumerate(rows, 1)]
    steps = [duties(told), (line(do="meet", duty=50_000, day="2025-03-04", text="t"), DONE)]
    yield "50,000 duties in a file that is opened again", steps
    told[-1][6:] = ["met", "2025-03-04"]
    yield "and once more", [(line(ask="totals", release="r"), line(rows=[[50_000, 49_999, 1, 0, 0]])), duties(told)]


def long_lines():
    asked = line(ask="totals", release="r").rstrip("\n")
    unknown = refused(12, "UnknownRelease")
    for size in (5 * MIB, 6 * MIB + 1, LINE_BYTES):
        yield f"a line of {size} bytes", [(asked.rjust(size) + "\n", unknown), (asked + "\n", unknown)]
    yield "a line too long", [(asked.rjust(LINE_BYTES + 1) + "\n", NO_REQUEST), (asked + "\n", unknown)]
    text = HEAD + "\n" * 4_000_000
    yield "a line of 7.6 MiB that is an import", [take(text)]
    yield "a line of 5 MiB that is no request", [("[" * (5 * MIB) + "\n", NO_REQUEST), ("x" * (5 * MIB) + "\n", NO_REQUEST)]
    yield "a member of 5 MiB too many", [(line(ask="totals", release="r", more="m" * (5 * MIB)), NO_REQUEST)]
    yield "65,536 requests", [(asked + "\n", unknown)] * 65_536


SCRIPTS = (
    sizes_of_values,
    sizes_of_terms,
    sizes_of_words,
    sizes_of_catalogues,
    lines_of_documents,
    many_findings,
    faults_of_documents,
    faults_of_expressions,
    faults_of_catalogues,
    a_thousand_duties,
    limits_of_the_desk,
    a_hundred_thousand_duties,
    long_lines,
)


def checks():
    """Words of `check`, with the line that is printed."""
    yield ["MIT"] + ["mit"] * 5_000, "minimal"
    yield ["MIT"] + ["mit"] * 4_999 + ["Zlib"], "superfluous: Zlib"
    yield ["MIT AND Zlib"] + ["MIT"] * 5_000, "not enough"
    yield ["MIT"] + ["MIT"] * 4_999 + ["("], "bad term: ("
    for word in ("(" * 40_000, "é" * 20_000, "A AND " * 6_666, "x" * 16_385):
        yield ["MIT", "MIT", word], f"bad term: {word}"
    for size in (65, 4_096, EXPRESSION_BYTES):
        yield ["X" * size, "x" * size], "minimal"
        yield ["X" * size + " " * (EXPRESSION_BYTES - size), "y", "x" * size], "superfluous: y"
    faults = [
        ("", "Empty at 0"),
        ("MIT AND ", "Unexpected at 8"),
        ("WITH", "Unexpected at 0"),
        ("MIT OR WITH x", "Unexpected at 7"),
        ("A WITH OR", "Unexpected at 7"),
        ("+", "BadToken at 0"),
        ("MIT AND +", "BadToken at 8"),
        ("MIT AND " * 1_000 + "+", "BadToken at 8000"),
        ("(" + "A AND " * 1_000 + "A", "Unclosed at 0"),
        ("(" * 65 + "A" + ")" * 65, "TooDeep at 64"),
        ("A" * (EXPRESSION_BYTES + 1), "TooLong at 0"),
        ("A" * 100_000, "TooLong at 0"),
        (" OR ".join(["A"] * 1_025), f"TooManyTerms at {5 * 1_024}"),
    ]
    for expression, told in faults:
        yield [expression, "MIT"], f"fault: {told}"


def cases(path):
    for table in SCRIPTS + (opened_again,):
        words = ["script", "--db", path] if table is opened_again else ["script"]
        for name, steps in table():
            requests, replies = "".join(step[0] for step in steps), "".join(step[1] for step in steps)
            status = 1 if '"refused":' in replies or NO_REQUEST in replies else 0
            yield name, words, requests, replies, status
    for words, told in checks():
        yield f"check {words[0]:.20} {words[-1]:.20} ..", ["check", *words], "", told + "\n", 0 if told == "minimal" else 1


def difference(stdout, wanted):
    """The first line that is another one, cut short."""
    for number, (told, line_wanted) in enumerate(zip(stdout.split("\n"), wanted.split("\n")), 1):
        if told != line_wanted:
            return f"line {number} is {told[:200]!r}, and not {line_wanted[:200]!r}"
    return f"{len(stdout)} bytes, and not {len(wanted)}"


def failure(program, words, requests, wanted, status):
    """What is wrong, if anything."""
    try:
        done = subprocess.run([program, *words], input=requests.encode(), capture_output=True, timeout=SECONDS, check=False)
    except subprocess.TimeoutExpired:
        return f"no end after {SECONDS} seconds"
    stdout = done.stdout.decode()
    if stdout != wanted:
        return difference(stdout, wanted)
    if done.returncode != status or done.stderr:
        return f"status {done.returncode}, {done.stderr[:200]!r}"
    return None


def main():
    program = os.path.abspath(sys.argv[1])
    passed, failed = 0, 0
    with tempfile.TemporaryDirectory() as room:
        for name, words, requests, wanted, status in cases(os.path.join(room, "desk.db")):
            wrong = failure(program, words, requests, wanted, status)
            if wrong is None:
                passed += 1
            else:
                failed += 1
                print(f"{name}: {wrong}")
    print(f"{passed} passed, {failed} failed")
    sys.exit(1 if failed or not passed else 0)


if __name__ == "__main__":
    main()
