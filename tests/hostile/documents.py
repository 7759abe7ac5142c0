"""Documents from a grammar and by mutation: each is imported, and asked what it ships and what its findings are."""

import collections
import hashlib
import json
import os
import random
import tempfile

import json_read
import mutations
import oracle
import running
import second_desk
import second_judge
import second_lists

NAME, SIZE = "documents", 200
# The kinds of findings that must occur among this many documents, and how often they did.
MEETS, MET = set(second_lists.NAMES.values()), collections.Counter()
# After this many inputs `desk import` gets the file too, including bytes that aren't text.
ASKED = 50
# So many findings are listed with their places.
LISTED = 20
HERE = os.path.join(running.TESTS, "documents")
CONCLUSIONS = ["MIT", "MIT OR Zlib", "mit or Zlib", "LicenseRef-1", "LicenseRef-2 AND MIT", "NONE", "NOASSERTION", "MIT AND", "(MIT)", "DocumentRef-d:LicenseRef-1", " ", "a WITH b"]
TYPES = ["DESCRIBES", "CONTAINS", "DEPENDS_ON", "STATIC_LINK", "DYNAMIC_LINK", "DESCRIBED_BY", "CONTAINED_BY", "DEPENDENCY_OF",
         "RUNTIME_DEPENDENCY_OF", "DEV_DEPENDENCY_OF", "OTHER", "describes", "DEPENDS-ON"]
TAGS = ["PackageVersion", "PackageDownloadLocation", "FilesAnalyzed", "PackageVerificationCode", "PackageLicenseDeclared", "PackageCopyrightText",
        "FileChecksum", "LicenseConcluded", "LicenseInfoInFile", "FileCopyrightText", "ExtractedText", "Creator", "PackageComment", "PackageComent", "SPDXVersion"]
VALUES = ["true", "false", "no", "1.0", "SHA1: " + "0a" * 20, "SHA1: 12", "SHA256: 00", "da39a3ee5e6b4b0d3255bfef95601890afd80709", "NOASSERTION",
          "<text>one\ntwo</text>", "<text></text>", "<text>x", "<text>x</text> y", "MIT", "https://example.org/", ""]


# Codes of no file and of one, a wrong one, and texts that aren't codes; and whether files were analysed.
CODE_OF_ONE = hashlib.sha1(b"0a" * 20).hexdigest()
CODES = ["da39a3ee5e6b4b0d3255bfef95601890afd80709", CODE_OF_ONE, CODE_OF_ONE.upper(), CODE_OF_ONE[:-1] + "x", CODE_OF_ONE[:-1], CODE_OF_ONE + "(",
         "SHA1: " + CODE_OF_ONE, *(f"{CODE_OF_ONE}{names}" for names in (" (excludes: ./f0, f1)", "(f2)", "()", "\t(excludes:f0)", " f0", " (f0) "))]
FLAGS = ["true", "false", "False", "TRUE", "no", "yes", "<text>false\n</text>"]


def fixtures():
    for name in ("build.spdx", "scanner.spdx", "whole.spdx"):
        with open(os.path.join(HERE, name), "rb") as file:
            yield file.read()


FIXTURES = list(fixtures())


def element(turn):
    return turn.choice(["SPDXRef-DOCUMENT", "SPDXRef-p0", "SPDXRef-p1", "SPDXRef-p2", "SPDXRef-f0", "SPDXRef-s0", "SPDXRef-x", "DocumentRef-d:SPDXRef-p0", "NONE"])


def part(turn, number):
    """An element, or a field or two."""
    kind = turn.random()
    if kind < 0.4:
        lines = [f"PackageName: p{number}", f"SPDXID: SPDXRef-p{number}", f"PackageLicenseConcluded: {turn.choice(CONCLUSIONS)}"]
    elif kind < 0.55:
        digest = turn.choice(VALUES if turn.random() < 0.5 else VALUES[4:5])
        lines = [f"FileName: ./f{number}", f"SPDXID: SPDXRef-f{number}", f"FileChecksum: {digest}"]
    elif kind < 0.6:
        lines = [f"SnippetSPDXID: SPDXRef-s{number}"]
    elif kind < 0.7:
        lines = [f"LicenseID: LicenseRef-{number}", "ExtractedText: <text>a\nb</text>"]
    else:
        lines = [f"Relationship: {element(turn)} {turn.choice(TYPES)} {element(turn)}"]
    if turn.random() < 0.3:
        lines.insert(turn.randint(1, len(lines)), f"{turn.choice(TAGS)}: {turn.choice(VALUES)}")
    if lines[0].startswith("PackageName") and turn.random() < 0.3:
        lines += [f"FilesAnalyzed: {turn.choice(FLAGS)}", f"PackageVerificationCode: {turn.choice(CODES)}"][turn.choice([0, 0, 1]) :]
    return lines


def grown(turn, number):
    """A document from the grammar, mostly with everything that it must have."""
    lines = [f"SPDXVersion: SPDX-2.{turn.choice('1233334')}", "DataLicense: CC0-1.0", "SPDXID: SPDXRef-DOCUMENT", "DocumentName: d",
             f"DocumentNamespace: https://example.org/{number}", "Creator: Tool: x", "Created: 2025-01-01T00:00:00Z"]
    if turn.random() < 0.2:
        del lines[turn.randrange(len(lines))]
    for place in range(turn.randint(0, 6)):
        lines += part(turn, place % 4)
    end = turn.choice(["\n", "\n", "\n", "\r\n"])
    text = end.join(lines) + turn.choice([end, end, ""])
    return ("\ufeff" + text if turn.random() < 0.02 else text).encode()


def of_fixture(turn, number):
    data = turn.choice(FIXTURES)
    return data.replace(b"DocumentNamespace: ", b"DocumentNamespace: https://example.org/%d/" % number, 1)


def one(seed, number):
    """A document, a profile, and whether it comes again."""
    turn = random.Random(f"{seed} {NAME} {number}")
    kind = turn.random()
    data = grown(turn, number) if kind < 0.85 else of_fixture(turn, number)
    if kind < 0.3 or kind >= 0.85:
        data = mutations.changed(turn, data)
    return data, turn.choice([1, 2])


def inputs(seed, start):
    return (one(seed, number) for number in range(start, start + SIZE))


def text_of(data):
    try:
        return data.decode()
    except UnicodeDecodeError:
        return None


def line_of(request):
    return json.dumps(request, separators=(",", ":"), ensure_ascii=False).encode() + b"\n"


def raw_import(data):
    """The import of bytes that aren't text, which isn't a request."""
    escaped = data.replace(b"\\", b"\\\\").replace(b'"', b'\\"')
    return b'{"do":"import","text":"%b"}\n' % bytes(byte for byte in escaped if byte >= 32)


def first_requests():
    return [{"do": "catalogue", "text": 'forms = ["binary"]'}]


def behind(desk, place, told):
    """The questions after an import of a document."""
    found = json.loads(told).get("document")
    if found is None:
        return []
    return [
        {"ask": "findings", "document": found},
        {"do": "open", "release": f"r{place}", "form": "binary"},
        {"do": "attach", "release": f"r{place}", "document": found},
        {"ask": "release", "release": f"r{place}"},
    ]


def asked(batch):
    """Each line with what is wanted and its place."""
    desk = second_desk.SecondDesk()
    for request in first_requests():
        yield line_of(request), desk.answer(request), 0
    for place, (data, profile) in enumerate(batch):
        text = text_of(data)
        if text is None:
            yield raw_import(data), second_desk.shown({"fault": "command"}), place
            continue
        request = {"do": "import", "text": text, "profile": profile}
        told = desk.answer(request)
        yield line_of(request), told, place
        for request in behind(desk, place, told):
            yield line_of(request), desk.answer(request), place


def is_licence(text, profile):
    return text.strip(" \t") not in ("", "NONE", "NOASSERTION") and second_judge.tree_of(text.encode(), profile) is not None


def elsewhere(document):
    """The elements of other documents that a relationship ships with the document or with a package that ships."""
    shipped, found = {second_judge.DOCUMENT, *document.shipped()}, set()
    for left, kind, right in second_judge.sections_of(oracle.fields(document.data.decode()))[1]:
        near, far = (left, right) if kind in second_judge.FORWARD else (right, left)
        if kind in second_judge.FORWARD | second_judge.BACKWARD and near in shipped and far.startswith("DocumentRef-"):
            found.add(far)
    return found


def told_places(rows, places):
    """Where the findings of a document in JSON are in its file."""
    lines = [f"{name} at {places[line - 1]}\n" for line, _, name in rows[:LISTED]]
    return "".join(lines) + (f"and {len(rows) - LISTED} more\n" if len(rows) > LISTED else "")


def told_beside(document, profile, places):
    """What `desk import` writes to standard error about a document that it imported."""
    packages = [fields for kind, _, fields in second_lists.Sections(document.data, profile).parts if kind == "package"]
    count, without, declared = 0, 0, 0
    for fields in packages:
        first = {tag: value for _, tag, value in reversed(fields)}
        if first["SPDXID"] in document.shipped():
            count += 1
            if not is_licence(first.get("PackageLicenseConcluded", ""), profile):
                without += 1
                declared += is_licence(first.get("PackageLicenseDeclared", ""), profile)
    rows = second_lists.findings(document.data, profile)
    kinds = collections.Counter((row[1], row[2]) for row in rows)
    found = "".join(f", {name}: {kinds[number, name]}" for number, name in sorted(kinds))
    told = f"packages: {len(packages)}, shipped: {count}, without a conclusion: {without}, of these with a declared licence: {declared}"
    others = len(elsewhere(document))
    if others:
        told += f"\nelements of other documents that ship: {others} (import those documents too)"
    listed = told_places(rows, places) if places else ""
    return f"read by profile {profile}: {told}\nfindings: {len(rows)}{found}\n{listed}".encode()


def from_a_file(program, data, profile):
    """What `desk import` says about a file, and that its desk is sound afterwards."""
    desk = second_desk.SecondDesk()
    text, beside, places = json_read.taken(data)
    wanted = desk.answer({"do": "import", "text": text, "profile": profile}) + b"\n"
    beside += told_beside(desk.documents[0], profile, places) if desk.documents else b""
    with tempfile.TemporaryDirectory(dir=running.ROOM) as room:
        file, path = os.path.join(room, "document"), os.path.join(room, "desk.db")
        with open(file, "wb") as out:
            out.write(data)
        done = program.run("import", "--db", path, "--profile", str(profile), file, size=len(data))
        if (done.status, done.out, done.err) != (int(b"refused" in wanted), wanted, beside):
            return f"import: {done!r}, and not {wanted!r}, {beside!r}"
        done = program.run("audit", "--db", path, size=len(data))
        return None if (done.status, done.out) == (0, b"sound\n") else f"audit: {done!r}"


def count_findings(lines, replies):
    for line, reply in zip(lines, replies):
        if b'"ask":"findings"' in line and reply.startswith(b'{"rows"'):
            MET.update(name for _, _, name in json.loads(reply)["rows"])


def differences(program, batch):
    lines, wanted, places = zip(*asked(batch))
    done = program.run("script", text=b"".join(lines))
    count_findings(lines, running.lines(done.out))
    if running.unlike(done, {0, 1}):
        yield 0, running.unlike(done, {0, 1})
    for at, words in running.compared(lines, running.lines(done.out), wanted):
        yield places[at], f"{lines[at]!r:.3000} is replied {words}"
    for place in range(0, len(batch), ASKED):
        words = from_a_file(program, *batch[place])
        if words:
            yield place, words


def shown(one):
    return f"{one[0]!r} by profile {one[1]}, which the reader of tests/documents calls {oracle.answer(one[0])}"
