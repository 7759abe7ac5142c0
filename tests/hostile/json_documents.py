"""Documents in JSON from a grammar and by mutation: each is converted, and some are imported by `desk import`, and compared with the second
reader in `json_read.py`. Changes are made to members and items, to texts as they are written, and to bytes."""

import collections
import glob
import json
import os
import random

import bom_read
import documents
import json_read
import mutations
import running

NAME, SIZE = "conversions", 100
# The outcomes that must occur among this many documents, and how often they did.
MEETS, MET = {"converted", "NotJson", "Missing", "BadType", "BadValue", "Differs"}, collections.Counter()
# After this many inputs `desk import` gets the file too.
ASKED = 10
# The options with which each document is converted, and whether idle files are then left out.
WAYS = [((), False), (("--no-files",), True)]
TOOLS = sorted(glob.glob(os.path.join(running.TESTS, "convert/*.json")))
# Those in CycloneDX form, of which there are more changed ones.
BOMS = sorted(glob.glob(os.path.join(running.TESTS, "convert/pairs/*.cdx.json"))) + [os.path.join(running.TESTS, "convert/cyclonedx.json")] * 4
# What can't be in a line, or can only just, or isn't what its member has.
TEXTS = ["", " ", " a", "a\t", "a\nb", "a\r", "\r\n", "\0", "\x1f", "\x7f", "\u2028", "\ufeff", "\U0001f600", "é", "<text>", "<text>x</text>", "x</text>",
         "</text", "NONE", "NOASSERTION", "a b", "a\tb", "a,b", "#", ":", "SPDXRef-a b", "SPDXRef-\u00e9", "null", "\\", '"', "/", "x" * 5_000]
CODES = ["d6a770ba38583ed4bb4525bd96e50461655d2758", "D6A7", "da39a3ee5e6b4b0d3255bfef95601890afd80709"]
LICENCES = [value for value in documents.CONCLUSIONS if value.strip()]
ANNOTATION = [("annotationDate", "2010-01-29T18:30:22Z"), ("annotationType", "OTHER"), ("annotator", "Person: J"), ("comment", "c")]
# Values of other types, including numbers at the limits of what can be read, and what isn't JSON.
NUMBERS = ["0", "-0", "1", "1.5", "1e3", "-9223372036854775808", "18446744073709551616", "1" * 400, "1e308", "1.7976931348623158e308", "1e309", "-1e999", "1e-999"]
WORDS = ["01", "1.", ".5", "+1", "1e", "NaN", "-Infinity", "True", "nul", "'a'", "undefined", "", ",", "0x1", '"\t"', '"\\x"', '"\\u12"', '"\\ud800"', '"\\udc00\\ud800"',
         '"\\ud800x"', '"a', "//", "/**/1"]
BLANKS = ["", "", "", " ", "\n", "\t", "\r\n", "  "]


class Members(list):
    """The members of an object as pairs, of which two may have one key."""


class Raw(str):
    """What is written as it is."""


class Within:
    """A value with brackets before it and after it."""

    def __init__(self, value, brackets):
        self.value, self.before, self.behind = value, "".join(a for a, _ in brackets), "".join(b for _, b in reversed(brackets))


# ---- by grammar


def text(turn, usual, others=TEXTS, share=0.03):
    return turn.choice(others if turn.random() < share else usual)


def element(turn):
    return text(turn, ["SPDXRef-p0", "SPDXRef-p1", "SPDXRef-p2", "SPDXRef-f0", "SPDXRef-f1", "SPDXRef-s0", "SPDXRef-DOCUMENT", "NONE", "DocumentRef-d:SPDXRef-p0"])


def licence(turn):
    return text(turn, LICENCES)


def annotations(turn):
    return [Members(ANNOTATION) for _ in range(turn.randint(0, 2))]


def checksums(turn):
    kinds = ["SHA1", "SHA1", "MD5", "SHA256"]
    return [Members([("algorithm", text(turn, kinds)), ("checksumValue", text(turn, ["0a" * 20, "12", "da39a3ee"]))]) for _ in range(turn.randint(0, 2))]


def code(turn):
    members = Members([("packageVerificationCodeValue", text(turn, CODES))])
    if turn.random() < 0.4:
        members.append(("packageVerificationCodeExcludedFiles", [text(turn, ["./a.spdx", "./b c", "c"]) for _ in range(turn.randint(0, 3))]))
    return members


def relationship(turn):
    return Members([("spdxElementId", element(turn)), ("relationshipType", text(turn, documents.TYPES)), ("relatedSpdxElement", element(turn))])


def some(of):
    return lambda turn: [of(turn) for _ in range(turn.randint(0, 3))]


def words(*usual):
    return lambda turn: text(turn, usual)


OPTIONAL = {
    "package": {
        "versionInfo": words("1.0", "2"), "downloadLocation": words("NOASSERTION", "https://example.org/"), "licenseConcluded": licence,
        "filesAnalyzed": lambda turn: turn.choice([True, False, False]), "packageVerificationCode": code, "licenseDeclared": licence,
        "copyrightText": words("NONE", "NOASSERTION", "(c) a\nb", "x"), "externalRefs": some(lambda turn: Members(ANNOTATION)),
        "annotations": annotations, "hasFiles": some(element), "supplier": words("Person: x"), "homepage": words("NONE"), "comment": words("c"),
    },
    "file": {
        "checksums": checksums, "licenseConcluded": licence, "licenseInfoInFiles": some(licence), "copyrightText": words("NONE", "(c) x\ny"),
        "annotations": annotations, "fileTypes": some(words("TEXT")), "comment": words("c"),
    },
    "snippet": {"annotations": annotations, "snippetFromFile": element, "ranges": some(lambda turn: Members(ANNOTATION)), "name": words("s")},
    "extracted": {"extractedText": words("a\nb", "", "x"), "name": words("n"), "seeAlsos": some(words("u")), "comment": words("c")},
    "creation": {"created": words("2025-01-01T00:00:00Z"), "creators": some(words("Tool: x", "Person: y ()")), "comment": words("c"), "licenseListVersion": words("3.17")},
    "document": {
        "dataLicense": words("CC0-1.0"), "documentDescribes": some(element), "relationships": some(relationship), "annotations": annotations,
        "externalDocumentRefs": some(lambda turn: Members(ANNOTATION)), "comment": words("c"),
    },
}
PARTS = {"packages": "package", "files": "file", "snippets": "snippet", "hasExtractedLicensingInfos": "extracted"}
NAMED = {
    "package": lambda n: [("name", f"p{n}"), ("SPDXID", f"SPDXRef-p{n}")], "file": lambda n: [("fileName", f"./f{n}"), ("SPDXID", f"SPDXRef-f{n}")],
    "snippet": lambda n: [("SPDXID", f"SPDXRef-s{n}")], "extracted": lambda n: [("licenseId", f"LicenseRef-{n}")], "creation": lambda n: [],
    "document": lambda n: [("spdxVersion", f"SPDX-2.{2 + n % 2}"), ("SPDXID", "SPDXRef-DOCUMENT"), ("name", "d"), ("documentNamespace", f"https://example.org/{n}")],
}


def grown(turn, kind, number):
    """An object of a kind with what it must have, and some of what it may have."""
    members = [*NAMED[kind](number), *((key, of(turn)) for key, of in OPTIONAL[kind].items() if turn.random() < 0.45)]
    if kind == "document":
        members.append(("creationInfo", grown(turn, "creation", number)))
        members += [(key, [grown(turn, part, n) for n in range(turn.randint(0, 3))]) for key, part in PARTS.items() if turn.random() < 0.8]
    if turn.random() < 0.5:
        turn.shuffle(members)
    return Members(members)


def of_tool(turn, paths=TOOLS):
    """What a tool wrote."""
    with open(turn.choice(paths), encoding="utf-8") as file:
        return json.load(file, object_pairs_hook=Members)


# ---- changes of values


def places(value):
    """Each object and list in a value, with each place in it."""
    found, waiting = [], [value]
    while waiting:
        holder = waiting.pop()
        for at, part in enumerate(holder):
            found.append((holder, at))
            inner = part[1] if isinstance(holder, Members) else part
            waiting += [inner] if isinstance(inner, list) else []
    return found


def value_at(holder, at):
    return holder[at][1] if isinstance(holder, Members) else holder[at]


def put_at(holder, at, value):
    holder[at] = (holder[at][0], value) if isinstance(holder, Members) else value


def other_value(turn, value):
    """A value of any type."""
    kind = turn.randrange(8)
    if kind < 3:
        return [None, True, Members()][kind]
    return [[], [value], Members([("name", value)]), Raw(turn.choice(NUMBERS)), turn.choice(TEXTS)][kind - 3]


def within(turn, value):
    """A value deep in lists and objects, about as deep as one may be."""
    depth = turn.choice([1, 2, 120, 123, 124, 125, 126, 127, 128, 300])
    return Within(value, [turn.choice([("[", "]"), ('{"comment":', "}"), ('[0, {"":', "}]")]) for _ in range(depth)])


def written_otherwise(turn, value):
    """A value in the place of one that isn't JSON, or only just."""
    return Raw(turn.choice(WORDS if turn.random() < 0.7 else NUMBERS))


def longer(turn, value):
    return value[:1_000] * turn.choice([2, 30, 1_000]) if isinstance(value, str) else other_value(turn, value)


VALUES = [other_value, other_value, other_value, within, written_otherwise, longer, lambda turn, value: turn.choice(TEXTS), lambda turn, value: turn.choice(TEXTS)]
KEYS = sorted({name.rstrip("!") for rows in json_read.MEMBERS.values() for name, _, _ in rows} | {name for rows in bom_read.MEMBERS.values() for name, _ in rows}
              | set().union(*json_read.ELSEWHERE.values(), *bom_read.ELSEWHERE.values()) | {"sbom", "", "x", "encoding", "content", "license", "timestamp"})


def renamed(turn, key):
    return turn.choice([key + "s", key.swapcase(), key[1:], turn.choice(KEYS), turn.choice(KEYS), key + "\0"])


def damaged(turn, value):
    """A change at one place, if there is one."""
    found = places(value)
    if not found:
        return
    holder, at = turn.choice(found)
    kind = turn.random()
    if kind < 0.2:
        del holder[at]
    elif kind < 0.35:
        # (a member again, with the same value or another one, before or after it)
        again = holder[at]
        holder.insert(turn.randint(0, len(holder)), again)
        if turn.random() < 0.6:
            put_at(holder, turn.randrange(len(holder)), turn.choice(VALUES)(turn, value_at(holder, at)))
    elif kind < 0.45 and isinstance(holder, Members):
        holder[at] = (renamed(turn, holder[at][0]), holder[at][1])
    elif kind < 0.5:
        other, there = turn.choice(found)
        if there < len(other):
            put_at(holder, at, json_copy(value_at(other, there)))
    else:
        put_at(holder, at, turn.choice(VALUES)(turn, value_at(holder, at)))


def json_copy(value):
    """A copy of a value, so that none is within itself."""
    if isinstance(value, Members):
        return Members((key, json_copy(one)) for key, one in value)
    return [json_copy(one) for one in value] if isinstance(value, list) else value


# ---- as text


def escaped(turn, value):
    """A text as it is written, some of its letters by their numbers."""
    whole = json.dumps(value, ensure_ascii=turn.random() < 0.5)
    if turn.random() < 0.85:
        return whole
    return '"' + "".join(f"\\u{ord(letter):04X}" if ord(letter) < 0x10000 and turn.random() < 0.3 else json.dumps(letter)[1:-1] for letter in value) + '"'


def written(turn, value, blank):
    if isinstance(value, Raw):
        return str(value)
    if isinstance(value, Within):
        return value.before + written(turn, value.value, blank) + value.behind
    if isinstance(value, str):
        return escaped(turn, value)
    if isinstance(value, Members):
        return "{" + f",{blank}".join(f"{escaped(turn, key)}{blank}:{written(turn, one, blank)}" for key, one in value) + blank + "}"
    if isinstance(value, list):
        return f"[{blank}" + f"{blank},".join(written(turn, one, blank) for one in value) + "]"
    return json.dumps(value)


def one(seed, number):
    """A document, and a profile."""
    turn = random.Random(f"{seed} {NAME} {number}")
    kind = turn.random()
    value = grown(turn, "document", number) if kind < 0.65 else of_tool(turn, TOOLS if kind < 0.75 else BOMS)
    for _ in range(turn.choice([0, 1, 1, 1, 2, 4])):
        damaged(turn, value)
    if turn.random() < 0.08:
        value = Members([("sbom", value), *([("spdxVersion", "SPDX-2.3")] if turn.random() < 0.2 else [])])
    data = written(turn, value, turn.choice(BLANKS)).encode("utf-8", "surrogatepass")
    kind = turn.random()
    if kind < 0.15:
        data = mutations.changed(turn, data)
    elif kind < 0.2:
        data = turn.choice([b"\xef\xbb\xbf", b"\xef\xbb\xbf" * 2, b"\xff\xfe", b" \n", b"\0"]) + data
    return data, turn.choice([1, 2])


def inputs(seed, start):
    return (one(seed, number) for number in range(start, start + SIZE))


def differences(program, batch):
    for place, (data, profile) in enumerate(batch):
        for options, brief in WAYS:
            wanted = json_read.converted(data, brief)
            done = program.run("convert", *options, "/dev/stdin", text=data)
            MET[done.out.split()[1].decode() if done.out.startswith(b"fault: ") else "converted"] += 1
            if (done.out, done.status, done.err) != wanted:
                yield place, f"{data!r:.3000} {options}: {done!r}, and not {wanted!r:.600}"
        if place % ASKED == 0:
            words = documents.from_a_file(program, data, profile)
            if words:
                yield place, f"{data!r:.3000}: {words}"


def shown(one):
    return f"{one[0]!r} by profile {one[1]}, which the second reader converts to {json_read.converted(one[0])!r}"
