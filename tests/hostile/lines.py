"""Requests in JSON from a grammar and by mutation, a session of them on one desk, in memory and in a file.

An input is a line. The lines of a session follow one another on a desk, so they are generated together; a session in a file is audited at
its end, by the program and by tests/second_judge.py."""

import json
import os
import random
import re
import sqlite3
import tempfile

import catalogue_faults
import mutations
import offices
import requests_read
import running
import second_desk
import second_judge

NAME, SIZE = "requests", 1_000
# Once in this many sessions the desk is in a file.
IN_A_FILE = 4
RELEASES = ["r1", "r2", "r3", "r-4", "R1", "bad name", "", "é", "r" * 64, "r" * 65]
FORMS = ["binary", "source", "service", "tape", ""]
PACKAGES = [f"SPDXRef-{name}" for name in ("a", "b", "c", "d", "tool", "p", "q", "m", "x")] + ["a", "", "SPDXRef-\u00e9"]
TERMS = ["MIT", "mit", "Zlib", "Apache-2.0+", "LicenseRef-own", "LicenseRef-own WITH Classpath-exception-2.0",
         "GPL-2.0-only WITH Classpath-exception-2.0", "LicenseRef-other", "MIT OR Zlib", "", "+"]
EXPRESSIONS = ["MIT", "Zlib", "MIT OR Zlib", "(MIT OR Zlib) AND Apache-2.0+", "LicenseRef-own", "NONE", "MIT AND", "(", "mit or zlib"]
DAYS = ["2025-03-03", "2025-03-04", "2025-04-01", "2024-02-29", "2025-02-29", "2025-13-01", "", "0000-01-01", "9999-12-31", "2025-3-3", "2025-03-03 "]
NOTES = ["notices.txt", "w", "", "é", "a\tb", "a\nb", "\x7f", "\0", "x" * 1_024, "x" * 1_025, "\u2028"]
DOCUMENTS = [offices.DOCUMENT, offices.SMALL_DOCUMENT, offices.PLAIN_DOCUMENT]
CATALOGUES = [offices.CATALOGUE, offices.LATER_CATALOGUE]
CHOICES = [("SPDXRef-a", ["MIT"]), ("SPDXRef-a", ["Zlib"]), ("SPDXRef-b", ["LicenseRef-own"]), ("SPDXRef-b", ["Zlib"]), ("SPDXRef-d", [TERMS[6]]),
           ("SPDXRef-c", ["MIT"]), ("SPDXRef-p", ["MIT", "zlib"]), ("SPDXRef-q", ["Zlib"]), ("SPDXRef-q", [TERMS[5]]), ("SPDXRef-m", ["MIT"])]
# What isn't JSON, or isn't JSON of a request.
OTHERS = [b"", b" ", b"\t\r", b"{}", b"[]", b"null", b"1", b'"x"', b"{", b"[" * 200, b"[" * 20_000, b'{"a":' * 3_000, b"\xff", b'{"do":"open"}',
          b'{"ask":"totals","release":"r1"}{}', b'{"ask":"totals","release":"r1",}', b'{"ask":"totals","release":NaN}', b'{"ask":"changes","duty":-0}',
          b'{"ask":"changes","duty":1.0}', b'{"ask":"changes","duty":1e0}', b'{"ask":"changes","duty":01}', b'{"ask":"changes","duty":18446744073709551617}',
          b'{"ask":"changes","duty":1,"duty":2}', b'{"ask":"totals","ask":"changes","duty":1}', b'{"do":"close","ask":"totals","release":"r1"}',
          b'{"do":"open","release":"\\ud800","form":"binary"}', b'{"do":"open","release":"\\u0072\\u0039","form":"b\\u0069nary"}', b'\xef\xbb\xbf{"ask":"changes","duty":1}']


def mostly(turn, values, first=3):
    return turn.choice(values[:first] if turn.random() < 0.9 else values)


def number(turn, most):
    return turn.randint(1, most) if turn.random() < 0.95 else turn.choice([0, most + 1, 2**31, 2**32 + 1, 2**63 - 1, 2**63, -1, 10**30])


def values(turn):
    """A value for each key."""
    package, terms = turn.choice(CHOICES)
    is_known = turn.random() < 0.7
    return {
        "release": lambda: mostly(turn, RELEASES), "form": lambda: mostly(turn, FORMS, 2), "document": lambda: number(turn, 3),
        "package": lambda: package if is_known else turn.choice(PACKAGES), "duty": lambda: number(turn, 24),
        "terms": lambda: terms if is_known else [turn.choice(TERMS) for _ in range(turn.randint(0, 3))],
        "expression": lambda: turn.choice(EXPRESSIONS), "day": lambda: mostly(turn, DAYS), "until": lambda: mostly(turn, DAYS),
        "profile": lambda: turn.choice([1, 1, 2, 2, 3]), "reference": lambda: mostly(turn, TERMS[4:], 1), "licence": lambda: mostly(turn, TERMS),
    }


def text_for(turn, kind):
    if kind == "catalogue":
        text = turn.choice(CATALOGUES)
    elif kind == "import":
        text = turn.choice(DOCUMENTS)
    else:
        return mostly(turn, NOTES)
    return text if turn.random() < 0.7 else mutations.changed_text(turn, text)


KINDS = [*requests_read.KEYS, "choose", "choose", "attach", "attach", "freeze", "meet", "waive", "reopen", "unchoose", "conclude"]
RARE = {"catalogue": 0.1, "import": 0.2, "withdraw": 0.15, "close": 0.4, "open": 0.4}


def grown(turn):
    """A request as an object, sometimes with a key that is missing or superfluous."""
    first = "do" if turn.random() < 0.65 else "ask"
    kind = turn.choice(KINDS if first == "do" else list(requests_read.QUESTIONS))
    if turn.random() > RARE.get(kind, 1) and first == "do":
        kind = turn.choice(["choose", "meet", "waive", "reopen"])
    keys = (requests_read.KEYS if first == "do" else requests_read.QUESTIONS)[kind].split()
    if kind in requests_read.MAY_BE_LEFT_OUT and turn.random() < 0.4:
        keys = [*keys, requests_read.MAY_BE_LEFT_OUT[kind]]
    of_key = values(turn)
    request = {first: kind, **{key: text_for(turn, kind) if key == "text" else of_key[key]() for key in keys}}
    if turn.random() < 0.02:
        del request[turn.choice(list(request))]
    if turn.random() < 0.02:
        request[turn.choice(["more", "text", "do", "day", ""])] = turn.choice([1, None, "x", [], {}, True, 1.5])
    return request


def line_of(turn, request):
    keys = list(request)
    turn.shuffle(keys)
    blanks = turn.choice([(",", ":"), (",", ":"), (", ", ": "), (" ,\t", " :  ")])
    text = json.dumps({key: request[key] for key in keys}, separators=blanks, ensure_ascii=turn.random() < 0.3)
    return text.encode("utf-8", "surrogatepass")


def is_sure(request):
    """A catalogue that two readers of TOML may read differently isn't sure: the second desk would no longer agree."""
    is_catalogue = isinstance(request, dict) and request.get("do") == "catalogue"
    return not is_catalogue or catalogue_faults.is_sure(request["text"])


def one(turn):
    kind = turn.random()
    if kind < 0.03:
        line = turn.choice(OTHERS)
    else:
        line = line_of(turn, grown(turn))
        if kind < 0.25:
            line = mutations.changed(turn, line)
    line = line.replace(b"\n", b" ")
    if not is_sure(requests_read.request_of(line)):
        return b"\n"
    return line + turn.choice([b"\n", b"\n", b"\n", b"\r\n"])


def office():
    """What each session begins with: documents, a release that is frozen, one that is open, and duties."""
    return [line for line in offices.whole_office().replace('"first"', '"r1"').replace('"gone"', '"r2"').replace('"held"', '"r3"').encode().splitlines(keepends=True)]


def inputs(seed, start):
    """The lines of a session."""
    turn = random.Random(f"{seed} {NAME} {start // SIZE}")
    begun = office() if turn.random() < 0.8 else office()[:5]
    return [*begun, *(one(turn) for _ in range(SIZE - len(begun)))]


def session_of(batch):
    """Whether a session is in a file depends on its lines, so that it can be repeated."""
    return sum(map(len, batch)) % IN_A_FILE == 0


def is_deep(line):
    """Nested objects, of which the two readers of JSON may accept different depths."""
    depth = deepest = 0
    for byte in re.sub(rb'"([^"\\]|\\.)*"', b"", line):
        depth += (byte in b"[{") - (byte in b"]}")
        deepest = max(depth, deepest)
    return deepest > 100


def asked(batch):
    desk = second_desk.SecondDesk()
    for place, line in enumerate(batch):
        wanted = second_desk.shown({"fault": "command"}) if is_deep(line) and not requests_read.is_blank(line) else desk.reply(line)
        if wanted is not None:
            yield wanted, place


def told(done, batch, wanted, places):
    if running.unlike(done, {0, 1}):
        yield 0, running.unlike(done, {0, 1})
    for at, words in running.compared(wanted, running.lines(done.out), wanted):
        yield places[at], f"{batch[places[at]]!r:.3000} is replied {words}"


def of_a_file(program, batch, wanted, places):
    """The same over a file, whose tables two judges must find sound afterwards."""
    with tempfile.TemporaryDirectory(dir=running.ROOM) as room:
        path = os.path.join(room, "desk.db")
        yield from told(program.run("script", "--db", path, text=b"".join(batch)), batch, wanted, places)
        done = program.run("audit", "--db", path, size=os.path.getsize(path))
        if (done.status, done.out, done.err) != (0, b"sound\n", b""):
            yield 0, f"audit: {done!r}"
        connection = sqlite3.connect(path)
        judged = second_judge.judged(second_judge.snapshot_of(connection))
        connection.close()
        if judged != "sound":
            yield 0, f"the second judge: {judged}"


def differences(program, batch):
    wanted, places = zip(*asked(batch))
    if session_of(batch):
        yield from of_a_file(program, batch, wanted, places)
    else:
        yield from told(program.run("script", text=b"".join(batch)), batch, wanted, places)


def shown(one):
    return repr(one)
