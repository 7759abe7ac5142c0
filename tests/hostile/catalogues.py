"""Catalogues from a grammar and by mutation: each is loaded, and the cheapest choices of a package show what its rules owe."""

import json
import os
import random
import tempfile

import catalogue_faults
import mutations
import offices
import running
import second_desk

NAME, SIZE = "catalogues", 400
# After this many inputs `desk catalogue` gets the file too, including bytes that aren't text.
ASKED = 100
TERMS = ["MIT", "mit", "Zlib", "Apache-2.0+", "GPL-2.0 WITH x", "LicenseRef-1", "MIT OR Zlib", "a b", "", " MIT ", "a" * 70]
FORMS = ["binary", "source", "a-b.c", "Binary", "with blank", "", "f" * 64, "f" * 65]
CODES = ["include-text", "give-notice", "x.y", "X.Y", "bad code", "", "c" * 64, "c" * 65]
TITLES = ["Ship the text", "é" * 128, "t" * 256, "t" * 257, "", "a\tb", "a\nb", "\x7f"]
PACKAGE = {"document": 1, "package": "SPDXRef-m"}
EXPRESSION = "MIT OR Zlib AND Apache-2.0+ OR GPL-2.0 WITH x OR LicenseRef-1"


def mostly(turn, values):
    """One of the first few values nine times out of ten, otherwise any."""
    return turn.choice(values[:3] if turn.random() < 0.9 else values)


def string(turn, text):
    """A string of TOML for a text, in one of its forms."""
    form = turn.random()
    plain = not any(letter in text for letter in "'\n\x7f\t")
    if form < 0.15 and plain:
        return f"'{text}'"
    if form < 0.2 and plain:
        return f"'''{text}'''"
    if form < 0.25:
        return '"""\n' + json.dumps(text, ensure_ascii=False)[1:-1].replace("\x7f", "\\u007f") + '"""'
    if form < 0.35 and text:
        return '"' + "".join(f"\\u{ord(letter):04x}" for letter in text) + '"'
    return json.dumps(text, ensure_ascii=False).replace("\x7f", "\\u007f")


def value(turn, text):
    """Mostly a string, otherwise another kind of value."""
    if turn.random() < 0.97:
        return string(turn, text)
    return turn.choice(["1", "true", "[]", "[1, 2]", "1.5", "{a = 1}", "2025-01-01", "0x1F", "inf", "+1", "1_0"])


def listed(turn, texts):
    inside = turn.choice([", ", ",", " ,\n  ", ", # c\n"]).join(value(turn, text) for text in texts)
    return f"[{inside}{turn.choice(['', '', ',']) if texts else ''}]"


def table(turn, part, rows):
    """A table of a part, in which a key may be missing or appear twice."""
    rows = list(rows)
    turn.shuffle(rows)
    if turn.random() < 0.04:
        rows = rows[1:]
    if turn.random() < 0.03:
        rows.append(turn.choice([("more", "1"), *rows]) if rows else ("more", "1"))
    head = f"[[{part}]]" if turn.random() < 0.98 else turn.choice([f"[{part}]", f"[[ {part} ]]", f"[[{part}.x]]", f'[["{part}"]]'])
    return f"{head}\n" + "".join(f"{key} = {text}\n" for key, text in rows)


def grown(turn):
    forms = [mostly(turn, FORMS) for _ in range(turn.choice([1, 1, 2, 2, 3, 17]))] if turn.random() < 0.2 else FORMS[: turn.randint(1, 3)]
    codes = [mostly(turn, CODES) for _ in range(turn.randint(0, 3))] if turn.random() < 0.2 else CODES[: turn.randint(0, 3)]
    parts = [table(turn, "duty", [("code", value(turn, code)), ("title", value(turn, mostly(turn, TITLES)))]) for code in codes]
    for _ in range(turn.randint(0, 5)):
        term, form = turn.choice(TERMS[:5] if turn.random() < 0.9 else TERMS), mostly(turn, forms)
        duties = [code for code in codes if turn.random() < 0.5] + ([mostly(turn, CODES)] if turn.random() < 0.05 else [])
        parts.append(table(turn, "rule", [("term", value(turn, term)), ("form", value(turn, form)), ("duties", listed(turn, duties))]))
    for _ in range(turn.choice([0, 0, 1, 2])):
        parts.append(table(turn, "text", [("licence", value(turn, turn.choice(TERMS))), ("body", value(turn, "text\nof it"))]))
    if turn.random() < 0.1:
        turn.shuffle(parts)
    head = f"forms = {listed(turn, forms)}\n" if turn.random() < 0.98 else "form = []\n"
    return (turn.choice(["", "# c\n", "\n", "\ufeff"]) if turn.random() < 0.1 else "") + head + "".join(parts)


def one(seed, number):
    turn = random.Random(f"{seed} {NAME} {number}")
    text = grown(turn) if turn.random() < 0.85 else offices.CATALOGUE
    data = text.encode()
    if turn.random() < 0.4:
        data = mutations.changed(turn, data)
    return data.replace(b"\n", b"\r\n") if turn.random() < 0.03 else data


def inputs(seed, start):
    return (one(seed, number) for number in range(start, start + SIZE))


def text_of(data):
    return data.decode(errors="replace")


def line_of(request):
    return json.dumps(request, separators=(",", ":"), ensure_ascii=False).encode() + b"\n"


def first_requests():
    document = offices.PLAIN_DOCUMENT.replace("Concluded: MIT", "Concluded: " + EXPRESSION)
    yield {"do": "import", "text": document}
    yield {"do": "adopt", "document": 1, "reference": "LicenseRef-1", "licence": "Zlib"}


def of_any_catalogue(revision):
    """A judge of replies if the two readers of TOML may differ: a revision, or a refusal. Later revisions then have other numbers."""
    def judge(reply):
        told = json.loads(reply)
        if told == {"revision": revision}:
            return None
        is_refusal = told.get("name") == "BadCatalogue" and told.get("refused") == 1 and 1 <= told["at"][0] <= 8
        return None if is_refusal else "neither a revision nor a refusal"
    return judge


def steps(desk, text):
    """The requests for a catalogue, each with what is wanted."""
    request = {"do": "catalogue", "text": text}
    told = desk.answer(request)
    yield request, told
    if b"revision" in told:
        for form in desk.forms():
            question = {"ask": "cheapest", **PACKAGE, "form": form}
            yield question, desk.answer(question)


def asked(batch):
    """Each line with what is wanted and its place. Catalogues of which the readers may differ are left to `unsure`."""
    desk = second_desk.SecondDesk()
    for request in first_requests():
        yield line_of(request), desk.answer(request), 0
    for place, data in enumerate(batch):
        text = text_of(data)
        if catalogue_faults.is_sure(text):
            for request, wanted in steps(desk, text):
                yield line_of(request), wanted, place


def unsure(program, batch):
    """Those that TOML 1.0 and 1.1 may read differently: each is a revision or a refusal, and nothing else is checked."""
    places = [place for place, data in enumerate(batch) if not catalogue_faults.is_sure(text_of(data))]
    text = b"".join(line_of({"do": "catalogue", "text": text_of(batch[place])}) for place in places)
    done, revision = program.run("script", text=text), 1
    for place, reply in zip(places, running.lines(done.out)):
        found = of_any_catalogue(revision)(reply)
        revision += b'"revision"' in reply
        if found:
            yield place, f"{reply!r}: {found}"
    if running.unlike(done, {0, 1}) or len(running.lines(done.out)) != max(1, len(places)):
        yield places[0] if places else 0, f"{len(places)} catalogues: {done!r}"


def from_a_file(program, data):
    """What `desk catalogue` says about a file, and that its desk is sound afterwards. A file that isn't UTF-8 is refused before a desk is made."""
    try:
        wanted, audited = second_desk.SecondDesk().answer({"do": "catalogue", "text": data.decode()}) + b"\n", (0, b"sound\n")
    except UnicodeDecodeError:
        wanted, audited = b'{"at":[1],"name":"BadCatalogue","refused":1}\n', (3, b"")
    with tempfile.TemporaryDirectory(dir=running.ROOM) as room:
        file, path = os.path.join(room, "catalogue"), os.path.join(room, "desk.db")
        with open(file, "wb") as out:
            out.write(data)
        done = program.run("catalogue", "--db", path, file, size=len(data))
        if (done.status, done.out, done.err) != (int(b"refused" in wanted), wanted, b""):
            return f"catalogue: {done!r}, and not {wanted!r}"
        done = program.run("audit", "--db", path, size=len(data))
        return None if (done.status, done.out) == audited else f"audit: {done!r}"


def differences(program, batch):
    lines, wanted, places = zip(*asked(batch))
    done = program.run("script", text=b"".join(lines))
    if running.unlike(done, {0, 1}):
        yield 0, running.unlike(done, {0, 1})
    for at, words in running.compared(lines, running.lines(done.out), wanted):
        yield places[at], f"{lines[at]!r:.3000} is replied {words}"
    yield from unsure(program, batch)
    for place in range(0, len(batch), ASKED):
        words = from_a_file(program, batch[place]) if catalogue_faults.is_sure(text_of(batch[place])) else None
        if words:
            yield place, words


def shown(one):
    return repr(one)
