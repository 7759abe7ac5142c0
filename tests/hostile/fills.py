"""Files that fill notices, from a grammar and by mutation: each is used for the notices of one release, and compared with a second reader of
docs/FILLS.md, over Python's tomllib."""

import contextlib
import os
import random
import re
import tempfile

import catalogue_faults
import catalogues
import mutations
import running

NAME, SIZE = "fills", 100
REQUESTS = os.path.join(running.TESTS, "acceptance/notices-by-each-rule/data/requests.jsonl")
MOST_BYTES, MOST_TABLES = 4 << 20, 10_000
IDSTRING = re.compile(r"[A-Za-z0-9.-]+")
REFERENCE = re.compile(r"(DocumentRef-[A-Za-z0-9.-]+:)?LicenseRef-[A-Za-z0-9.-]+")
NOTHING = ("NONE", "NOASSERTION")

# What the release of these requests lacks: packages by name and version, and texts by title.
LACKING = {("b", "2"): "Copyright: NONE\n", ("c", ""): "Copyright: none given\n"}
UNTOLD = ["LicenseRef-x", "apache-2.0"]
NONE_RECORDED = "No text recorded.\n"

NAMES = ["LicenseRef-x", "apache-2.0", "MIT", "APACHE-2.0", "licenseref-x", "Zlib", "GPL-2.0+", "a b", "", "DocumentRef-d:LicenseRef-x", "LicenseRef-"]
PACKAGES = ["b", "c", "a", "B", "", "d"]
VERSIONS = ["2", "", "1", "2 "]
BODIES = ["one", "two\nlines", "ends\n", "\r\n", "NONE", "NOASSERTION", "none", "", "---- MIT ----", "é\u2028", "'''\"\"\""]

# What inputs of this kind must meet.
MEETS = {"filled", "left", "refused", "kept back"}
MET = set()


def grown(turn):
    parts = []
    for _ in range(turn.randint(0, 3)):
        name, body = catalogues.mostly(turn, NAMES), catalogues.mostly(turn, BODIES)
        parts.append(catalogues.table(turn, "text", [("licence", catalogues.value(turn, name)), ("body", catalogues.value(turn, body))]))
    for _ in range(turn.randint(0, 4)):
        rows = [("package", catalogues.value(turn, catalogues.mostly(turn, PACKAGES))), ("text", catalogues.value(turn, catalogues.mostly(turn, BODIES)))]
        if turn.random() < 0.5:
            rows.append(("version", catalogues.value(turn, catalogues.mostly(turn, VERSIONS))))
        parts.append(catalogues.table(turn, "credit", rows))
    if turn.random() < 0.3:
        turn.shuffle(parts)
    data = "".join(parts).encode()
    return mutations.changed(turn, data) if turn.random() < 0.15 else data


def enough(turn):
    """A file that has all that the release lacks."""
    body = lambda: catalogues.value(turn, turn.choice(["one", "two\nlines", "ends\n", "é\u2028"]))
    parts = [catalogues.table(turn, "text", [("licence", catalogues.value(turn, title)), ("body", body())]) for title in UNTOLD]
    parts += [catalogues.table(turn, "credit", [("package", catalogues.value(turn, name)), ("text", body())]) for name, _ in LACKING]
    turn.shuffle(parts)
    return "".join(parts).encode()


def one(seed, number):
    turn = random.Random(f"{seed} {NAME} {number}")
    files = [grown(turn) for _ in range(turn.choice([1, 1, 2, 3]))]
    if turn.random() < 0.2:
        files[-1] = enough(turn)
    return files, turn.random() < 0.3


def inputs(seed, start):
    return (one(seed, number) for number in range(start, start + SIZE))


class Refused(Exception):
    pass


def tables(found, part, keys):
    listed = found.get(part, [])
    if not isinstance(listed, list) or len(listed) > MOST_TABLES:
        raise Refused(f"{part} is no list of at most 10000 tables")
    for index, table in enumerate(listed):
        if not isinstance(table, dict):
            raise Refused(f"{part} {index} is no table, or one of its values is no text")
        if any(key not in table for key in keys):
            raise Refused(f"{part} {index} lacks a key")
        if not all(isinstance(table[key], str) for key in (*keys, "version") if key in table and (key != "version" or part == "credit")):
            raise Refused(f"{part} {index} is no table, or one of its values is no text")
        yield index, table


def key_of(name):
    return name if REFERENCE.fullmatch(name) else name.lower()


def read_texts(found):
    texts = {}
    for index, table in tables(found, "text", ("licence", "body")):
        name, body = table["licence"], table["body"]
        if not IDSTRING.fullmatch(name) and not REFERENCE.fullmatch(name):
            raise Refused(f"the licence of text {index} is no id and no reference")
        if not body or body in NOTHING:
            raise Refused(f"text {index} says nothing")
        if key_of(name) in texts:
            raise Refused(f"text {index} stands twice")
        texts[key_of(name)] = body
    return texts


def read_credits(found):
    credits = {}
    for index, table in tables(found, "credit", ("package", "text")):
        if not table["text"] or table["text"] in NOTHING:
            raise Refused(f"credit {index} says nothing")
        if (table["package"], table.get("version")) in credits:
            raise Refused(f"credit {index} stands twice")
        credits[table["package"], table.get("version")] = table["text"]
    return credits


def read(data):
    """The texts and the credits of a file."""
    if len(data) > MOST_BYTES:
        raise Refused("it has more than 4 MiB")
    try:
        text = data.decode()
    except UnicodeDecodeError:
        raise Refused("it is not UTF-8") from None
    found = catalogue_faults.toml_of(text)
    if found is None:
        raise Refused("it is no TOML document")
    return read_texts(found), read_credits(found)


def credit_for(files, name, version):
    for _, credits in files:
        for (package, wanted), text in credits.items():
            if package == name and wanted in (None, version):
                return text
    return None


def text_for(files, title):
    return next((texts[key_of(title)] for texts, _ in files if key_of(title) in texts), None)


def wanted(notices, files, is_complete):
    """The status, the notices and standard error."""
    credits_left = texts_left = 0
    for (name, version), line in LACKING.items():
        text = credit_for(files, name, version)
        head, behind = notices.split(f"\n{name} {version}\n", 1)
        notices = f"{head}\n{name} {version}\n" + (behind if text is None else behind.replace(line, f"Copyright: {text}\n", 1))
        credits_left += text is None
    for title in UNTOLD:
        body = text_for(files, title)
        if body is not None:
            ended = body if body.endswith("\n") else body + "\n"
            head = f"---- {title} ----\n"
            notices = notices.replace(head + NONE_RECORDED, head + ended, 1)
        texts_left += body is None
    is_left = credits_left + texts_left > 0
    told = f"missing: copyrights {credits_left}, texts {texts_left}\n" if is_left else ""
    MET.add("left" if is_left else "filled")
    if is_left and is_complete:
        MET.add("kept back")
        return 1, "", told
    return 0, notices, told


def answer(notices, names, datas, is_complete):
    files = []
    for name, data in zip(names, datas):
        try:
            files.append(read(data))
        except Refused as fault:
            MET.add("refused")
            return 1, "", f'"{name}": {fault}\n'
    return wanted(notices, files, is_complete)


def filled(program, room, notices, datas, is_complete):
    """What differs in the notices that are filled from these files, or None."""
    names = [os.path.join(room, f"{place}.toml") for place in range(len(datas))]
    for name, data in zip(names, datas):
        with open(name, "wb") as out:
            out.write(data)
    words = ["notices", "--db", os.path.join(room, "desk.db"), "r1", "--fill", *names] + ["--complete"] * is_complete
    done = program.run(*words, size=1 << 20)
    status, out, err = answer(notices, names, datas, is_complete)
    if (done.status, done.out, done.err) == (status, out.encode(), err.encode()):
        return None
    return f"{done!r}, and not {(status, out, err)!r:.900}"


@contextlib.contextmanager
def frozen(program):
    """A folder with a desk, and the notices of its release."""
    with tempfile.TemporaryDirectory(dir=running.ROOM) as room:
        path = os.path.join(room, "desk.db")
        with open(REQUESTS, "rb") as file:
            program.run("script", "--db", path, text=file.read())
        yield room, program.run("notices", "--db", path, "r1").out.decode()


def differences(program, batch):
    with frozen(program) as (room, notices):
        for place, (datas, is_complete) in enumerate(batch):
            if all(catalogue_faults.is_sure(data.decode(errors="replace")) for data in datas):
                words = filled(program, room, notices, datas, is_complete)
                if words:
                    yield place, words


def shown(one):
    return repr(one)
