"""Folders with the texts of licences, and with files that aren't such texts: `desk texts` writes what a second reader of docs/FILLS.md,
over Python's tomllib, finds in them, and says which files it leaves out."""

import os
import random
import tempfile
import tomllib

import fills
import running

NAME, SIZE = "text folders", 100
NAMES = ["MIT.txt", "mit.txt", "Mit", "Apache-2.0.txt", "Apache-2.0", "LicenseRef-own.txt", "licenseref-OWN.txt", "LicenseRef-own.md", "a_b.txt", "a b.txt",
         "é.txt", ".txt", "x.tar.gz", "DocumentRef-d:LicenseRef-x.txt", "README", "GPL-2.0+.txt", "a\nb.txt", "a\x7fb.txt", "\u202ea.txt"]
BODIES = [b"", b"NONE", b"NOASSERTION", b"NONE\n", b"one", b"two\nlines\n", b"\r\n", b"\xff\xfe", b"'''\"\"\"\\", "\u00e9\u2028\x00\x7f".encode(), b"\xef\xbb\xbfmark", b"\t", b"# no comment"]

BAD_NAME = "its name is no id of a licence or an exception, and no reference"
NOT_UTF8 = "it is not UTF-8"
NOTHING = "it is empty, or says NONE or NOASSERTION"
TWICE = "a file before it is named after the same id or reference"

# What inputs of this kind must meet.
MEETS = {"written", "none", BAD_NAME, NOT_UTF8, NOTHING, TWICE}
MET = set()


def one(seed, number):
    turn = random.Random(f"{seed} {NAME} {number}")
    names = turn.sample(NAMES, turn.randint(0, 6))
    return {name: turn.choice(BODIES) for name in names}, turn.random() < 0.3


def inputs(seed, start):
    return [one(seed, number) for number in range(start, start + SIZE)]


def is_utf8(body):
    try:
        body.decode()
    except UnicodeDecodeError:
        return False
    return True


def reason(title, body, seen):
    if not fills.IDSTRING.fullmatch(title) and not fills.REFERENCE.fullmatch(title):
        return BAD_NAME
    if not is_utf8(body):
        return NOT_UTF8
    if not body or body.decode() in fills.NOTHING:
        return NOTHING
    return TWICE if fills.key_of(title) in seen else None


def is_hidden(char):
    code = ord(char)
    return code < 32 or 127 <= code < 160 or code in (0x61C, 0x200E, 0x200F) or 0x202A <= code <= 0x202E or 0x2066 <= code <= 0x2069


def wanted(files):
    """The texts that are written, in their order, and what standard error says."""
    texts, seen, told = [], set(), []
    for name in sorted(files, key=str.encode):
        title = name.rpartition(".")[0] if "." in name else name
        why = reason(title, files[name], seen)
        if why is None:
            texts.append((title, files[name].decode()))
            seen.add(fills.key_of(title))
        else:
            MET.add(why)
            told.append("".join("?" if is_hidden(char) else char for char in name) + f": {why}\n")
    MET.add("written" if texts else "none")
    return texts, "".join(told) + ("" if texts else "no text is found\n")


def difference(program, folder, files):
    done = program.run("texts", folder, size=1 << 20)
    texts, told = wanted(files)
    status = 0 if texts else 1
    if (done.status, done.err.decode()) != (status, told):
        return f"{done!r}, and not {(status, told)!r:.600}"
    found = tomllib.loads(done.out.decode())
    listed = [(table["licence"], table["body"]) for table in found.get("text", [])]
    if listed != texts or set(found) - {"text"}:
        return f"{done.out!r:.600}, and not {texts!r:.600}"
    return None


def differences(program, batch):
    for place, (files, has_folder) in enumerate(batch):
        with tempfile.TemporaryDirectory(dir=running.ROOM) as room:
            for name, body in files.items():
                with open(os.path.join(room, name), "wb") as out:
                    out.write(body)
            if has_folder:
                os.mkdir(os.path.join(room, "folder"))
                with open(os.path.join(room, "folder", "Zlib.txt"), "w") as out:
                    out.write("passed over")
            words = difference(program, room, files)
            if words:
                yield place, words


def shown(one):
    return repr(one)
