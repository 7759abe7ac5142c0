"""Notices, pages, tables and lists of files that generated sessions made, each compared with what the second desk writes (`second_views.py`):
comma-separated values, and columns on a terminal. Names, titles and texts contain markup, formulas, and characters that a terminal obeys."""

import json
import os
import pty
import random
import subprocess
import tempfile
import tty
import unicodedata

import lines
import offices
import running
import second_desk
import second_views

NAME, SIZE = "reports", 40
TEXTS = ["=1+1", "+1", "-1", "@sum(1)", "<b>&amp;\"'</b>", "a,b", 'say "x"', "日本", "x\u0301", "\U0001f600", "\u202egpj", "\x9b1m", "</pre>", "\ufffe", "\ufdd0a",
         "a  b", "é", "\u2066x", "plain", "none given", "&lt;", "'", "\U0001fffe"]
NAMES = ["r1", "r2", "-r3", "r.4"]
UNKNOWN = ["r9", "", "=r", "R1", "r" * 65]
# What concludes a package, with what is chosen of it.
CHOSEN = [("MIT", ["MIT"]), ("MIT OR Zlib", ["zlib"]), ("MIT AND Zlib", ["Zlib", "mit"]), ("Apache-2.0+", ["apache-2.0+"]), ("LicenseRef-own", ["LicenseRef-own"]),
          ("LicenseRef-other", ["LicenseRef-other"]), ("-x OR MIT", ["-X"]), (offices.GPL, [offices.GPL]), (offices.OWN, [offices.OWN])]
TERMS = ["MIT", "Zlib", "Apache-2.0+", "-x", offices.GPL, "Zlib WITH Classpath-exception-2.0"]
CODES = ["include-text", "give-notice", "-show", "x.y"]


def text(turn, usual, share=0.5):
    return turn.choice(TEXTS) if turn.random() < share else turn.choice(usual)


def long_text(turn):
    """A text of some lines."""
    return turn.choice(["\n", "", " "]) + turn.choice(["\n", "\r\n", "\t\n"]).join(text(turn, ["a", "b"]) for _ in range(turn.randint(1, 3))) + turn.choice(["\n", ""])


def quoted(value):
    return json.dumps(value, ensure_ascii=False)


def spelled(turn, term):
    """A term as a catalogue may spell it."""
    return turn.choice([term, term, term.swapcase() if " " not in term else term, term + "\t", " " + term])


def catalogue(turn):
    told = 'forms = ["binary", "source"]\n'
    told += "".join(f"[[duty]]\ncode = {quoted(code)}\ntitle = {quoted(text(turn, ['Ship it']))}\n" for code in CODES)
    for term in TERMS:
        duties = [code for code in CODES if turn.random() < 0.5]
        told += f'[[rule]]\nterm = {quoted(spelled(turn, term))}\nform = "binary"\nduties = {quoted(duties)}\n'
    for licence in ("MIT", "zlib", "Apache-2.0", "-x", "Classpath-exception-2.0"):
        if turn.random() < 0.7:
            told += f"[[text]]\nlicence = {quoted(licence)}\nbody = {quoted(long_text(turn))}\n"
    return told


def document(turn, number):
    """A document, with what is chosen for its packages."""
    told = (f"SPDXVersion: SPDX-2.3\nDataLicense: CC0-1.0\nSPDXID: SPDXRef-DOCUMENT\nDocumentName: {text(turn, ['d'])}\n"
            f"DocumentNamespace: https://example.org/{number}{turn.choice(['', ',', '<&>'])}\nCreator: Tool: x\nCreated: 2025-01-01T00:00:00Z\n")
    chosen = {}
    for place in range(turn.randint(1, 4)):
        name = f"SPDXRef-p{turn.choice(['', '-', '.'])}{place}"
        conclusion, chosen[name] = turn.choice(CHOSEN)
        told += f"PackageName: {text(turn, ['kettle', ''])}\nSPDXID: {name}\nPackageLicenseConcluded: {conclusion}\n"
        told += turn.choice(["", f"PackageVersion: {text(turn, ['1.0', ''])}\n"])
        told += turn.choice(["", "PackageDownloadLocation: NONE\n"])
        told += turn.choice(["", f"PackageCopyrightText: <text>{long_text(turn)}</text>\n", "PackageCopyrightText: NONE\n"])
    for name in ("own", "other"):
        if turn.random() < 0.8:
            told += f"LicenseID: LicenseRef-{name}\n" + turn.choice(["", f"ExtractedText: <text>{long_text(turn)}</text>\n", "ExtractedText: x\n"])
    return told, chosen


def release(turn, name, documents):
    """A release that is opened, and most of the time frozen. Some have no document that ships, or a choice too few."""
    attached = turn.sample(sorted(documents), turn.randint(turn.random() < 0.95, len(documents)))
    yield offices.opened(name, "binary" if turn.random() < 0.9 else "source", *attached)
    for number in attached:
        for package, terms in documents[number].items():
            if turn.random() < 0.98:
                yield offices.line(do="choose", release=name, document=number, package=package, terms=terms)
    yield offices.line(do="freeze", release=name, day=f"2025-03-{turn.randint(1, 9):02}")


def move(turn):
    """What is done with a duty, or with all that are past a day."""
    day = f"2025-{turn.randint(3, 6):02}-{turn.randint(1, 28):02}"
    do = turn.choice(["meet", "waive", "waive", "waive", "reopen", "close"])
    if do == "close":
        return offices.line(do=do, day=day) if turn.random() < 0.2 else ""
    until = {"until": f"2025-07-{turn.randint(1, 28):02}"} if do == "waive" and turn.random() < 0.8 else {}
    return offices.moved(do, turn.randint(1, 20), day, text(turn, ["w"]), **until)


def session(seed, start):
    """The requests that make a desk."""
    turn = random.Random(f"{seed} {NAME} {start}")
    if turn.random() < 0.2:
        return [line for line in lines.inputs(seed, start) if line.strip()]
    told = [offices.line(do="catalogue", text=catalogue(turn))]
    documents = {}
    for number in range(1, turn.randint(1, 3) + 1):
        made, documents[number] = document(turn, number)
        told.append(offices.line(do="import", text=made, profile=turn.choice([1, 2])))
        told.append(offices.line(do="adopt", document=number, reference="LicenseRef-own", licence="Zlib"))
        told.append(offices.line(do="adopt", document=number, reference="LicenseRef-other", licence="MIT"))
    for name in turn.sample(NAMES, turn.randint(2, len(NAMES))):
        told += release(turn, name, documents)
        told += [offices.line(do="catalogue", text=catalogue(turn))] if turn.random() < 0.3 else []
    told += [move(turn) for _ in range(turn.choice([0, 10, 60]))]
    told += [offices.line(do="withdraw", release=turn.choice(NAMES), day="2025-06-30", text="w")] if turn.random() < 0.3 else []
    return [line.encode() for line in "".join(told).splitlines(keepends=True)]


# ---- what is asked of it


class UnknownCode(Exception):
    """A filter's code that no duty has."""


def filters(turn):
    kept = {}
    if turn.random() < 0.4:
        kept["release"] = turn.choice(NAMES + UNKNOWN if turn.random() < 0.2 else NAMES)
    if turn.random() < 0.4:
        kept["code"] = turn.choice([*CODES, "", "x"])
    if turn.random() < 0.3:
        kept["is_open"] = True
    if turn.random() < 0.4:
        kept["past"] = f"2025-07-{turn.randint(1, 29):02}"
    return kept


def question(turn):
    """The name of a report, of what it is, by what its rows are kept, and whether it goes to a terminal."""
    kind = turn.choice(["list", "list", "page", "page", "notices", "duties", "totals", "changes"])
    of = turn.choice(["releases", "documents", "duties", "duties", "duties"]) if kind == "list" else turn.choice(NAMES if turn.random() < 0.9 else UNKNOWN[:1])
    if kind == "changes":
        of = str(turn.randint(0, 20))
    return kind, of, filters(turn) if of == "duties" else {}, kind in ("list", "duties") and turn.random() < 0.4


def inputs(seed, start):
    for number in range(start, start + SIZE):
        yield seed, start, question(random.Random(f"{seed} {NAME} {number} question"))


def words_of(kind, of, kept, path):
    words = [kind, "--db", path]
    for name, value in kept.items():
        words += ["--open"] if name == "is_open" else [f"--{name}={value}"]
    return [*words, "--", of]


def is_unknown(desk, code):
    """Whether neither the catalogue in force nor a duty that was raised has a code."""
    return code not in second_views.titles(desk) and all(duty.row[4] != code for release in desk.releases.values() for duty in release.duties)


def rows_of(desk, of, kept):
    """The rows of a list. Its filters must name a release and a code that the desk knows."""
    if "release" in kept:
        desk.release(kept)
    if "code" in kept and is_unknown(desk, kept["code"]):
        raise UnknownCode(kept["code"])
    if of == "releases":
        return second_views.release_rows(desk)
    return second_views.document_rows(desk) if of == "documents" else second_views.duty_rows(desk, **kept)


def report(desk, asked):
    """What a report must be."""
    kind, of, kept, is_shown = asked
    if kind == "list":
        rows = list(rows_of(desk, of, kept))
        return second_views.columns(rows) if is_shown else "".join(second_views.record(map(second_views.no_formula, row)) for row in rows)
    if kind == "duties":
        rows = second_views.duties(desk, of)
        return second_views.columns(rows) if is_shown else "".join(map(second_views.record, rows))
    return second_views.changes(desk, int(of)) if kind == "changes" else getattr(second_views, kind)(desk, of)


def answer(desk, asked):
    """The bytes on standard output, the status, and the bytes on standard error."""
    try:
        return report(desk, asked).encode(), 0, b""
    except second_desk.Refused as refused:
        return second_desk.shown(refused.told) + b"\n", 1, b""
    except UnknownCode as unknown:
        return b"", 1, f'no duty has the code "{unknown}", in the catalogue in force or among those that were raised\n'.encode()


def on_terminal(program, words, size):
    """What the program writes to a terminal, and its status."""
    program.runs += 1
    ours, its = pty.openpty()
    tty.setraw(its)
    process = subprocess.Popen([program.path, *words], stdin=subprocess.DEVNULL, stdout=its, stderr=subprocess.PIPE, preexec_fn=program.limit(size))
    os.close(its)
    told = b""
    try:
        while piece := os.read(ours, 1 << 16):
            told += piece
    except OSError:
        pass  # (its end is closed)
    os.close(ours)
    _, words = process.communicate(timeout=program.seconds)
    return running.Done(process.returncode, told, words, 0)


def is_sure(words):
    """Whether it's certain how wide a terminal shows each letter."""
    known = "".join(letter for text in TEXTS for letter in text if unicodedata.category(letter) != "Cn")
    return all(letter in known or letter.isascii() or letter == "\ufffd" for letter in words)


def differences(program, batch):
    seed, start, _ = batch[0]
    with tempfile.TemporaryDirectory(dir=running.ROOM) as room:
        path, desk, made = os.path.join(room, "desk.db"), second_desk.SecondDesk(), session(seed, start)
        wanted = [told for told in map(desk.reply, made) if told is not None]
        told = running.lines(program.run("script", "--db", path, text=b"".join(made)).out)
        if told != wanted:
            yield 0, f"the session {b''.join(made)!r:.3000} gets the replies {list(running.compared(made, told, wanted))[:1]}"
            return
        size = os.path.getsize(path)
        for place, (_, _, question_asked) in enumerate(batch):
            words, wanted = words_of(*question_asked[:3], path), answer(desk, question_asked)
            is_shown = question_asked[3] and is_sure(wanted[0].decode())
            if question_asked[3] and not is_shown:
                continue
            done = on_terminal(program, words, size) if is_shown else program.run(*words, size=size)
            if (done.out, done.status, done.err) != wanted:
                yield place, f"{words}: {done.status}, {done.out!r:.2000}, {done.err!r}, and not {wanted!r:.2000}"


def shown(one):
    seed, start, asked = one
    return f"{asked} of the desk that these requests make: {b''.join(session(seed, start))!r}"
