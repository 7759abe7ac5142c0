"""Database files that were changed: their rows by SQL, their bytes, and the bytes of the log that a killed desk left.

If SQLite reads the file and finds it intact, `desk audit` must say what tests/second_judge.py says, otherwise give some documented answer;
the file must stay unchanged. A changed log may only lose its last commits."""

import os
import random
import re
import sqlite3
import subprocess
import tempfile

import auditing
import chance
import mutations
import offices
import running
import second_judge

NAME, SIZE = "databases", 100
ASKED = 10
IN_THE_LOG = 40
ROWS, BYTES, LOG = "rows", "bytes", "log"
EMPTY = "empty"
ENDS = ("", "-wal", "-shm", "-journal")


def inputs(seed, start):
    """What is changed, in which desk, and by which source of random numbers."""
    for number in range(start, start + SIZE):
        turn = random.Random(f"{seed} {NAME} {number}")
        yield turn.choice([ROWS, ROWS, BYTES, BYTES, LOG]), turn.choice(sorted(offices.offices())), f"{seed} {NAME} {number} change"


def bytes_of(path):
    if not os.path.exists(path):
        return b""
    with open(path, "rb") as file:
        return file.read()


def put(path, data, log=b""):
    for end in ENDS:
        if os.path.exists(path + end):
            os.remove(path + end)
    for end, content in (("", data), ("-wal", log)):
        if content or not end:
            with open(path + end, "wb") as file:
                file.write(content)


def answer(done):
    """`sound`, the name of a condition, `error`, or what no answer may be."""
    # (rows that are sound may be in tables that aren't a desk's)
    is_told = done.out == b"sound\n" and re.fullmatch(auditing.UNOPENED + auditing.DIFFERENCE, done.err)
    wrong = running.unlike(done, {0, 1, 3}, beside=done.err if is_told else b"")
    if wrong:
        return wrong
    told = {(0, b"sound\n"): "sound", (1, b"empty\n"): EMPTY, **{(1, f"{name}\n".encode()): name for name in auditing.NAMES}}
    return "error" if done.status == 3 and not done.out else told.get((done.status, done.out), repr(done))


def changed_rows(path, turn):
    """Rows changed by SQL."""
    connection = sqlite3.connect(path, isolation_level=None)
    connection.execute("BEGIN")
    chance.Chance(connection, turn).change()
    connection.execute("COMMIT")
    connection.close()


def changed_bytes(turn, data):
    """Bytes changed, mostly in the head of a page or among its cells."""
    found = bytearray(data)
    for _ in range(turn.choice([1, 1, 2, 5])):
        page = turn.randrange(max(1, len(data) // 4_096)) * 4_096
        at = min(len(data) - 1, page + (turn.randrange(120) if turn.random() < 0.6 else turn.randrange(4_096)))
        found[at] = turn.choice([0, 255, found[at] ^ 1 << turn.randrange(8), turn.randrange(256)])
    if turn.random() < 0.1:
        return mutations.changed(turn, bytes(found))
    return bytes(found)


def judged(path):
    """What the second judge says, or None if SQLite doesn't read the file or finds it broken."""
    try:
        connection = sqlite3.connect(f"file:{path}?mode=ro", uri=True)
        try:
            if connection.execute("PRAGMA integrity_check").fetchall() != [("ok",)]:
                return None
            return second_judge.judged(second_judge.snapshot_of(connection))
        finally:
            connection.close()
    except (sqlite3.Error, OverflowError, UnicodeError, TypeError, AttributeError):
        return None


def is_empty(path):
    """Whether SQLite finds neither a table nor a view in a file."""
    try:
        connection = sqlite3.connect(f"file:{path}?mode=ro", uri=True)
        try:
            return connection.execute("SELECT count(*) FROM sqlite_master WHERE type IN ('table', 'view')").fetchone() == (0,)
        finally:
            connection.close()
    except sqlite3.Error:
        return False


def allowed(path, kind):
    """What an audit may answer."""
    if is_empty(path):
        return {EMPTY, "error"}
    found = judged(path)
    if found is None:
        return {"error", "sound", *auditing.NAMES}
    return {found} if kind == ROWS else {found, "error"}


def asked_too(program, path):
    """Another subcommand on such a file: it is served, or refused in a documented way."""
    done = program.run("script", "--db", path, text=offices.later_requests().encode(), size=os.path.getsize(path))
    is_refused = done.status == 1 and re.fullmatch(rb"fault: \w+\n", done.out) or done.status == 3 and not done.out
    is_served = re.fullmatch(rb"(\{.*\}\n)*", done.out) and done.out.count(b"\n") == offices.later_requests().count("\n")
    is_told = done.out == b"fault: NotADesk\n" and re.fullmatch(auditing.DIFFERENCE, done.err)
    wrong = running.unlike(done, beside=done.err if is_told else b"")
    return None if not wrong and (is_refused or is_served) else f"requests: {done!r}"


def of_a_file(program, path, kind, turn, data):
    put(path, data if kind == ROWS else changed_bytes(turn, data))
    if kind == ROWS:
        changed_rows(path, turn)
    put(path, bytes_of(path))
    wanted, before = allowed(path, kind), bytes_of(path)
    put(path, before)
    told = answer(program.run("audit", "--db", path, size=len(before)))
    if told not in wanted:
        return f"audit: {told}, and not {' or '.join(sorted(wanted))}"
    if before and bytes_of(path) != before:
        return f"the audit ({told}) changed the file"
    return asked_too(program, path) if turn.randrange(ASKED) == 0 else None


def killed(program, path):
    """The bytes of a file and its log, as left by a desk that was killed after this many releases."""
    put(path, b"")
    words = [program.path, "script", "--db", path]
    requests = [f'{{"do":"open","release":"r{number}","form":"binary"}}\n'.encode() for number in range(IN_THE_LOG)]
    with subprocess.Popen(words, stdin=subprocess.PIPE, stdout=subprocess.PIPE) as desk:
        for request in [offices.line(do="catalogue", text=offices.CATALOGUE).encode(), *requests]:
            desk.stdin.write(request)
            desk.stdin.flush()
            desk.stdout.readline()
        desk.kill()
    return bytes_of(path), bytes_of(path + "-wal")


def of_a_log(program, path, turn, left):
    """A log with some bytes changed: the desk is as it was after some of the commands, from the first on."""
    data, log = left
    put(path, data)
    # (all that the desk holds may be in the log)
    wanted = {"sound", "error", EMPTY} if is_empty(path) else {"sound", "error"}
    put(path, data, mutations.changed(turn, log) if turn.random() < 0.3 else changed_bytes(turn, log))
    told = answer(program.run("audit", "--db", path, size=len(log)))
    if told not in wanted:
        return f"audit of a changed log: {told}"
    questions = "".join(offices.line(ask="release", release=f"r{number}") for number in range(IN_THE_LOG)).encode()
    done = program.run("script", "--db", path, text=questions, size=len(log))
    stand = [b"rows" in line for line in running.lines(done.out)]
    is_front = stand == sorted(stand, reverse=True) and len(stand) == IN_THE_LOG
    return None if is_front or done.status == 3 and not done.out else f"behind a changed log: {done!r}"


def made(program, room):
    """Each desk's file, and what a killed one left, made once."""
    path, files = os.path.join(room, "desk.db"), {}
    for name, requests in offices.offices().items():
        put(path, b"")
        program.run("script", "--db", path, text=requests.encode())
        files[name] = bytes_of(path)
    return path, files, killed(program, path)


def differences(program, batch):
    with tempfile.TemporaryDirectory(dir=running.ROOM) as room:
        path, files, left = made(program, room)
        for place, (kind, office, seed) in enumerate(batch):
            turn = random.Random(seed)
            found = of_a_log(program, path, turn, left) if kind == LOG else of_a_file(program, path, kind, turn, files[office])
            if found:
                yield place, f"the {office}, {kind} changed: {found}"


def shown(one):
    return f"{one[0]} of the {one[1]}, changed by {one[2]!r}"
