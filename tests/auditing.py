"""Audits files of desks, sound and broken: python3 tests/auditing.py PROGRAM [CHANGES]

Each answer is compared with what is known about the file, or with the answer of tests/second_judge.py: after changes by hand, after each
condition is broken in each of its columns, after two are broken at once, and after CHANGES random changes (5,000 by default). Files of
other programs must be answered within two minutes on the slowest machine, with a condition's name or status 3. The queries of docs/AUDIT.md
must show the rows that break a condition, and none in a sound file. An audit must not change the bytes of the file. Needs Python 3.11. Ends
with status 1 if something differs.
"""

import collections
import os
import random
import re
import sqlite3
import subprocess
import sys
import tempfile
import time

HERE = os.path.dirname(os.path.abspath(__file__))
sys.path[:0] = [HERE, os.path.join(HERE, "audits")]
sys.dont_write_bytecode = True

import breaks
import chance
import offices
import others
import second_judge

PAGE = os.path.join(HERE, "../docs/AUDIT.md")
NAMES = [name for name, _ in second_judge.CONDITIONS]
CHANGES = 5_000
# After this many random changes another subcommand runs too.
ASKED = 20
# An audit of a million rows takes some seconds, and ten on a busy machine.
SECONDS = 120
SHOWN = 20
# How a file's tables differ from a desk's and, if its rows may be a desk's, how they are kept.
DIFFERENCE = (
    rb'("[^\n]*": it has no table [^\n]+\n|"[^\n]*": (its|one of its tables) [^\n]+\n"[^\n]*": examples/restore moves [^\n]+\n)'
)
# The same before a migration.
OLDER = rb'"[^\n]*": (it has no table|its|one of its tables|a table of its version) [^\n]+\n'
# What is to be done about a log that may be that of another file.
LEFT = rb'"[^\n]*": a run that was killed left a log beside it[^\n]+\n'
# What a migration says of something else that has the name of a table that it makes.
IN_THE_WAY = rb'"[^\n]*": it has something else named \w+: rename that first\n'
UNOPENED = rb'"[^\n]*" isn\'t opened as a desk \(NotADesk\)\n'
# A file system in memory, if there is one.
ROOM = "/dev/shm" if os.path.isdir("/dev/shm") else None

differences = []


def differs(what, found, wanted):
    """Notes a difference, and prints the first few."""
    if found not in wanted:
        differences.append(what)
        if len(differences) <= SHOWN:
            print(f"{what}: {found}, and not {' or '.join(wanted)}", flush=True)


def bytes_at(path):
    if not os.path.exists(path):
        return b""
    with open(path, "rb") as file:
        return file.read()


class Desk:
    """The program on one file, with its answers in short."""

    def __init__(self, program, room):
        self.program, self.path = program, os.path.join(room, "desk.db")
        self.longest, self.audits, self.said = 0, 0, b""

    def put(self, data):
        """The file has these bytes, and no log."""
        for end in ("", "-wal", "-shm", "-journal"):
            if os.path.exists(self.path + end):
                os.remove(self.path + end)
        if data is not None:
            with open(self.path, "wb") as file:
                file.write(data)

    def run(self, *words, text=b""):
        """The status and the output, `error` for status 3 without output, or what is wrong."""
        begun = time.perf_counter()
        try:
            done = subprocess.run([self.program, *words], input=text, capture_output=True, timeout=SECONDS, check=False)
        except subprocess.TimeoutExpired:
            return "nothing in time"
        self.longest = max(self.longest, time.perf_counter() - begun)
        said = re.sub(rb"\A" + LEFT, b"", done.stderr)
        if words[0] == "migrate" and done.returncode == 3:
            said = re.sub(rb"\A" + IN_THE_WAY, b"", said)
        is_fault = done.returncode == 3 and re.fullmatch(rb"error: [^\n]+\n", said)
        if is_fault and done.stdout == b"":
            return "error"
        self.said = said
        # (for a file that isn't a desk, subcommands that need one say how its tables differ, and an audit that it isn't opened)
        wanted = b""
        if words[0] == "audit" and done.stdout == b"sound\n":
            wanted = b"(" + UNOPENED + DIFFERENCE + b")?"
        elif words[0] != "audit" and done.stdout == b"fault: NotADesk\n":
            wanted = OLDER if words[0] == "migrate" else DIFFERENCE
        is_told = re.fullmatch(wanted, said)
        if not is_fault and (not is_told or done.returncode not in (0, 1)):
            return f"status {done.returncode}, {done.stdout[:100]!r}, {done.stderr[:100]!r}"
        return f"{done.returncode} {done.stdout.decode(errors='replace')}"

    def audit(self, path=None):
        """`sound`, the name of a condition, or `error`. The file must stay as it was."""
        path = path or self.path
        before = bytes_at(path)
        told = self.run("audit", "--db", path)
        self.audits += 1
        if before and bytes_at(path) != before:
            return f"a changed file, after {told}"
        known = {"0 sound\n": "sound", "1 empty\n": "empty", "error": "error", **{f"1 {name}\n": name for name in NAMES}}
        return known.get(told, told)

    def totals(self, release="r1"):
        """What another subcommand says: `served`, the name of a fault, or `error`."""
        told = self.run("totals", "--db", self.path, release)
        found = re.fullmatch(r"1 fault: (\w+)\n", told)
        if found:
            return found.group(1)
        return "served" if told.startswith(("0 raised ", '1 {"at":')) else told


def made(desk, requests):
    """The bytes of a file that a script of requests made, none of which may be refused."""
    desk.put(None)
    words = [desk.program, "script", "--db", desk.path]
    done = subprocess.run(words, input=requests.encode(), capture_output=True, timeout=60, check=False)
    if done.returncode or b'"refused"' in done.stdout or b'"fault"' in done.stdout:
        sys.exit(f"a desk isn't made: status {done.returncode}, {done.stdout[-300:]!r}, {done.stderr[:300]!r}")
    return bytes_at(desk.path)


def changed(desk, data, text):
    """Writes a file with a change by hand. Returns what the second judge says about it, and how many rows `meta` has."""
    desk.put(data)
    connection = sqlite3.connect(desk.path, isolation_level=None)
    connection.executescript(f"BEGIN; {text}; COMMIT")
    snapshot = second_judge.snapshot_of(connection)
    connection.close()
    return second_judge.judged(snapshot), len(snapshot.meta)


def executed(desk, data, text):
    """Writes a file with a change that the second judge isn't asked about."""
    desk.put(data)
    connection = sqlite3.connect(desk.path, isolation_level=None)
    connection.executescript(text)
    connection.close()


def others_answer(judged, rows):
    """What another subcommand says if an audit says this: another version comes before the audit if it is the only row of `meta`."""
    if judged == "BadMeta" and rows == 1:
        return "BadVersion"
    return "served" if judged == "sound" else judged


def try_by_hand(desk, data, wanted, text):
    judged, rows = changed(desk, data, text)
    differs(f"the second judge, after {text}", judged, [wanted])
    differs(f"audit, after {text}", desk.audit(), [wanted])
    # rows that are sound may have a number that no desk's row can have
    none = ["error"] if wanted == "sound" and "-1" in text else []
    differs(f"totals, after {text}", desk.totals(), [others_answer(wanted, rows), *none])


def by_hand(desk, files):
    for wanted, text in breaks.KNOWN:
        try_by_hand(desk, files["withdrawn release" if wanted == "BadState" else "first release"], wanted, text)
    for name, data in files.items():
        desk.put(data)
        differs(f"audit of the {name}", desk.audit(), ["sound"])
        differs(f"totals of the {name}", desk.totals(), ["served"])
    nothing = made(desk, "")
    for wanted, text in breaks.ON_NOTHING:
        try_by_hand(desk, nothing, wanted, text)
    print(f"{len(breaks.KNOWN)} changes by hand, {len(files)} sound files, {len(breaks.ON_NOTHING)} single rows on an empty desk")


def each_condition(desk, data):
    for wanted, text in breaks.BREAKS:
        try_by_hand(desk, data, wanted, text)
    counts = collections.Counter(wanted for wanted, _ in breaks.BREAKS)
    print("conditions broken alone: " + ", ".join(f"{name} {count}" for name, count in counts.items()))


def of_sound_rows(desk, data):
    """A desk with sound rows that come from no command answers each request, or reports a fault."""
    requests, count = offices.later_requests(), 0
    for wanted, text in breaks.BREAKS:
        if wanted == "sound":
            executed(desk, data, text)
            told = desk.run("script", "--db", desk.path, text=requests.encode())
            lines = re.fullmatch(r"[013] ((?:\{.*\}\n)*)", told)
            is_answered = told == "error" or (lines and lines.group(1).count("\n") == requests.count("\n"))
            differs(f"requests, after {text}", "answered" if is_answered else told, ["answered"])
            count += 1
    print(f"requests on {count} desks whose rows no command made")


def of_numbers_below_0(desk, data):
    """Sound rows with a number below 0 are not a desk's, and the file stays unchanged."""
    for below, other in breaks.BELOW_0:
        for text, wanted in ((below, "error"), (other, "served")):
            judged, _ = changed(desk, data, text)
            differs(f"the second judge, after {text}", judged, ["sound"])
            differs(f"audit, after {text}", desk.audit(), ["sound"])
            before = bytes_at(desk.path)
            differs(f"totals, after {text}", desk.totals(), [wanted])
            differs(f"the file, after {text}", bytes_at(desk.path) == before, [True])
    print(f"numbers below 0 in {len(breaks.BELOW_0)} columns")


def two_at_once(desk, data):
    """The first one is reported, whichever was broken first."""
    count = 0
    for place, (wanted, first) in enumerate(breaks.ALONE):
        for _, second in breaks.ALONE[place + 1 :]:
            try_by_hand(desk, data, wanted, f"{first}; {second}")
            try_by_hand(desk, data, wanted, f"{second}; {first}")
            count += 2
    print(f"two conditions broken at once: {count}")


def changed_at_random(desk, data, turn):
    """Writes a file with random changes. Returns the changes, what the second judge says, and how many rows `meta` has."""
    desk.put(data)
    connection = sqlite3.connect(desk.path, isolation_level=None)
    connection.execute("BEGIN")
    by_chance = chance.Chance(connection, turn)
    by_chance.change()
    connection.execute("COMMIT")
    snapshot = second_judge.snapshot_of(connection)
    connection.close()
    return by_chance.notes, second_judge.judged(snapshot), len(snapshot.meta)


def at_random(desk, files, changes):
    turn, told = random.Random(1), collections.Counter()
    names, questions = ["whole office", *files], questions_of_the_page()
    for number in range(changes):
        name = turn.choice(names)
        notes, judged, rows = changed_at_random(desk, files[name], turn)
        told[judged] += 1
        differs(f"audit of the {name}, after {notes}", desk.audit(), [judged])
        if number % ASKED == 0:
            # a desk requires more of numbers than an audit does
            wanted = [others_answer(judged, rows)] + (["error"] if judged == "sound" else [])
            differs(f"totals of the {name}, after {notes}", desk.totals(), wanted)
            for met in NAMES[: NAMES.index(judged) if judged in NAMES else None]:
                differs(f"rows for {met} in the {name}, after {notes}", str(asked(desk.path, questions[met])), ["[]"])
    print(f"{changes:,} changes at random: " + ", ".join(f"{name} {told[name]}" for name in ("sound", *NAMES)))


def beside(path):
    """What a file has besides a desk's tables, with its rows."""
    connection = sqlite3.connect(path)
    found = connection.execute("SELECT type, name, tbl_name, sql FROM sqlite_schema WHERE name IN ('more', 'later') ORDER BY 1, 2").fetchall()
    rows = connection.execute("SELECT * FROM more").fetchall() if ("table", "more") in [row[:2] for row in found] else []
    connection.close()
    return str((found, rows))


def going_on(desk, path=None):
    """The replies to later requests, the rows after them, and what SQLite then says about the file."""
    path = path or desk.path
    told = desk.run("script", "--db", path, text=offices.later_requests().encode())
    connection = sqlite3.connect(path)
    columns = {table: ", ".join(names) for table, names in others.COLUMNS.items()}
    rows = {table: sorted(map(repr, connection.execute(f"SELECT {columns[table]} FROM {table}"))) for table in columns}
    check = connection.execute("PRAGMA integrity_check").fetchall()
    connection.close()
    return str((told, rows, check))


def restored(desk, version=3):
    """Moves the rows of the file into a new one, and gives its path."""
    path = desk.path + "-new"
    for end in ("", "-wal"):
        if os.path.exists(path + end):
            os.remove(path + end)
    desk.run("script", "--db", path)
    others.moved(path, desk.path, version)
    return path


def of_other_programs(desk, copy):
    """Files with tables of the same names: a condition's name or status 3, or `sound` if the rows are a desk's. A file with a desk's tables
    is a desk, continues as one, and keeps what else it has; from any other sound file the rows can be moved into a desk."""
    answers = {
        "yes": (["sound"], ["served"]),
        "no": (["sound", "error", *NAMES], ["NotADesk", "error"]),
        "if it is read": (["sound", "error"], ["served", "error"]),
    }
    count = 0
    desk.put(None)
    copy.write(desk.path).close()
    plain = going_on(desk)
    desk.put(None)
    for name, is_desk in others.forms(desk.path, copy):
        audits, totals = answers[is_desk]
        differs(f"audit of a file with {name}", desk.audit(), audits)
        is_sound, said = desk.audit() == "sound", b"isn't opened" in desk.said
        differs(f"totals of a file with {name}", desk.totals(), totals)
        differs(f"whether an audit says that a file with {name} isn't opened", str(said), [str(is_sound and is_desk == "no")])
        if is_sound and is_desk == "no":
            differs(f"what is moved from a file with {name}", going_on(desk, restored(desk)), [plain])
        if is_desk == "yes":
            before = beside(desk.path)
            differs(f"later requests to a file with {name}", going_on(desk), [plain])
            differs(f"what else is in a file with a desk and {name}", beside(desk.path), [before])
        desk.put(None)
        count += 1
    for name, is_absent in others.lacking(desk.path, copy):
        differs(f"audit of a file with {name}", desk.audit(), ["error"] if is_absent else ["error", *NAMES])
        differs(f"totals of a file with {name}", desk.totals(), ["NotADesk", "error"])
        desk.put(None)
        count += 1
    print(f"{count} files with tables of other forms, or without one")


def of_other_values(desk, data, copy):
    """Values that no desk writes, in a desk's tables and in tables that accept any."""
    count = 0
    for text in others.values():
        try:
            judged, _ = changed(desk, data, text)
        except sqlite3.IntegrityError:
            continue
        # a text that isn't UTF-8 may be a separate fault
        differs(f"audit, after {text}", desk.audit(), [judged, "error"] if "CAST" in text else [judged])
        count += 1
    desk.put(None)
    copy.write(desk.path, **copy.changed(others.bare)).close()
    bare = bytes_at(desk.path)
    for text in others.values():
        executed(desk, bare, text)
        differs(f"audit of tables that take any value, after {text}", desk.audit(), ["sound", "error", *NAMES])
        count += 1
    print(f"{count} values that no desk writes")


def of_many_rows(desk, data):
    """A desk's tables with very many rows: each is answered in time."""
    for wanted, table, count, columns in others.MANY:
        executed(desk, data, others.many(table, count, columns))
        begun = time.perf_counter()
        differs(f"audit of {count:,} rows more in {table}", desk.audit(), [wanted])
        print(f"{count:>9,} rows more in {table:10} {wanted:11} {time.perf_counter() - begun:6.2f} s", flush=True)


def other_table(path):
    connection = sqlite3.connect(path)
    connection.execute("CREATE TABLE duty (number)")
    connection.close()


def in_other_places(desk, room, data):
    """Files that don't exist, that aren't a database or have no table `meta`, and a file whose last changes are in its log."""
    turn = random.Random(1)
    desk.put(None)
    differs("audit where no file is", desk.audit(), ["error"])
    differs("a file that an audit made", "a file" if os.path.exists(desk.path) else "none", ["none"])
    for what, found, wanted in (
        ("an empty file", b"", ["empty"]),
        ("words", b"a file of words\n" * 100, ["error"]),
        ("random bytes", turn.randbytes(70_000), ["error"]),
        ("a file cut short", data[: len(data) // 2], ["error", *NAMES]),
        ("the first page alone", data[:4_096], ["error", *NAMES]),
    ):
        desk.put(found)
        differs(f"audit of {what}", desk.audit(), wanted)
    desk.put(None)
    other_table(desk.path)
    differs("audit of a file without a table meta", desk.audit(), ["error"])
    differs("audit in a folder that isn't there", desk.audit(os.path.join(room, "none/desk.db")), ["error"])
    folder = os.path.join(room, "folder")
    os.mkdir(folder)
    differs("audit of a folder", desk.run("audit", "--db", folder), ["error"])
    desk.put(data)
    connection = sqlite3.connect(desk.path, isolation_level=None)
    connection.execute("PRAGMA wal_autocheckpoint = 0")
    connection.execute("PRAGMA journal_mode = WAL")
    connection.execute("UPDATE duty SET state = 'met' WHERE number = 2")
    found = [bytes_at(desk.path + end) for end in ("", "-wal")]
    connection.close()
    desk.put(found[0])
    with open(desk.path + "-wal", "wb") as file:
        file.write(found[1])
    # what a stopped desk left in the log may be moved into the file
    differs("audit of a file and its log", desk.run("audit", "--db", desk.path), ["1 BadChange\n"])
    in_use(desk, data)
    print("files in other places")


def in_use(desk, data):
    """A file that a desk has open is audited once that desk has ended."""
    desk.put(data)
    with subprocess.Popen([desk.program, "script", "--db", desk.path], stdin=subprocess.PIPE, stdout=subprocess.PIPE) as other:
        other.stdin.write(b'{"ask":"totals","release":"first"}\n')
        other.stdin.flush()
        other.stdout.readline()
        differs("audit of a file in use", desk.audit(), ["error"])
        other.stdin.close()
    differs("audit of a file that was in use", desk.audit(), ["sound"])


def with_bytes_changed(desk, data):
    """A bit changed at 300 places: a fault, a condition's name, or what the second judge says if SQLite can read the file."""
    turn, told = random.Random(1), collections.Counter()
    for _ in range(300):
        whole = bytearray(data)
        whole[turn.randrange(len(whole))] ^= 1 << turn.randrange(8)
        desk.put(bytes(whole))
        answer = desk.audit()
        told[answer] += 1
        differs("audit of a file with a bit changed", answer, ["sound", "error", *NAMES])
    print("a bit changed: " + ", ".join(f"{name} {count}" for name, count in sorted(told.items())))


def sections_of_the_page():
    """What is below the heading of each condition."""
    parts = re.split(r"^### (\w+)\n", bytes_at(PAGE).decode(), flags=re.M)
    return dict(zip(parts[1::2], parts[2::2]))


def questions_of_the_page():
    return {name: re.search(r"```sql\n(.*?)```", text, re.S).group(1) for name, text in sections_of_the_page().items()}


def asked(path, question):
    connection = sqlite3.connect(path)
    rows = connection.execute(question).fetchall()
    connection.close()
    return rows


def of_the_page(desk, files):
    """Each query finds a row in every file with its condition broken, except those that the page says it misses, and none in a sound
    file."""
    sections, questions, found, count = sections_of_the_page(), questions_of_the_page(), 0, 0
    differs("the headings of docs/AUDIT.md", ", ".join(sections), [", ".join(NAMES)])
    for name, question in questions.items():
        for office, data in files.items():
            desk.put(data)
            differs(f"rows for {name} in the {office}", str(asked(desk.path, question)), ["[]"])
        shown = []
        for wanted, statement in breaks.BREAKS:
            if wanted in (name, "sound"):
                executed(desk, files["whole office"], statement)
                is_shown = bool(asked(desk.path, question))
                if wanted == "sound":
                    differs(f"rows for {name}, after {statement}", str(is_shown), ["False"])
                else:
                    shown.append(is_shown)
        found, count = found + sum(shown), count + len(shown)
        is_enough = any(shown) if " misses " in sections[name] else all(shown)
        differs(f"whether the question for {name} shows what is broken", str(is_enough), ["True"])
    print(f"{len(sections)} questions of docs/AUDIT.md: they show {found} of {count} breaks, and nothing in a sound file")


def main():
    program = os.path.abspath(sys.argv[1])
    changes = int(sys.argv[2]) if len(sys.argv) > 2 else CHANGES
    begun = time.perf_counter()
    with tempfile.TemporaryDirectory(dir=ROOM) as room:
        desk = Desk(program, room)
        files = {name: made(desk, requests) for name, requests in offices.offices().items()}
        data = files["whole office"]
        desk.put(data)
        copy = others.Copy(desk.path)
        by_hand(desk, files)
        each_condition(desk, data)
        two_at_once(desk, data)
        of_sound_rows(desk, data)
        of_numbers_below_0(desk, data)
        of_the_page(desk, files)
        at_random(desk, files, changes)
        in_other_places(desk, room, data)
        with_bytes_changed(desk, data)
        of_other_programs(desk, copy)
        of_other_values(desk, data, copy)
        of_many_rows(desk, data)
    for what in differences[:SHOWN]:
        print(f"differs: {what}")
    told = f"{desk.audits:,} audits in {time.perf_counter() - begun:.0f} seconds, the longest {desk.longest:.2f}"
    print(f"{told}: {len(differences)} differences" if differences else f"{told}: passed")
    sys.exit(bool(differences))


if __name__ == "__main__":
    main()
