"""Migrates files of older versions: python3 tests/migrating.py PROGRAM [CHANGES] [KILLS]

The texts of tests/migrations are loaded and migrated. The tables are compared with the older ones, row by row; the desk's answers are
compared with those of a desk that the program makes from the same requests and, for totals and changes, with the older rows. Files that
were changed by hand, or at random (CHANGES times), must be refused as tests/second_judge.py says about the rows that they would get, and
keep their bytes. A migration is stopped at each call of its disk, and killed KILLS times. Needs Python 3.11. Ends with status 1 if
something differs.
"""

import collections
import json
import os
import random
import re
import sqlite3
import subprocess
import sys
import tempfile
import time

HERE = os.path.dirname(os.path.abspath(__file__))
sys.path[:0] = [HERE, os.path.join(HERE, "audits"), os.path.join(HERE, "migrations")]
sys.dont_write_bytecode = True

import auditing
import breaks
import chance
import make
import offices
import others
import second_judge
import stopping
from auditing import bytes_at, differs

CHANGES = 200
KILLS = 50
VERSIONS = (0, 3, 4, -1, 2**31, 2**40, 2**40 + 1, 2**40 + 2, 2**63 - 1, -(2**63))
REFUSALS = ("NotADesk", "BadVersion", *auditing.NAMES)
ANSWERS = {f"0 migrated {version} to 3\n": f"migrated {version}" for version in make.OLDER}
ANSWERS.update({f"1 fault: {name}\n": name for name in REFUSALS}, error="error")


class Desk(auditing.Desk):
    """The program on one file, which is migrated."""

    def migrate(self, path=None):
        """`migrated 1` or `migrated 2`, the name of a fault, or `error`. If it is refused, the file must stay as it was."""
        path = path or self.path
        before = bytes_at(path) if os.path.isfile(path) else b""
        told = self.run("migrate", "--db", path)
        self.audits += 1
        answer = ANSWERS.get(told, told)
        if before and answer in REFUSALS and bytes_at(path) != before:
            return f"a changed file, after {answer}"
        return answer

    def first_release(self):
        """The bytes of a file of version 3 with the first release."""
        self.put(None)
        make.made(self.program, self.path, make.requests_of(1)["first-release"])
        return bytes_at(self.path)

    def answers(self, requests):
        """The replies to a script."""
        return self.run("script", "--db", self.path, text=requests.encode())


# ---- files and their rows


def loaded(desk, text):
    """The bytes of a file that such a text makes."""
    desk.put(None)
    connection = sqlite3.connect(desk.path)
    connection.executescript(text)
    connection.close()
    return bytes_at(desk.path)


def tables(connection):
    """The rows of each table, in their order in the file."""
    connection.text_factory = lambda text: text.decode(errors="surrogateescape")
    names = [name for (name,) in connection.execute("SELECT name FROM sqlite_schema WHERE type = 'table' ORDER BY rowid")]
    return {name: connection.execute(f"SELECT * FROM {name} ORDER BY rowid").fetchall() for name in names}


def asked(path, question):
    connection = sqlite3.connect(path)
    try:
        return question(connection)
    finally:
        connection.close()


def schema(connection):
    return connection.execute("SELECT type, name, tbl_name, sql FROM sqlite_schema ORDER BY rowid").fetchall()


def declared(version):
    """The names of the tables of a version with their texts."""
    return list(make.TABLES[version].items())


def has_version(connection, version):
    """Whether a database has the tables of an older version, whatever else it has."""
    found = {(name, text) for kind, name, _, text in schema(connection) if kind == "table"}
    return found.issuperset(declared(version))


def is_taken(connection, version):
    """Whether a name that a table of version 3 gets is taken."""
    later = {name for name, _ in declared(3)[len(declared(version)) :]}
    return any(name in later for _, name, _, _ in schema(connection))


def migrated(connection, version):
    """A copy in memory with the tables of version 3, by the words of docs/TABLES.md."""
    copy = sqlite3.connect(":memory:", isolation_level=None)
    connection.backup(copy)
    for name, text in declared(3)[len(declared(version)) :]:
        copy.execute(text)
        if name == "reading":
            copy.execute("INSERT INTO reading SELECT number, 1 FROM document ORDER BY number")
    copy.execute("UPDATE meta SET version = 3")
    return copy


def wanted_of(connection):
    """What a migration answers, and the rows that it leaves, if it isn't refused."""
    versions = [row[0] for row in connection.execute("SELECT version FROM meta")]
    if len(versions) != 1:
        return "BadMeta", None
    if versions[0] not in make.OLDER:
        return "BadVersion", None
    if not has_version(connection, versions[0]):
        return "NotADesk", None
    if is_taken(connection, versions[0]):
        return "error", None
    copy = migrated(connection, versions[0])
    rows = tables(copy)
    judged = second_judge.judged(second_judge.snapshot_of(copy))
    copy.close()
    return (f"migrated {versions[0]}", rows) if judged == "sound" else (judged, None)


def try_file(desk, what, wanted, rows, otherwise=()):
    """Migrates the file, and compares the answer and, if it is migrated, the rows."""
    before = bytes_at(desk.path)
    answer = desk.migrate()
    differs(f"migrate, {what}", answer, [wanted, *otherwise])
    # after a fault either is left
    if bytes_at(desk.path) != before if answer == "error" else rows is not None:
        differs(f"the rows, {what}", "other rows" if asked(desk.path, tables) != rows else "these", ["these"])


def try_change(desk, data, text, otherwise=()):
    """Migrates a file after a change by hand. Returns what was expected, or nothing if its tables don't accept the change."""
    desk.put(data)
    connection = sqlite3.connect(desk.path, isolation_level=None)
    try:
        connection.executescript(f"BEGIN; {text}; COMMIT")
    except sqlite3.IntegrityError:
        connection.close()
        return None
    wanted, rows = wanted_of(connection)
    connection.close()
    # rows that are sound may have a number that no desk's row can have
    none = ["error"] if rows and re.search(r"-1|\d{10}", text) else []
    try_file(desk, f"after {text[:200]}", wanted, rows, [*none, *otherwise])
    return wanted


# ---- files that desks made


def questions(rows):
    """What is asked of each release and of each duty."""
    by_release = [offices.line(ask=what, release=row[0]) for row in rows["releases"] for what in ("release", "duties", "totals")]
    return "".join([*by_release, *(offices.line(ask="changes", duty=row[0]) for row in rows["duty"])])


def replies_by_rows(rows):
    """The replies to the questions for totals and changes, from the rows only."""
    states = collections.Counter((row[1], row[7]) for row in rows["duty"])
    totals = []
    for (name, *_) in rows["releases"]:
        counts = [states[name, state] for state in ("open", "met", "waived", "withdrawn")]
        totals.append([sum(counts), *counts])
    changes = [[list(row[1:]) for row in sorted(rows["change"]) if row[0] == duty[0]] for duty in rows["duty"]]
    return [[row] for row in totals], changes


def compare_answers(desk, name, before, fresh):
    """What the desk says of each release and each duty."""
    asked_for = questions(before)
    told = desk.answers(asked_for)
    kept = bytes_at(desk.path)
    desk.put(fresh)
    differs(f"what is asked of {name}", told, [desk.answers(asked_for)])
    lines = [json.loads(line).get("rows") for line in told[2:].splitlines()]
    releases = len(before["releases"])
    found = lines[: 3 * releases][2::3], lines[3 * releases :]
    differs(f"totals and changes of {name}", str(found), [str(replies_by_rows(before))])
    desk.put(kept)


def compare_texts(desk, name, before, fresh):
    """The texts of reports, and the replies to further requests."""
    words = [[word, "--db", desk.path, row[0]] for row in before["releases"] for word in ("notices", "duties", "totals")]
    words += [["changes", "--db", desk.path, str(row[0])] for row in before["duty"][:3]]
    kept, told = bytes_at(desk.path), []
    for data in (kept, fresh):
        desk.put(data)
        told.append([desk.run(*line) for line in words] + [desk.answers(offices.later_requests())])
        told[-1].append(desk.audit())
    for line, one, other in zip([*words, ["later requests"], ["audit after these"]], *told):
        differs(f"{line[0]} of {name}", one, [other])
    desk.put(kept)


OTHER_SUBCOMMANDS = (
    ("script",), ("import", "/dev/null"), ("catalogue", "/dev/null"), ("notices", "r1"), ("duties", "r1"), ("totals", "r1"), ("changes", "1"),
    ("serve", "--port", "0", "--limit", "1"),
)


def before_migration(desk, name, data):
    """Each other subcommand leaves the file unchanged."""
    for word, *more in OTHER_SUBCOMMANDS:
        told = desk.run(word, "--db", desk.path, *more, text=b'{"ask":"totals","release":"r1"}\n')
        differs(f"{word} of {name}", told, ["1 fault: BadVersion\n"])
        differs(f"{name} after {word}", "as it was" if bytes_at(desk.path) == data else "changed", ["as it was"])
    # a table that it reads isn't there
    differs(f"audit of {name}", desk.audit(), ["error"])


def of_dumps(desk):
    """Each file of an older version, from its making to requests after its migration."""
    desk.put(None)
    make.made(desk.program, desk.path, "")
    new = asked(desk.path, schema)
    for name, office, version in make.names():
        desk.put(None)
        make.made(desk.program, desk.path, make.requests_of(version)[office])
        fresh = bytes_at(desk.path)
        differs(f"the text {name}", "as made" if make.dump(desk.path, version) == make.text_of(name) else "another", ["as made"])
        data = loaded(desk, make.text_of(name))
        before, rows = asked(desk.path, tables), asked(desk.path, lambda connection: tables(migrated(connection, version)))
        before_migration(desk, name, data)
        try_file(desk, name, f"migrated {version}", rows)
        readings = before.get("reading", [(row[0], 1) for row in before["document"]])
        added = {"meta": [(3,)], "reading": readings, "waiver": []}
        after = asked(desk.path, tables)
        for table in sorted({*after, *before}):
            differs(f"{table} of {name}", str(after.get(table)), [str(added.get(table, before.get(table)))])
        kept = dict(declared(version))
        wanted = [(kind, table, of, kept.get(table, text)) for kind, table, of, text in new]
        differs(f"the schema of {name}", str(asked(desk.path, schema)), [str(wanted)])
        check = asked(desk.path, lambda connection: connection.execute("PRAGMA integrity_check").fetchall())
        differs(f"the check of {name}", str(check), [str([("ok",)])])
        differs(f"audit of {name}, migrated", desk.audit(), ["sound"])
        compare_answers(desk, name, before, fresh)
        kept = bytes_at(desk.path)
        differs(f"{name} migrated again", desk.migrate(), ["BadVersion"])
        differs(f"{name} migrated again", "as it was" if bytes_at(desk.path) == kept else "changed", ["as it was"])
        compare_texts(desk, name, before, fresh)
    print(f"{len(make.names())} files of older versions, each with all its tables, reports and later requests", flush=True)


# ---- files that were changed by hand


def is_of_older(text):
    return not re.search(r"\b(waiver|reading|ended)\b", text)


def by_hand(desk, files):
    """Each break of an audit that an older file can have."""
    told, without = collections.Counter(), 0
    for version in make.OLDER:
        whole, first, withdrawn = (files[version][name] for name in ("whole-office", "first-release", "withdrawn-release"))
        pairs = [(whole, text) for _, text in breaks.BREAKS if is_of_older(text)]
        pairs += [(withdrawn if name == "BadState" else first, text) for name, text in breaks.KNOWN if is_of_older(text)]
        pairs += [(files[version]["empty-desk"], text) for _, text in breaks.ON_NOTHING if is_of_older(text)]
        for place, (_, one) in enumerate(breaks.ALONE):
            pairs += [(whole, f"{one}; {other}") for _, other in breaks.ALONE[place + 1 :]]
        for data, text in pairs:
            wanted = try_change(desk, data, text)
            told[wanted] += 1
            without += wanted is None
    told.pop(None, None)
    print("changes by hand: " + ", ".join(f"{name} {count}" for name, count in told.items()), f"({without} can't be written)", flush=True)


def of_versions(desk, files):
    """What `meta` says."""
    count = 0
    for version in make.OLDER:
        for office in ("empty-desk", "whole-office"):
            data = files[version][office]
            for number in VERSIONS:
                differs(f"version {number}", try_change(desk, data, f"UPDATE meta SET version = {number}"), ["BadVersion"])
            other = next(number for number in make.OLDER if number != version)
            # (a file of version 2 has all tables of version 1, and one with a name that the migration needs)
            wanted = "NotADesk" if other == 2 else "error"
            differs(f"version {other}", try_change(desk, data, f"UPDATE meta SET version = {other}"), [wanted])
            for text in ("DELETE FROM meta", f"INSERT INTO meta VALUES ({other})", "INSERT INTO meta VALUES (3), (4)"):
                differs(text, try_change(desk, data, text), ["BadMeta"])
            count += len(VERSIONS) + 4
    for columns, row, wanted in (
        ("version", "", "BadMeta"), ("version", "(1), (2)", "BadMeta"), ("version", "(1), (1)", "BadMeta"),
        ("version", "(NULL)", "BadMeta"), ("version", "('1')", "BadMeta"), ("version", "(1.0)", "BadMeta"),
        ("version", "(x'01')", "BadMeta"), ("version", "(1)", "NotADesk"), ("version", "(2)", "NotADesk"),
        ("version", "(3)", "BadVersion"), ("version", "(7)", "BadVersion"), ("one, version", "(1, 7)", "BadVersion"),
        ("one, version", "(7, 1)", "NotADesk"), ("one, Version", "(1, 7)", "BadVersion"), ("versions", "(1)", "NotADesk"),
    ):
        desk.put(None)
        auditing.executed(desk, None, f"CREATE TABLE meta ({columns})" + (f"; INSERT INTO meta VALUES {row}" if row else ""))
        try_file(desk, f"meta ({columns}) with {row or 'no row'}", wanted, None)
        count += 1
    print(f"{count} versions in meta", flush=True)


def written(desk, rows, statements):
    """Writes a file with these tables in this order, the rows of those that have them, and what has no name."""
    desk.put(None)
    connection = sqlite3.connect(desk.path, isolation_level=None)
    connection.execute("BEGIN")
    for name, text in (pair for pair in statements if pair[0]):
        connection.execute(text)
        if name in rows:
            marks = ", ".join("?" * len(chance.COLUMNS[name]))
            connection.executemany(f"INSERT INTO {name} ({', '.join(chance.COLUMNS[name])}) VALUES ({marks})", rows[name])
    connection.execute("COMMIT")
    connection.executescript("".join(text for name, text in statements if not name))
    connection.close()


def of_other_tables(desk, files):
    """Tables that are missing, that exist besides a version's, or that are in another order."""
    count = 0
    for version in make.OLDER:
        desk.put(files[version]["whole-office"])
        rows, of_version = asked(desk.path, tables), declared(version)
        later = declared(3)[len(of_version) :]
        kinds = [(f"no {name}", [pair for pair in of_version if pair[0] != name], "NotADesk") for name, _ in of_version]
        orders = [(f"{name} before the others", sorted(of_version, key=lambda pair: pair[0] != name)) for name, _ in of_version[1:]]
        orders += [(f"{name} behind the others", sorted(of_version, key=lambda pair: pair[0] == name)) for name, _ in of_version[:-1]]
        orders += [("the other way round", of_version[::-1])]
        orders += [("numbers that are NOT NULL", [(name, others.numbered(name, text)) for name, text in of_version])]
        kinds += [(*pair, "migrated") for pair in orders]
        kinds += [("a table of version 3 more", [*of_version, *later[:1]], "error")]
        kinds += [("all tables of version 3", declared(3), "error"), ("waiver alone beside them", [*of_version, later[-1]], "error")]
        kinds += [("a view with a name of version 3", [*of_version, ("waiver", "CREATE VIEW waiver AS SELECT 1")], "error")]
        kinds += [(text, [*of_version, ("", text)], "migrated" if taken else "NotADesk") for _, text, taken in others.ADDED]
        for what, statements, wanted in kinds:
            written(desk, rows, statements)
            is_wanted = wanted == "migrated"
            found = asked(desk.path, lambda connection: tables(migrated(connection, version))) if is_wanted else None
            # the program may not be able to read triggers and some indexes
            try_file(desk, f"version {version}: {what}", f"migrated {version}" if is_wanted else wanted, found, [] if is_wanted else ["error"])
        written(desk, rows, of_version)
        try_file(desk, f"version {version}, written anew", *asked(desk.path, wanted_of))
        count += len(kinds) + 1
    print(f"{count} files with tables more, fewer, or in another order", flush=True)


def of_other_forms(desk, files):
    """Tables of other forms, and files that another program rewrote."""
    count = 0
    for version in make.OLDER:
        desk.put(files[version]["whole-office"])
        copy, rows = others.Copy(desk.path), asked(desk.path, wanted_of)[1]
        moved = {table: sorted(map(repr, lines)) for table, lines in rows.items()}
        for name, form in others.FORMS:
            desk.put(None)
            copy.write(desk.path, **copy.changed(form)).close()
            try_file(desk, f"version {version}: {name}", "NotADesk", None, ["error"])
            path = auditing.restored(desk, version)
            found = {table: sorted(map(repr, lines)) for table, lines in asked(path, tables).items()}
            differs(f"what is moved of version {version}: {name}", str(found), [str(moved)])
            differs(f"audit of what is moved of version {version}: {name}", desk.audit(path), ["sound"])
        for pragma in others.PRAGMAS:
            desk.put(None)
            copy.write(desk.path, [pragma]).close()
            try_file(desk, f"version {version}: {pragma}", f"migrated {version}", rows, ["error"])
        auditing.executed(desk, files[version]["whole-office"], "PRAGMA page_size = 512; VACUUM")
        try_file(desk, f"version {version}, vacuumed", f"migrated {version}", rows)
        count += len(others.FORMS) + len(others.PRAGMAS) + 1
    print(f"{count} files of other forms", flush=True)


def of_other_values(desk, files):
    """Values that no desk writes, each in the file of one version: in turn, if both have the table."""
    told, place = collections.Counter(), 0
    for text in others.values():
        table = re.match(r"UPDATE (\w+)", text).group(1)
        versions = [version for version in make.OLDER if table in make.TABLES[version]]
        if not versions:
            continue
        data = files[versions[place % len(versions)]]["whole-office"]
        # a text that isn't UTF-8 may be a separate fault
        told[try_change(desk, data, text, ["error"] if "CAST" in text else [])] += 1
        place += 1
    without = told.pop(None, 0)
    print(f"{sum(told.values())} values that no desk writes ({without} can't be written)", flush=True)


def of_numbers_below_0(desk, files):
    """Sound rows with a number below 0 aren't a desk's: they aren't migrated, and the file stays unchanged."""
    for version in make.OLDER:
        for below, other in breaks.BELOW_0:
            auditing.executed(desk, files[version]["whole-office"], below)
            before = bytes_at(desk.path)
            differs(f"migrate version {version}, after {below}", desk.migrate(), ["error"])
            differs(f"the file of version {version}, after {below}", bytes_at(desk.path) == before, [True])
            auditing.executed(desk, files[version]["whole-office"], other)
            differs(f"migrate version {version}, after {other}", desk.migrate(), [f"migrated {version}"])
    print(f"numbers below 0 in {len(breaks.BELOW_0)} columns", flush=True)


def at_random(desk, files, changes):
    turn, told, done = random.Random(1), collections.Counter(), 0
    while done < changes:
        version = turn.choice(make.OLDER)
        office = turn.choice(["whole-office", "whole-office", "first-release", "withdrawn-release"])
        desk.put(files[version][office])
        connection = sqlite3.connect(desk.path, isolation_level=None)
        connection.execute("BEGIN")
        by_chance = chance.Chance(connection, turn)
        try:
            by_chance.change()
        except sqlite3.OperationalError:
            # a table that this version lacks
            connection.execute("ROLLBACK")
            connection.close()
            continue
        connection.execute("COMMIT")
        wanted, rows = wanted_of(connection)
        connection.close()
        # a desk requires more of numbers than an audit does
        try_file(desk, f"{office} of version {version}, after {by_chance.notes}", wanted, rows, ["error"] if rows else [])
        told[wanted] += 1
        done += 1
    print(f"{changes:,} changes at random: " + ", ".join(f"{name} {count}" for name, count in sorted(told.items())), flush=True)


# ---- files in other places


def in_other_places(desk, room, files):
    data = files[1]["whole-office"]
    for what, found, wanted in (
        ("words", b"a file of words\n" * 100, ["error"]),
        ("random bytes", random.Random(1).randbytes(70_000), ["error"]),
        ("a file cut short", data[: len(data) // 2], ["error", *REFUSALS]),
        ("the first page alone", data[:4_096], ["error", *REFUSALS]),
    ):
        desk.put(found)
        differs(f"migrate, {what}", desk.migrate(), wanted)
        differs(f"the file, {what}", "as it was" if bytes_at(desk.path) == found else "changed", ["as it was"])
    desk.put(None)
    differs("migrate, no file", desk.migrate(), ["error"])
    differs("what is left, no file", "a file" if os.path.exists(desk.path) else "none", ["none"])
    desk.put(b"")
    differs("migrate, an empty file", desk.migrate(), ["NotADesk"])
    # what is left has no tables
    differs("what is left, an empty file", str(asked(desk.path, schema)), ["[]"])
    differs("migrate, no folder", desk.migrate(os.path.join(room, "none/desk.db")), ["error"])
    folder = os.path.join(room, "folder")
    os.mkdir(folder)
    differs("migrate, a folder", desk.run("migrate", "--db", folder), ["error"])
    auditing.executed(desk, b"", "CREATE TABLE duty (number)")
    differs("migrate, a table of something else", desk.migrate(), ["NotADesk"])
    of_logs(desk, files)
    in_use(desk, files)
    print("files in other places", flush=True)


def of_logs(desk, files):
    """A file whose last changes are in its log."""
    for text in ("UPDATE duty SET state = 'met' WHERE number = 2", "UPDATE releases SET state = 'frozen' WHERE name = 'bare'"):
        desk.put(files[2]["whole-office"])
        connection = sqlite3.connect(desk.path, isolation_level=None)
        connection.execute("PRAGMA wal_autocheckpoint = 0")
        connection.execute("PRAGMA journal_mode = WAL").fetchall()
        connection.execute(text)
        wanted, rows = wanted_of(connection)
        found = [bytes_at(desk.path + end) for end in ("", "-wal")]
        connection.close()
        desk.put(found[0])
        with open(desk.path + "-wal", "wb") as file:
            file.write(found[1])
        # what a stopped desk left in the log may be moved into the file
        told = desk.run("migrate", "--db", desk.path)
        differs(f"migrate of a file and its log, after {text}", ANSWERS.get(told, told), [wanted])
        if rows:
            differs("the rows of a file and its log", "these" if asked(desk.path, tables) == rows else "other rows", ["these"])


def in_use(desk, files):
    """A file that a desk has open is read once that desk has ended."""
    desk.put(files[1]["first-release"])
    differs("migrate before it is used", desk.migrate(), ["migrated 1"])
    with subprocess.Popen([desk.program, "script", "--db", desk.path], stdin=subprocess.PIPE, stdout=subprocess.PIPE) as other:
        other.stdin.write(b'{"ask":"totals","release":"r1"}\n')
        other.stdin.flush()
        other.stdout.readline()
        differs("migrate of a file in use", desk.migrate(), ["error"])
        other.stdin.close()
    differs("migrate of a file that was in use", desk.migrate(), ["BadVersion"])


def main():
    program = os.path.abspath(sys.argv[1])
    changes, kills = (int(word) for word in (sys.argv[2:] + [str(CHANGES), str(KILLS)][len(sys.argv) - 2 :]))
    begun = time.perf_counter()
    with tempfile.TemporaryDirectory(dir=auditing.ROOM) as room:
        desk = Desk(program, room)
        files = {version: {} for version in make.OLDER}
        for name, office, version in make.names():
            files[version][office] = loaded(desk, make.text_of(name))
        of_dumps(desk)
        by_hand(desk, files)
        of_versions(desk, files)
        of_other_tables(desk, files)
        of_other_forms(desk, files)
        of_other_values(desk, files)
        of_numbers_below_0(desk, files)
        at_random(desk, files, changes)
        in_other_places(desk, room, files)
        stopping.try_all(desk, room, files, kills)
    for what in auditing.differences[: auditing.SHOWN]:
        print(f"differs: {what}")
    told = f"{desk.audits:,} migrations and audits in {time.perf_counter() - begun:.0f} seconds, the longest {desk.longest:.2f}"
    print(f"{told}: {len(auditing.differences)} differences" if auditing.differences else f"{told}: passed")
    sys.exit(bool(auditing.differences))


if __name__ == "__main__":
    main()
