"""Files of other programs, with tables that have the names of a desk's: how each is made from a sound desk's file."""

import os
import re
import sqlite3

import chance

RESTORE = os.path.join(os.path.dirname(os.path.abspath(__file__)), "../../examples/restore/restore.sql")
COLUMNS = chance.COLUMNS
TABLES = chance.TABLES
# What a column may hold in a table that isn't STRICT.
VALUES = ("NULL", "''", "'text'", "'1'", "x''", "x'ff00'", "1.5", "-1", "2147483648", "4294967297", "9223372036854775807",
          "-9223372036854775808", "CAST(x'ff' AS TEXT)", "CAST(x'61eda080' AS TEXT)")
PRAGMAS = (
    "page_size = 512", "page_size = 1024", "page_size = 8192", "page_size = 65536", "encoding = 'UTF-16le'", "encoding = 'UTF-16be'",
    "auto_vacuum = FULL", "auto_vacuum = INCREMENTAL", "journal_mode = WAL",
)


class Copy:
    """The tables and the rows of a sound file, to be written again in another way."""

    def __init__(self, path):
        connection = sqlite3.connect(path)
        self.texts = dict(connection.execute("SELECT name, sql FROM sqlite_schema WHERE type = 'table'").fetchall())
        self.rows = {name: connection.execute(f"SELECT {', '.join(COLUMNS[name])} FROM {name}").fetchall() for name in self.texts}
        connection.close()

    def write(self, path, pragmas=(), without=(), order=list, **other):
        """A file with these tables in this order, but for those that are left out or have another text."""
        connection = sqlite3.connect(path, isolation_level=None)
        for pragma in pragmas:
            connection.execute(f"PRAGMA {pragma}").fetchall()
        connection.execute("BEGIN")
        for name, text in order(list(self.texts.items())):
            if name not in without:
                connection.execute(other.get(name, text))
                marks = ", ".join("?" * len(COLUMNS[name]))
                connection.executemany(f"INSERT INTO {name} ({', '.join(COLUMNS[name])}) VALUES ({marks})", self.rows[name])
        connection.execute("COMMIT")
        return connection

    def changed(self, change):
        return {name: change(name, text) for name, text in self.texts.items()}


def bare(name, _):
    """A table with columns that have no type and no key."""
    return f"CREATE TABLE {name} ({', '.join(COLUMNS[name])})"


def turned(name, text):
    """A table with its columns in reverse order."""
    if "PRIMARY KEY (" in text:
        columns, key = re.fullmatch(r"CREATE TABLE \w+ \((.*), (PRIMARY KEY .*)\) STRICT", text).groups()
    else:
        columns, key = re.fullmatch(r"CREATE TABLE \w+ \((.*?)((?:, UNIQUE .*)?)\) STRICT", text).groups()
        key = key.removeprefix(", ")
    turned_columns = [part for part in reversed(columns.split(", "))]
    return f"CREATE TABLE {name} ({', '.join(turned_columns + ([key] if key else []))}) STRICT"


FORMS = [
    ("tables that aren't STRICT", lambda name, text: text.removesuffix(" STRICT")),
    ("tables without kinds and keys", bare),
    ("tables without rowids", lambda name, text: text + ", WITHOUT ROWID"),
    ("columns the other way round", turned),
    ("names in capitals", lambda name, text: text.replace(f"TABLE {name} ", f"TABLE {name.upper()} ")),
    ("columns in capitals", lambda name, text: re.sub(r"\((.*)\)", lambda found: f"({found.group(1).upper()})", text)),
    ("a column more", lambda name, text: re.sub(r"\(", "(more TEXT, ", text, count=1)),
    ("a computed column more", lambda name, text: re.sub(r"\(", "(more TEXT AS ('x'), ", text, count=1)),
    ("keys without regard to case", lambda name, text: text.replace(" TEXT NOT NULL", " TEXT NOT NULL COLLATE NOCASE")),
    ("checks", lambda name, text: re.sub(r"\) STRICT$", ", CHECK (1)) STRICT", text)),
    ("references", lambda name, text: text.replace("release TEXT NOT NULL", "release TEXT NOT NULL REFERENCES releases (name)")),
]

# What a file has besides a desk's tables, and whether such a file is opened as a desk.
ADDED = [
    ("an index more", "CREATE INDEX more ON duty (state)", True),
    ("an index of eight columns", "CREATE INDEX more ON duty (state, rule, code, term, package, document, release, number)", True),
    ("a UNIQUE index that repeats a key", "CREATE UNIQUE INDEX more ON releases (name)", True),
    ("a UNIQUE index that extends a key", "CREATE UNIQUE INDEX more ON releases (state, place)", True),
    ("a view more", "CREATE VIEW more AS SELECT * FROM duty", True),
    ("a table more", "CREATE TABLE more (x)", True),
    ("a table with rows, an index and a trigger of its own", "CREATE TABLE more (x UNIQUE); INSERT INTO more VALUES (1), (2); "
     "CREATE TRIGGER later AFTER INSERT ON more BEGIN DELETE FROM more; END", True),
    ("statistics", "ANALYZE", True),
    ("statistics as they are needed", "PRAGMA optimize = 0x10002", True),
    ("a UNIQUE index", "CREATE UNIQUE INDEX more ON document (bytes)", False),
    ("a UNIQUE index without regard to case", "CREATE UNIQUE INDEX more ON releases (name COLLATE NOCASE)", False),
    ("an index of nine columns", "CREATE INDEX more ON duty (state, rule, code, term, package, document, release, number, state)", False),
    ("an index of some rows", "CREATE INDEX more ON duty (code) WHERE state = 'open'", False),
    ("an index of a term", "CREATE INDEX more ON duty (lower(code))", False),
    ("a trigger", "CREATE TRIGGER more AFTER UPDATE ON duty BEGIN DELETE FROM change; END", False),
    ("a table that refers to a desk's", "CREATE TABLE more (duty INTEGER REFERENCES duty)", False),
]


def numbered(name, text):
    """A table whose number is declared NOT NULL, or isn't although it was, which makes no difference."""
    if " INTEGER NOT NULL PRIMARY KEY" in text:
        return text.replace(" INTEGER NOT NULL PRIMARY KEY", " INTEGER PRIMARY KEY")
    return text.replace(" INTEGER PRIMARY KEY", " INTEGER NOT NULL PRIMARY KEY")


# Many more rows in one table of the whole office, the columns as SQL over k, and what an audit says of them.
MANY = [
    ("BadChange", "change", 1_000_000, "1, 100 + k, '2025-03-03', 'met', 'x'"),
    ("BadChange", "change", 1_000_000, "100 + k, 1, '2025-03-03', 'raised', ''"),
    ("BadChange", "waiver", 100_000, "4, 100 + k, '2025-06-30'"),
    ("BadMeta", "meta", 100_000, "100 + k"),
    ("BadRevision", "catalogue", 100_000, "100 + k, 'x'"),
    ("BadRule", "rule", 100_000, "2, 't' || k, 'binary', 't' || k, ''"),
    ("BadDocument", "document", 100_000, "100 + k, 'n' || k, x'61'"),
    ("BadDocument", "reading", 100_000, "100 + k, 1"),
    ("BadPackage", "package", 100_000, "3, 'SPDXRef-n' || k, 'n', NULL, NULL, NULL, 0"),
    ("BadPackage", "extracted", 100_000, "3, 'LicenseRef-n' || k, NULL"),
    ("sound", "conclusion", 100_000, "3, 'SPDXRef-n' || k, 'MIT'"),
    ("sound", "adoption", 100_000, "3, 'LicenseRef-n' || k, 'mit'"),
    ("sound", "releases", 100_000, "'r' || k, 6 + k, 'binary', 'open', 0"),
    ("sound", "attached", 100_000, "'held', 100 + k"),
    ("BadChoice", "choice", 100_000, "'held', 2, 'SPDXRef-q', 't' || k"),
    ("BadChoice", "choice", 100_000, "'held', 2, 'SPDXRef-n' || k, 'zlib'"),
    ("BadChoice", "frozen", 100_000, "'source', 3, 'SPDXRef-n' || k, 'mit', 'mit'"),
    ("BadDuty", "frozen", 100_000, "'gone', 3, 'SPDXRef-n' || k, 'mit', 'mit'"),
    ("BadNumber", "duty", 100_000, "23 + k, 'gone', 3, 'p' || k, 'mit', 'x', 'mit', 'open'"),
    ("BadDuty", "duty", 99_977, "23 + k, 'gone', 3, 'p' || k, 'mit', 'x', 'mit', 'open'"),
]


def moved(path, old, version=3):
    """Moves the rows of a file of a version into a new desk at a path, by examples/restore as it says."""
    with open(RESTORE, encoding="utf-8") as file:
        text = file.read()
    if version < 3:
        text = re.sub(r"INSERT INTO main\.waiver .*?;\n", "", text, flags=re.S)
    if version < 2:
        text = text.replace("SELECT document, profile FROM old.reading", "SELECT number, 1 FROM old.document")
    connection = sqlite3.connect(path)
    connection.execute("ATTACH ? AS old", (old,))
    connection.executescript(text)
    connection.close()


def many(table, count, columns):
    return f"WITH RECURSIVE n(k) AS (SELECT 1 UNION ALL SELECT k + 1 FROM n WHERE k < {count}) INSERT INTO {table} SELECT {columns} FROM n"


def forms(path, copy):
    """Writes one file of a desk's rows after the other. Yields the name of each, and whether it is a desk's: yes, no, or as the program reads
    such a file at all."""
    for name, form in FORMS:
        copy.write(path, **copy.changed(form)).close()
        yield name, "no"
    for name, text, is_taken in ADDED:
        connection = copy.write(path)
        connection.executescript(text)
        connection.close()
        yield name, "yes" if is_taken else "no"
    copy.write(path, **copy.changed(numbered)).close()
    yield "numbers that are declared in the other way", "yes"
    copy.write(path, order=reversed).close()
    yield "tables the other way round", "yes"
    for pragma in PRAGMAS:
        copy.write(path, [pragma]).close()
        yield pragma, "if it is read"


def lacking(path, copy):
    """Writes one file after the other that lacks a table, or has something else in its place. Yields the name of each, and whether nothing
    is in its place."""
    for name in TABLES:
        copy.write(path, without=[name]).close()
        yield f"no table {name}", True
        for text in (
            f"CREATE VIEW {name} AS SELECT {', '.join(f'1 AS {column}' for column in COLUMNS[name])}",
            f"CREATE TABLE {name} ({', '.join(COLUMNS[name][1:] or ['other'])})",
            f"CREATE VIRTUAL TABLE {name} USING fts5({', '.join(COLUMNS[name])})",
        ):
            connection = copy.write(path, without=[name])
            try:
                connection.execute(text)
            except sqlite3.OperationalError:
                continue
            finally:
                connection.close()
            yield text[:40], False


def values():
    """Statements that put each value into each column of the first row of each table."""
    for table in TABLES:
        for column in COLUMNS[table]:
            for value in VALUES:
                yield f"UPDATE {table} SET {column} = {value} WHERE rowid = (SELECT min(rowid) FROM {table})"
