"""Writes files of versions 1 and 2 as SQL: python3 tests/migrations/make.py PROGRAM

The tables of an older version are stated here, with the rows that a desk of version 3 has after the same requests: no waiver among them has
a last day, and for version 1 each document is imported with profile 1. A text NAME-of-version-N.sql is what `.dump` of sqlite3 writes: a
file with such rows is made by executing it. The tables must be made in this order.
"""

import json
import os
import sqlite3
import subprocess
import sys
import tempfile

HERE = os.path.dirname(os.path.abspath(__file__))
sys.path.insert(0, os.path.join(HERE, "../audits"))
sys.dont_write_bytecode = True

import offices

# The tables of version 1, and the additional one of version 2. A number that is a key may be declared NOT NULL, as in version 3.
FIRST = {
    "meta": "CREATE TABLE meta (version INTEGER PRIMARY KEY) STRICT",
    "catalogue": "CREATE TABLE catalogue (revision INTEGER PRIMARY KEY, body TEXT NOT NULL) STRICT",
    "rule": "CREATE TABLE rule (revision INTEGER NOT NULL, term TEXT NOT NULL, form TEXT NOT NULL, spelled TEXT NOT NULL, "
            "codes TEXT NOT NULL, PRIMARY KEY (revision, term, form)) STRICT",
    "document": "CREATE TABLE document (number INTEGER PRIMARY KEY, namespace TEXT NOT NULL UNIQUE, bytes BLOB NOT NULL) STRICT",
    "package": "CREATE TABLE package (document INTEGER NOT NULL, id TEXT NOT NULL, name TEXT NOT NULL, version TEXT, concluded TEXT, "
               "copyright TEXT, shipped INTEGER NOT NULL, PRIMARY KEY (document, id)) STRICT",
    "extracted": "CREATE TABLE extracted (document INTEGER NOT NULL, reference TEXT NOT NULL, body TEXT, "
                 "PRIMARY KEY (document, reference)) STRICT",
    "conclusion": "CREATE TABLE conclusion (document INTEGER NOT NULL, package TEXT NOT NULL, expression TEXT NOT NULL, "
                  "PRIMARY KEY (document, package)) STRICT",
    "adoption": "CREATE TABLE adoption (document INTEGER NOT NULL, reference TEXT NOT NULL, licence TEXT NOT NULL, "
                "PRIMARY KEY (document, reference)) STRICT",
    "releases": "CREATE TABLE releases (name TEXT NOT NULL, place INTEGER NOT NULL UNIQUE, form TEXT NOT NULL, state TEXT NOT NULL, "
                "revision INTEGER NOT NULL, PRIMARY KEY (name)) STRICT",
    "attached": "CREATE TABLE attached (release TEXT NOT NULL, document INTEGER NOT NULL, PRIMARY KEY (release, document)) STRICT",
    "choice": "CREATE TABLE choice (release TEXT NOT NULL, document INTEGER NOT NULL, package TEXT NOT NULL, term TEXT NOT NULL, "
              "PRIMARY KEY (release, document, package, term)) STRICT",
    "frozen": "CREATE TABLE frozen (release TEXT NOT NULL, document INTEGER NOT NULL, package TEXT NOT NULL, term TEXT NOT NULL, "
              "rule TEXT NOT NULL, PRIMARY KEY (release, document, package, term)) STRICT",
    "duty": "CREATE TABLE duty (number INTEGER PRIMARY KEY, release TEXT NOT NULL, document INTEGER NOT NULL, package TEXT NOT NULL, "
            "term TEXT NOT NULL, code TEXT NOT NULL, rule TEXT NOT NULL, state TEXT NOT NULL, "
            "UNIQUE (release, document, package, term, code)) STRICT",
    "change": "CREATE TABLE change (duty INTEGER NOT NULL, step INTEGER NOT NULL, day TEXT NOT NULL, word TEXT NOT NULL, "
              "body TEXT NOT NULL, PRIMARY KEY (duty, step)) STRICT",
}
READING = {"reading": "CREATE TABLE reading (document INTEGER PRIMARY KEY, profile INTEGER NOT NULL) STRICT"}
WAIVER = {
    "waiver": "CREATE TABLE waiver (duty INTEGER NOT NULL, step INTEGER NOT NULL, last_day TEXT NOT NULL, PRIMARY KEY (duty, step)) STRICT",
}
THIRD = {
    name: text.replace(" INTEGER PRIMARY KEY", " INTEGER NOT NULL PRIMARY KEY") for name, text in {**FIRST, **READING, **WAIVER}.items()
}
TABLES = {1: FIRST, 2: {**FIRST, **READING}, 3: THIRD}
OLDER = (1, 2)


def never_ending(requests):
    """The requests that an older desk knew: no waiver with a last day, and none that ends such waivers."""
    read = [(line, json.loads(line)) for line in requests.splitlines(keepends=True)]
    return "".join(line for line, request in read if "until" not in request and request.get("do") != "close")


def in_capitals(requests):
    """The requests of an office with documents only in capitals, so that no profile is named."""
    read = [json.loads(line) for line in requests.splitlines()]
    for request in read:
        if request.pop("profile", 1) != 1:
            for word in (" and ", " or ", " with "):
                request["text"] = request["text"].replace(word, word.upper())
    return "".join(offices.line(**request) for request in read)


def requests_of(version):
    """The requests of each office by its name."""
    whole = never_ending(offices.whole_office())
    return {
        "empty-desk": "",
        "first-release": offices.of_dialogue("acceptance/script-first-release.dialogue"),
        "withdrawn-release": offices.of_dialogue("acceptance/script-withdrawn-release.dialogue"),
        "whole-office": in_capitals(whole) if version == 1 else whole,
    }


def names():
    """The name of each text, with its office and its version."""
    return [(f"{office}-of-version-{version}", office, version) for version in OLDER for office in requests_of(version)]


def text_of(name):
    with open(os.path.join(HERE, name + ".sql"), encoding="utf-8", newline="") as file:
        return file.read()


def made(program, path, requests):
    """Makes a file of version 3 with the program, by requests, none of which may be refused."""
    done = subprocess.run([program, "script", "--db", path], input=requests.encode(), capture_output=True, timeout=120, check=False)
    if done.returncode or b'"refused"' in done.stdout or b'"fault"' in done.stdout:
        sys.exit(f"a desk isn't made: status {done.returncode}, {done.stdout[-300:]!r}, {done.stderr[:300]!r}")


def inserts(connection, table):
    """The statements that write the rows of a table, in their order in the file."""
    columns = [row[1] for row in connection.execute(f"PRAGMA table_info({table})")]
    quoted = " || ',' || ".join(f"quote({column})" for column in columns)
    return [f"INSERT INTO {table} VALUES({row});\n" for (row,) in connection.execute(f"SELECT {quoted} FROM {table} ORDER BY rowid")]


def dump(path, version):
    """The rows of a file of version 3 as those of an older version."""
    connection = sqlite3.connect(path)
    endings = connection.execute("SELECT (SELECT count(*) FROM waiver) + (SELECT count(*) FROM change WHERE word = 'ended')").fetchone()[0]
    other = connection.execute("SELECT count(*) FROM reading WHERE profile <> 1").fetchone()[0]
    if endings or version == 1 and other:
        sys.exit(f"no desk of version {version} has such rows: {endings} waivers that end, {other} documents of another profile")
    parts = []
    for table, statement in TABLES[version].items():
        rows = [f"INSERT INTO meta VALUES({version});\n"] if table == "meta" else inserts(connection, table)
        parts += [statement + ";\n", *rows]
    connection.close()
    return "".join(["PRAGMA foreign_keys=OFF;\nBEGIN TRANSACTION;\n", *parts, "COMMIT;\n"])


def dumps(program):
    """Each text by its name."""
    found = {}
    for name, office, version in names():
        with tempfile.TemporaryDirectory() as room:
            path = os.path.join(room, "desk.db")
            made(program, path, requests_of(version)[office])
            found[name] = dump(path, version)
    return found


def main():
    for name, text in dumps(os.path.abspath(sys.argv[1])).items():
        with open(os.path.join(HERE, name + ".sql"), "w", encoding="utf-8", newline="") as file:
            file.write(text)
        print(f"{name}: {len(text.encode()):,} bytes")


if __name__ == "__main__":
    main()
