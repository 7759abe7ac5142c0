"""Reads the tables of a desk's file with SQLite: python3 tests/tables.py PROGRAM

After the first release the file must be sound, its tables must have the columns and keys of docs/TABLES.md, and the rows must be those that
follow from the requests. Then each query of that page is run on it.
"""

import os
import re
import sqlite3
import subprocess
import sys
import tempfile

HERE = os.path.dirname(os.path.abspath(__file__))
sys.path.insert(0, os.path.join(HERE, "acceptance"))
sys.dont_write_bytecode = True

import dialogue

PAGE = os.path.join(HERE, "../docs/TABLES.md")

# Each table's columns in order, its key, the other columns that no two rows share, and those that may be NULL.
TABLES = {
    "meta": ("version", "version", "", ""),
    "catalogue": ("revision body", "revision", "", ""),
    "rule": ("revision term form spelled codes", "revision term form", "", ""),
    "document": ("number namespace bytes", "number", "namespace", ""),
    "reading": ("document profile", "document", "", ""),
    "package": ("document id name version concluded copyright shipped", "document id", "", "version concluded copyright"),
    "extracted": ("document reference body", "document reference", "", "body"),
    "conclusion": ("document package expression", "document package", "", ""),
    "adoption": ("document reference licence", "document reference", "", ""),
    "releases": ("name place form state revision", "name", "place", ""),
    "attached": ("release document", "release document", "", ""),
    "choice": ("release document package term", "release document package term", "", ""),
    "frozen": ("release document package term rule", "release document package term", "", ""),
    "duty": ("number release document package term code rule state", "number", "release document package term code", ""),
    "change": ("duty step day word body", "duty step", "", ""),
    "waiver": ("duty step last_day", "duty step", "", ""),
}


def rows_wanted():
    catalogue, document = dialogue.fixture("small catalogue"), dialogue.fixture("small document")
    return {
        "meta": [(3,)],
        "catalogue": [(1, catalogue)],
        "rule": [(1, "mit", "binary", "MIT", "include-text")],
        "document": [(1, "https://example.org/d1", document.encode())],
        "reading": [(1, 1)],
        "package": [(1, "SPDXRef-p", "p", "1.0", "MIT", "Copyright P", 1)],
        "releases": [("r1", 1, "binary", "frozen", 1)],
        "attached": [("r1", 1)],
        "choice": [("r1", 1, "SPDXRef-p", "mit")],
        "frozen": [("r1", 1, "SPDXRef-p", "mit", "MIT")],
        "duty": [(1, "r1", 1, "SPDXRef-p", "mit", "include-text", "MIT", "met")],
        "change": [(1, 1, "2025-03-03", "raised", ""), (1, 2, "2025-03-04", "met", "notices.txt")],
    }


def key_of(connection, table):
    info = connection.execute(f"PRAGMA table_info({table})").fetchall()
    return [name for _, name in sorted((place, name) for _, name, _, _, _, place in info if place)]


def uniques_of(connection, table):
    found = []
    for _, name, is_unique, origin, _ in connection.execute(f"PRAGMA index_list({table})").fetchall():
        if is_unique and origin == "u":
            found.append([row[2] for row in connection.execute(f"PRAGMA index_info({name})")])
    return found


def compare(what, found, wanted):
    if found != wanted:
        sys.exit(f"{what}: {found!r}, and not {wanted!r}")


def main():
    program = os.path.abspath(sys.argv[1])
    requests = dialogue.read(os.path.join(HERE, "acceptance/script-first-release.dialogue"))[0]
    with tempfile.TemporaryDirectory() as room:
        path = os.path.join(room, "desk.db")
        subprocess.run([program, "script", "--db", path], input=requests, stdout=subprocess.DEVNULL, check=True)
        connection = sqlite3.connect(path)
        compare("the check of the file", connection.execute("PRAGMA integrity_check").fetchall(), [("ok",)])
        listed = connection.execute("SELECT name, sql FROM sqlite_schema WHERE type = 'table'").fetchall()
        compare("the tables", sorted(name for name, _ in listed), sorted(TABLES))
        for name, text in listed:
            columns, key, unique, null = (words.split() for words in TABLES[name])
            info = connection.execute(f"PRAGMA table_info({name})").fetchall()
            compare(f"the columns of {name}", [row[1] for row in info], columns)
            compare(f"the key of {name}", key_of(connection, name), key)
            compare(f"what is unique in {name}", uniques_of(connection, name), [unique] if unique else [])
            may_be_null = [row[1] for row in info if not row[3]]
            compare(f"what may be NULL in {name}", may_be_null, null)
            if not text.endswith("STRICT"):
                sys.exit(f"{name} isn't STRICT")
            rows = connection.execute(f"SELECT * FROM {name}").fetchall()
            compare(f"the rows of {name}", rows, rows_wanted().get(name, []))
        with open(PAGE, encoding="utf-8") as page:
            questions = re.findall(r"```sql\n(.*?)```", page.read(), re.S)
        for question in questions:
            connection.execute(question).fetchall()
        compare("the state of each release", connection.execute(questions[1]).fetchall(), [("r1", 1, 0, 1, 0, 0)])
        connection.close()
        print(f"{len(listed)} tables, and {len(questions)} questions of docs/TABLES.md: passed")


if __name__ == "__main__":
    main()
