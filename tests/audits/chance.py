"""Random changes of a desk's tables: of a cell, of a row, of a duty's moves."""

import sqlite3

import breaks
import second_judge

COLUMNS = {table: columns.split() for table, columns in second_judge.COLUMNS.items()}
TABLES = list(COLUMNS)
MAY_BE_NULL = {("package", "version"), ("package", "concluded"), ("package", "copyright"), ("extracted", "body")}
NUMBERS = (0, 1, 2, 3, -1, 999, 1_000, 100_000, 2**31, 2**32, 2**32 + 1, 2**63 - 1, -(2**63))
TEXTS = (
    "", " ", "x", "MIT", "mit", "zlib", "Zlib", "mit+", "LicenseRef-own", "LicenseRef-own WITH x", "DocumentRef-a:LicenseRef-b", "NONE",
    "NOASSERTION", "MIT OR Zlib", "mit or zlib", "MIT AND Zlib", "open", "met", "waived", "frozen", "withdrawn", "raised", "reopened",
    "ended", "binary", "source", "first", "gone", "held", "2025-02-29", "2024-02-29", "0000-01-01", "9999-12-31", "2025-04-03", "é",
    "a\0b", "a\nb", "\x7f", "y" * 1_024, "y" * 1_025,
)
DAYS = ("2025-03-01", "2025-04-02", "2025-04-03", "2025-06-30", "2025-07-01", "2026-03-05", "2026-03-06")
STATES = {word.decode(): state.decode() for word, (state, _) in second_judge.WORDS.items()}


def near_number(turn, number):
    return turn.choice([number - 1, number + 1, number, -number, *NUMBERS])


def near_text(turn, text):
    """A text with one character more, less or changed, or another text."""
    place = turn.randrange(len(text) + 1)
    before, at, after = text[:place], text[place : place + 1], text[place + 1 :]
    return turn.choice([
        lambda: before + after,
        lambda: before + at * 2 + after,
        lambda: before + at.swapcase() + after,
        lambda: before + turn.choice(" \n\t:#(x=\"-") + at + after,
        lambda: before,
        lambda: text + turn.choice(" \nx"),
        lambda: turn.choice(TEXTS),
    ])()


def near(turn, value):
    if value is None:
        return turn.choice(TEXTS)
    if isinstance(value, int):
        return max(-(2**63), min(2**63 - 1, near_number(turn, value)))
    if isinstance(value, bytes):
        return near_text(turn, value.decode("latin-1")).encode("latin-1", "replace")
    return near_text(turn, value)


class Chance:
    """Changes the tables of a connection by a source of random numbers, and notes each change."""

    def __init__(self, connection, turn):
        self.connection, self.turn, self.notes = connection, turn, []

    def do(self, text, *values):
        self.connection.execute(text, values)
        self.notes.append((text, *(value if not isinstance(value, (str, bytes)) else value[:60] for value in values)))

    def rows(self, text, *values):
        return self.connection.execute(text, values).fetchall()

    def row(self, table):
        """The rowid and the values of a row, if there is one."""
        count = self.rows(f"SELECT count(*) FROM {table}")[0][0]
        if not count:
            return None
        return self.rows(f"SELECT rowid, * FROM {table} LIMIT 1 OFFSET {self.turn.randrange(count)}")[0]

    def other(self, table, place, value):
        """Another value for a column: that of a row, one that is near, or none."""
        if (table, COLUMNS[table][place]) in MAY_BE_NULL and self.turn.random() < 0.2:
            return None
        if self.turn.random() < 0.4:
            return self.row(table)[1 + place]
        return near(self.turn, value)

    def cell(self):
        table = self.turn.choice(TABLES)
        found, place = self.row(table), self.turn.randrange(len(COLUMNS[table]))
        if found:
            value = self.other(table, place, found[1 + place])
            self.do(f"UPDATE {table} SET {COLUMNS[table][place]} = ? WHERE rowid = {found[0]}", value)

    def drop(self):
        table = self.turn.choice(TABLES)
        found = self.row(table)
        if found:
            self.do(f"DELETE FROM {table} WHERE rowid = {found[0]}")

    def double(self):
        """A row like another one, with other values until it fits."""
        table = self.turn.choice(TABLES)
        found = self.row(table)
        if not found:
            return
        values = list(found[1:])
        marks = ", ".join("?" * len(values))
        for _ in range(20):
            place = self.turn.randrange(len(values))
            values[place] = self.other(table, place, values[place])
            try:
                return self.do(f"INSERT INTO {table} VALUES ({marks})", *values)
            except sqlite3.IntegrityError:
                pass

    def swap(self):
        """Two rows of a table exchange the values of a column."""
        table = self.turn.choice(TABLES)
        place = self.turn.randrange(len(COLUMNS[table]))
        one, other = self.row(table), self.row(table)
        column = COLUMNS[table][place]
        if one and one[0] != other[0] and place >= second_judge.KEYS.get(table, 1):
            self.do(f"UPDATE {table} SET {column} = ? WHERE rowid = {one[0]}", other[1 + place])
            self.do(f"UPDATE {table} SET {column} = ? WHERE rowid = {other[0]}", one[1 + place])

    def move(self):
        """One more change of a duty, mostly with the state that it leads to."""
        turn, found = self.turn, self.row("duty")
        if not found:
            return
        duty, word = found[1], turn.choice(list(STATES))
        step = self.rows("SELECT count(*) FROM change WHERE duty = ?", duty)[0][0] + 1
        body = "" if word in ("raised", "ended") else "y"
        self.do("INSERT INTO change VALUES (?, ?, ?, ?, ?)", duty, step, turn.choice(DAYS), word, turn.choice([body, body, body, "", "z"]))
        if turn.random() < 0.9:
            self.do("UPDATE duty SET state = ? WHERE number = ?", STATES[word], duty)
        if turn.random() < (0.6 if word == "waived" else 0.1):
            self.do("INSERT INTO waiver VALUES (?, ?, ?)", duty, step, turn.choice(DAYS))

    def take_back(self):
        """The last change of a duty is undone, mostly with its waiver."""
        found = self.rows("SELECT duty, max(step) FROM change GROUP BY duty HAVING max(step) > 1")
        if not found:
            return
        duty, step = self.turn.choice(found)
        self.do("DELETE FROM change WHERE duty = ? AND step = ?", duty, step)
        if self.turn.random() < 0.9:
            self.do("DELETE FROM waiver WHERE duty = ? AND step = ?", duty, step)
        word = self.rows("SELECT word FROM change WHERE duty = ? AND step = ?", duty, step - 1)
        if word and word[0][0] in STATES:
            self.do("UPDATE duty SET state = ? WHERE number = ?", STATES[word[0][0]], duty)

    def release(self):
        """A release in another state, sometimes with its choices dropped or its open and waived duties moved."""
        found = self.row("releases")
        if not found:
            return
        self.do("UPDATE releases SET state = ? WHERE name = ?", self.turn.choice(["open", "frozen", "withdrawn"]), found[1])
        if self.turn.random() < 0.5:
            self.do("DELETE FROM choice WHERE release = ?", found[1])
        if self.turn.random() < 0.5:
            moved = "WHERE release = ? AND state IN ('open', 'waived')"
            rows = f"SELECT duty, max(step) + 1, '2025-05-01', 'withdrawn', 'y' FROM change WHERE duty IN (SELECT number FROM duty {moved})"
            self.do(f"INSERT INTO change {rows} GROUP BY duty", found[1])
            self.do(f"UPDATE duty SET state = 'withdrawn' {moved}", found[1])

    def turn_round(self):
        """The rows of a table are in reverse order in the file."""
        self.do(f"UPDATE {self.turn.choice(breaks.PLACED)} SET rowid = -rowid")

    def change(self):
        """One change, or sometimes two."""
        kinds = [self.cell] * 9 + [self.drop, self.double] * 2 + [self.move] * 4 + [self.take_back, self.release, self.swap] * 2 + [self.turn_round]
        while not self.notes:
            for _ in range(self.turn.choice([1, 1, 1, 2])):
                try:
                    self.turn.choice(kinds)()
                except sqlite3.IntegrityError:
                    pass
