"""A second judge of a desk's tables, written independently of the desk's, for what an audit should answer: python3 tests/second_judge.py
FILE..

Prints `sound` for each file, or the name of the first of the ten conditions (docs/AUDIT.md) that its rows don't meet. It reads the tables
by SQLite, and the catalogues, documents, expressions and days in them by its own readers. Needs tomllib (Python 3.11).
"""

import calendar
import functools
import os
import re
import sqlite3
import sys
import tomllib
from collections import Counter, namedtuple

HERE = os.path.dirname(os.path.abspath(__file__))
sys.path.insert(0, os.path.join(HERE, "documents"))
sys.dont_write_bytecode = True

import oracle

# ---- licence expressions (SPDX 2.3, Annex D)

CAPITALS, EITHER = 1, 2
OPERATORS = {CAPITALS: (b"AND", b"OR", b"WITH"), EITHER: (b"AND", b"OR", b"WITH", b"and", b"or", b"with")}
EXPRESSION_BYTES = 16_384
OPEN_PARENTHESES = 64
EXPRESSION_TERMS = 1_024
IDSTRING = rb"[A-Za-z0-9.\-]+"
REFERENCE = rb"(?:DocumentRef-%b:)?LicenseRef-%b" % (IDSTRING, IDSTRING)
RESERVED = (b"LicenseRef-", b"DocumentRef-")


class NotRead(Exception):
    """The text isn't an expression, a term, a catalogue or a document."""


def folded(text):
    return bytes(byte + 32 if 65 <= byte <= 90 else byte for byte in text)


def word_printed(token):
    """A licence's or a reference's printed form."""
    if token.startswith(RESERVED):
        if not re.fullmatch(REFERENCE, token):
            raise NotRead
        return token
    if not re.fullmatch(IDSTRING + rb"\+?", token):
        raise NotRead
    return folded(token)


class Tokens:
    """The tokens of a text, read from the left."""

    def __init__(self, text, profile):
        if len(text) > EXPRESSION_BYTES:
            raise NotRead
        self.rest = re.findall(rb"[()]|[^ \t()]+", text)[::-1]
        self.operators = OPERATORS[profile]
        self.open, self.terms = 0, 0

    def next_is(self, operator):
        return bool(self.rest) and self.rest[-1].upper() == operator and self.rest[-1] in (*self.operators, b"(", b")")

    def take(self):
        if not self.rest:
            raise NotRead
        return self.rest.pop()

    def term(self):
        """A word, perhaps with an exception, as it is printed."""
        token = self.take()
        if token in self.operators or token in (b"(", b")"):
            raise NotRead
        self.terms += 1
        if self.terms > EXPRESSION_TERMS:
            raise NotRead
        printed = word_printed(token)
        if not self.next_is(b"WITH"):
            return printed
        self.take()
        exception = self.take()
        is_id = re.fullmatch(IDSTRING, exception) and not exception.startswith(RESERVED)
        if not is_id or exception in self.operators:
            raise NotRead
        return printed + b" WITH " + folded(exception)

    def operand(self):
        if not self.next_is(b"("):
            return self.term()
        self.take()
        self.open += 1
        if self.open > OPEN_PARENTHESES:
            raise NotRead
        inner = self.joined(b"OR")
        if self.take() != b")":
            raise NotRead
        self.open -= 1
        return inner

    def joined(self, operator):
        """Parts with an operator between them: one is itself, more are a tuple with `any` or `all` in front."""
        part = (lambda: self.joined(b"AND")) if operator == b"OR" else self.operand
        parts = [part()]
        while self.next_is(operator):
            self.take()
            parts.append(part())
        return parts[0] if len(parts) == 1 else (any if operator == b"OR" else all, *parts)


@functools.lru_cache(maxsize=100_000)
def tree_of(text, profile):
    """The tree of an expression, or None. NONE and NOASSERTION alone have none."""
    try:
        tokens = Tokens(text, profile)
        if tokens.rest in ([b"NONE"], [b"NOASSERTION"]):
            return None
        tree = tokens.joined(b"OR")
        return None if tokens.rest else tree
    except NotRead:
        return None


@functools.lru_cache(maxsize=100_000)
def term_of(text):
    """A licence term as it is printed, or None."""
    try:
        tokens = Tokens(text, CAPITALS)
        printed = tokens.term()
        return None if tokens.rest else printed
    except NotRead:
        return None


def is_true(tree, terms):
    if isinstance(tree, bytes):
        return tree in terms
    return tree[0](is_true(part, terms) for part in tree[1:])


def is_minimal(tree, terms):
    """No tree becomes false by adding a term, so it is enough to leave out each term alone."""
    return is_true(tree, terms) and not any(is_true(tree, terms - {term}) for term in terms)


# ---- catalogues

CATALOGUE_BYTES = 4 << 20
Rule = namedtuple("Rule", "term form spelled codes")


def text_in(value):
    if not isinstance(value, str):
        raise NotRead
    return value.encode()


def id_in(value):
    text = text_in(value)
    if not re.fullmatch(IDSTRING, text) or len(text) > 64:
        raise NotRead
    return text


def all_once(values):
    if len(set(values)) != len(values):
        raise NotRead
    return values


def list_in(value):
    if not isinstance(value, list):
        raise NotRead
    return value


def tables_in(found, part, keys):
    """The values of the keys of each table of a part."""
    for table in list_in(found.get(part, [])):
        if not isinstance(table, dict) or any(key not in table for key in keys):
            raise NotRead
        yield [table[key] for key in keys]


def duty_in(code, title):
    if not 1 <= len(text_in(title)) <= 256 or not are_shown(text_in(title)):
        raise NotRead
    return id_in(code)


def rule_in(forms, codes, term, form, duties):
    term, form, duties = text_in(term), text_in(form), all_once([text_in(code) for code in list_in(duties)])
    printed = term_of(term)
    if printed is None or printed.startswith(RESERVED) or form not in forms or not set(duties) <= set(codes):
        raise NotRead
    return Rule(printed, form, term, b" ".join(sorted(duties)))


def text_id_in(licence, body):
    text_in(body)
    licence = text_in(licence)
    if not re.fullmatch(IDSTRING, licence) or licence.startswith(RESERVED):
        raise NotRead
    return folded(licence)


@functools.lru_cache(maxsize=10_000)
def rules_of(body):
    """The rules of a catalogue, sorted by term and form, or None if the text isn't a catalogue."""
    try:
        if len(body) > CATALOGUE_BYTES:
            return None
        found = tomllib.loads(body.decode())
        forms = all_once([id_in(form) for form in list_in(found.get("forms"))])
        if not 1 <= len(forms) <= 16:
            return None
        codes = all_once([duty_in(*values) for values in tables_in(found, "duty", ("code", "title"))])
        rules = [rule_in(forms, codes, *values) for values in tables_in(found, "rule", ("term", "form", "duties"))]
        all_once([(rule.term, rule.form) for rule in rules])
        all_once([text_id_in(*values) for values in tables_in(found, "text", ("licence", "body"))])
        return sorted(rules)
    except (NotRead, tomllib.TOMLDecodeError, UnicodeDecodeError):
        return None


# ---- documents (SPDX 2.3, tag-value)

DOCUMENT = "SPDXRef-DOCUMENT"
FORWARD = {"DESCRIBES", "CONTAINS", "DEPENDS_ON", "STATIC_LINK", "DYNAMIC_LINK"}
BACKWARD = {"DESCRIBED_BY", "CONTAINED_BY", "DEPENDENCY_OF", "RUNTIME_DEPENDENCY_OF"}
KEPT = ("PackageVersion", "PackageLicenseConcluded", "PackageCopyrightText")
Read = namedtuple("Read", "namespace packages references")


def sections_of(fields):
    """The fields of each section by their tags, the document's first; relationships are put into lists."""
    sections, relationships = [{"": "document"}], []
    for _, tag, value in fields:
        if tag in oracle.STARTS:
            sections.append({"": oracle.STARTS[tag]})
        if tag == "Relationship":
            relationships.append(re.split("[ \t]+", value.strip(" \t")))
        elif tag == "DocumentNamespace":
            sections[0][tag] = value
        else:
            sections[-1].setdefault(tag, value)
    return sections, relationships


def edges_of(elements, relationships):
    """The edges between elements of the document that ship, and whether one describes it."""
    edges, is_described = [], False
    for left, kind, right in relationships:
        if left in elements and right in elements and kind in FORWARD | BACKWARD:
            edges.append((left, right) if kind in FORWARD else (right, left))
            is_described |= kind in ("DESCRIBES", "DESCRIBED_BY") and DOCUMENT in (left, right)
    return edges, is_described


def shipped_by(elements, packages, relationships):
    """What is reached from the document, and from each package if nothing describes the document."""
    edges, is_described = edges_of(elements, relationships)
    targets = {}
    for start, end in edges:
        targets.setdefault(start, []).append(end)
    waiting = [DOCUMENT] if is_described else [DOCUMENT, *packages]
    reached = set(waiting)
    while waiting:
        for end in targets.get(waiting.pop(), ()):
            if end not in reached:
                reached.add(end)
                waiting.append(end)
    return reached


def stored(text):
    return None if text is None else text.encode()


@functools.lru_cache(maxsize=10_000)
def document_of(data):
    """What a desk keeps of a document, or None if the bytes aren't one."""
    if oracle.answer(data) != "document":
        return None
    sections, relationships = sections_of(oracle.fields(data.decode()))
    packages = {section["SPDXID"]: section for section in sections if section[""] == "package"}
    ids = {"document": "SPDXID", "package": "SPDXID", "file": "SPDXID", "snippet": "SnippetSPDXID"}
    elements = {section.get(ids[section[""]]) for section in sections if section[""] in ids}
    shipped = shipped_by(elements, packages, relationships)
    rows = [
        (stored(name), stored(section["PackageName"]), *(stored(section.get(tag)) for tag in KEPT), int(name in shipped))
        for name, section in packages.items()
    ]
    licences = {section["LicenseID"]: section.get("ExtractedText") for section in sections if section[""] == "extracted"}
    references = [(stored(name), stored(text)) for name, text in licences.items()]
    return Read(stored(sections[0]["DocumentNamespace"]), sorted(rows), sorted(references))


# ---- days and texts

def is_day(text):
    """A day of the calendar, as YYYY-MM-DD, years 0000 to 9999."""
    found = re.fullmatch(rb"(\d{4})-(\d\d)-(\d\d)", text)
    if not found:
        return False
    year, month, day = map(int, found.groups())
    if not 1 <= month <= 12:
        return False
    return 1 <= day <= calendar.monthrange(year, month)[1]


def are_shown(text):
    """No byte is a control byte."""
    return all(byte >= 32 and byte != 127 for byte in text)


def is_note(text):
    return 1 <= len(text) <= 1_024 and are_shown(text)


# ---- the rows

COLUMNS = {
    "meta": "version",
    "catalogue": "revision body",
    "rule": "revision term form spelled codes",
    "document": "number namespace bytes",
    "reading": "document profile",
    "package": "document id name version concluded copyright shipped",
    "extracted": "document reference body",
    "conclusion": "document package expression",
    "adoption": "document reference licence",
    "releases": "name place form state revision",
    "attached": "release document",
    "choice": "release document package term",
    "frozen": "release document package term rule",
    "duty": "number release document package term code rule state",
    "change": "duty step day word body",
    "waiver": "duty step last_day",
}
# of how many columns the key is that begins the table's rows
KEYS = {
    "rule": 3, "package": 2, "extracted": 2, "conclusion": 2, "adoption": 2, "attached": 2, "choice": 4, "frozen": 4, "change": 2,
    "waiver": 2,
}
ROWS = {table: namedtuple(table, columns) for table, columns in COLUMNS.items()}
Snapshot = namedtuple("Snapshot", COLUMNS)


def snapshot_of(connection):
    """The rows of each table, in the order of its key. Texts are bytes."""
    connection.text_factory = bytes
    found = []
    for table, columns in COLUMNS.items():
        rows = connection.execute(f"SELECT {', '.join(columns.split())} FROM {table}").fetchall()
        found.append(sorted(map(ROWS[table]._make, rows), key=lambda row: row[: KEYS.get(table, 1)]))
    return Snapshot._make(found)


# ---- the ten conditions

RELEASE_STATES = (b"open", b"frozen", b"withdrawn")
# each word with the state that it leaves a duty in, and the states that it moves a duty from
WORDS = {
    b"raised": (b"open", ()),
    b"met": (b"met", (b"open",)),
    b"waived": (b"waived", (b"open",)),
    b"reopened": (b"open", (b"met", b"waived")),
    b"withdrawn": (b"withdrawn", (b"open", b"waived")),
    b"ended": (b"open", (b"waived",)),
}
DUTIES = 100_000
CHANGES = 999


def are_from_one(numbers):
    return list(numbers) == list(range(1, len(numbers) + 1))


def has_version(s):
    return [row.version for row in s.meta] == [3]


def are_revisions(s):
    return are_from_one([row.revision for row in s.catalogue]) and all(rules_of(row.body) is not None for row in s.catalogue)


def are_rules(s):
    return s.rule == [(row.revision, *rule) for row in s.catalogue for rule in rules_of(row.body)]


def has_its_namespace(row):
    read = document_of(row.bytes)
    return read is not None and read.namespace == row.namespace


def are_documents(s):
    numbers = [row.number for row in s.document]
    are_read = are_from_one(numbers) and all(has_its_namespace(row) for row in s.document)
    return are_read and [row.document for row in s.reading] == numbers and all(row.profile in (1, 2) for row in s.reading)


def are_packages(s):
    packages = [(row.number, *package) for row in s.document for package in document_of(row.bytes).packages]
    references = [(row.number, *reference) for row in s.document for reference in document_of(row.bytes).references]
    return s.package == packages and s.extracted == references


def is_adoption(row):
    """From a reference to a licence, both as they are printed and with no plus and no exception."""
    is_reference = re.fullmatch(REFERENCE, row.reference) and term_of(row.reference) == row.reference
    is_licence = re.fullmatch(IDSTRING, row.licence) and not row.licence.startswith(RESERVED)
    return bool(is_reference and is_licence) and term_of(row.licence) == row.licence


def conclusion_in(s):
    """The tree of each package's conclusion: the office's, read in capitals, otherwise its own field's, by the document's profile."""
    office = {(row.document, row.package): row.expression for row in s.conclusion}
    profiles = {row.document: row.profile for row in s.reading}

    def tree(package):
        text = office.get((package.document, package.id))
        if text is not None:
            return tree_of(text, CAPITALS)
        return None if package.concluded is None else tree_of(package.concluded, profiles[package.document])

    return tree


def grouped(rows, columns):
    """The rows that are equal on some columns, by these."""
    groups = {}
    for row in rows:
        groups.setdefault(tuple(getattr(row, name) for name in columns), []).append(row)
    return groups


def are_held(s):
    """Each choice is of a release that isn't withdrawn, for a shipped package of an attached document, and minimal."""
    states = {row.name: row.state for row in s.releases}
    attached = {(row.release, row.document) for row in s.attached}
    packages = {(row.document, row.id): row for row in s.package}
    tree = conclusion_in(s)
    for (release, document, name), rows in grouped(s.choice, ("release", "document", "package")).items():
        if states.get(release, b"withdrawn") == b"withdrawn" or (release, document) not in attached:
            return False
        package, terms = packages.get((document, name)), {row.term for row in rows}
        concluded = tree(package) if package and package.shipped == 1 else None
        if concluded is None or any(term_of(term) != term for term in terms) or not is_minimal(concluded, terms):
            return False
    return True


def are_kept(s):
    """A frozen release's choices are its frozen terms."""
    choices, frozen = grouped(s.choice, ("release",)), grouped(s.frozen, ("release",))
    return all(
        [row[1:] for row in choices.get((release.name,), [])] == [row[1:4] for row in frozen.get((release.name,), [])]
        for release in s.releases
        if release.state == b"frozen"
    )


def are_choices(s):
    are_concluded = all(tree_of(row.expression, CAPITALS) is not None for row in s.conclusion)
    are_adopted = all(is_adoption(row) for row in s.adoption)
    are_placed = are_from_one(sorted(row.place for row in s.releases))
    return are_concluded and are_adopted and are_placed and are_held(s) and are_kept(s)


def are_numbered(s):
    frozen = {row.name for row in s.releases if row.revision != 0}
    return are_from_one([row.number for row in s.duty]) and len(s.duty) <= DUTIES and all(row.release in frozen for row in s.duty)


def are_duties(s):
    """The duties are those that the frozen terms owe, each by the rule of the release's revision and form that is spelled so."""
    releases = {row.name: row for row in s.releases}
    rules = {(row.revision, row.form, row.spelled): row for row in s.rule}
    owed = Counter()
    for row in s.frozen:
        release = releases.get(row.release)
        rule = rules.get((release.revision, release.form, row.rule)) if release and release.revision != 0 else None
        if rule is None:
            return False
        owed.update((row[:4], code, row.rule) for code in rule.codes.split(b" ") if code)
    return owed == Counter((row[1:5], row.code, row.rule) for row in s.duty)


def is_formed(row):
    if row.word not in WORDS or not is_day(row.day):
        return False
    if row.word in (b"raised", b"ended"):
        return row.body == b""
    return is_note(row.body) and (row.word == b"withdrawn" or row.step <= CHANGES)


def goes_on(before, row, last_days):
    """Whether a change is a move that may follow the one before it."""
    if WORDS[before.word][0] not in WORDS[row.word][1]:
        return False
    return row.word != b"ended" or last_days.get((before.duty, before.step), row.day) < row.day


def are_changes_of(duty, rows, last_days):
    if not rows or not are_from_one([row.step for row in rows]) or not all(is_formed(row) for row in rows):
        return False
    if rows[0].word != b"raised" or WORDS[rows[-1].word][0] != duty.state:
        return False
    return all(goes_on(before, row, last_days) for before, row in zip(rows, rows[1:]))


def is_waived(waiver, changes):
    row = changes.get((waiver.duty, waiver.step))
    return row is not None and row.word == b"waived" and is_day(waiver.last_day) and waiver.last_day >= row.day


def are_changes(s):
    last_days = {(row.duty, row.step): row.last_day for row in s.waiver}
    changes = {(row.duty, row.step): row for row in s.change}
    of_each = grouped(s.change, ("duty",))
    if any(not are_changes_of(row, of_each.get((row.number,), []), last_days) for row in s.duty):
        return False
    return all(1 <= row.duty <= len(s.duty) for row in s.change) and all(is_waived(row, changes) for row in s.waiver)


def are_states(s):
    releases = {row.name: row for row in s.releases}
    if any(row.state not in RELEASE_STATES for row in s.releases):
        return False
    return not any(
        row.state in (b"open", b"waived") if releases[row.release].state == b"withdrawn" else row.state == b"withdrawn"
        for row in s.duty
    )


CONDITIONS = [
    ("BadMeta", has_version),
    ("BadRevision", are_revisions),
    ("BadRule", are_rules),
    ("BadDocument", are_documents),
    ("BadPackage", are_packages),
    ("BadChoice", are_choices),
    ("BadNumber", are_numbered),
    ("BadDuty", are_duties),
    ("BadChange", are_changes),
    ("BadState", are_states),
]


def judged(s):
    """`sound`, or the first condition that isn't met. Each one may assume those before it."""
    return next((name for name, is_met in CONDITIONS if not is_met(s)), "sound")


def judged_file(path):
    connection = sqlite3.connect(path)
    try:
        return judged(snapshot_of(connection))
    finally:
        connection.close()


def main():
    for path in sys.argv[1:]:
        print(judged_file(path))


if __name__ == "__main__":
    main()
