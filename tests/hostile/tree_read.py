"""What a source tree states: a second reader of REUSE Specification 3.3, docs/LINT.md and docs/DECISIONS.md ("Source trees").

`gathered` returns what tests/acceptance/trees.py reports about the output of `desk gather`, `linted` what `desk lint --json` lists."""

import re

import catalogue_faults
import expression_faults
import second_judge
import second_lists

LICENCE_KEY, NOTICE_KEY = "SPDX-License-" + "Identifier", "SPDX-FileCopyright" + "Text"
LICENCE_TAG, NOTICE_TAG = (f"{key}:".encode() for key in (LICENCE_KEY, NOTICE_KEY))
START, END = b"REUSE-Ignore" + b"Start", b"REUSE-Ignore" + b"End"
NO_PATH, BAD_VALUE, BAD_PRECEDENCE, BAD_LICENCE = range(1, 5)
FILES = 10_000
PLAIN_NAMES = re.compile(r"(LICENSE|LICENCE|COPYING)(\..*)?", re.S)


# ---- what a file states


def runs_of(data):
    """The runs of each line: what is outside ignored stretches."""
    at, line = [], []
    while True:
        start, feed = data.find(START), data.find(b"\n")
        if start >= 0 and (feed < 0 or start < feed):
            line.append(data[:start])
            close = data.find(END, start + len(START))
            if close < 0:
                return [*at, line]
            feeds = data.count(b"\n", start, close)
            data = data[close + len(END) :]
            if feeds:
                at, line = [*at, line, *([[]] * (feeds - 1))], []
        elif feed >= 0:
            at, line, data = [*at, [*line, data[:feed].removesuffix(b"\r")]], [], data[feed + 1 :]
        else:
            return [*at, [*line, data]]


def value_in(run, tag):
    """What follows a tag in a run, without blanks and the end of a comment."""
    blanks = b" \t"
    text = run.partition(tag)[2].strip(blanks)
    for end in (b"*/", b"-->", b"*)", b"-}"):
        if text.endswith(end):
            return text[: -len(end)].strip(blanks)
    return text


def stated(data, tag):
    """The values of a tag with their lines, the first one of each line."""
    found = []
    for number, runs in enumerate(runs_of(data), 1):
        run = next((run for run in runs if tag in run), None)
        value = value_in(run, tag) if run is not None else b""
        try:
            text = value.decode()
        except UnicodeDecodeError:
            continue
        if text:
            found.append((number, text))
    return found


# ---- REUSE.toml


def pattern_of(text):
    """A regular expression for the paths that a pattern matches."""
    def piece(match):
        word = match.group()
        if word == b"**":
            return b".*"
        if word == b"*":
            return b"[^/]*"
        return re.escape(word[1:] or word) if word.startswith(b"\\") else re.escape(word)
    return re.compile(re.sub(rb"\*\*|\*|\\.|\\|[^*\\]", piece, text.encode(), flags=re.S), re.S)


class Annotation:
    def __init__(self, patterns, precedence, notices, licences):
        self.patterns = [pattern_of(text) for text in patterns]
        self.precedence, self.notices, self.licences = precedence, notices, licences

    def matches(self, path):
        return any(pattern.fullmatch(path.encode()) for pattern in self.patterns)


def texts(value):
    """A text or a list of texts, as a list; None for another kind."""
    listed = [value] if isinstance(value, str) else value
    is_list = isinstance(listed, list) and all(isinstance(text, str) for text in listed)
    return listed if is_list else None


def annotation_of(table):
    """An annotation, or the number of its fault."""
    if "path" not in table:
        return NO_PATH
    values = [texts(table["path"]), texts(table.get(NOTICE_KEY, [])), texts(table.get(LICENCE_KEY, []))]
    if None in values or not isinstance(table.get("precedence", ""), str):
        return BAD_VALUE
    precedence = table.get("precedence", "closest")
    if precedence not in ("closest", "aggregate", "override"):
        return BAD_PRECEDENCE
    paths, notices, licences = values
    if any(not is_expression(text) for text in licences):
        return BAD_LICENCE
    return Annotation(paths, precedence, notices, licences)


def annotations_of(data):
    """The annotations of a REUSE.toml, each or its fault, or None for no TOML document of version 1."""
    try:
        found = catalogue_faults.toml_of(data.decode())
    except UnicodeDecodeError:
        return None
    if found is None or type(found.get("version")) is not int or found["version"] != 1:
        return None
    listed = found.get("annotations", [])
    if not isinstance(listed, list) or not all(isinstance(table, dict) for table in listed):
        return None
    return [annotation_of(table) for table in listed]


def is_expression(text):
    """In a tree NONE and NOASSERTION are ids like others."""
    return expression_faults.fault_of(text.encode()) is None


# ---- a tree, as texts by path


class Tree:
    def __init__(self, files):
        self.files = {path: data for path, data in files.items() if not path.startswith(".git/") and path != ".git"}
        self.annotations = {path.rpartition("REUSE.toml")[0]: annotations_of(data) for path, data in self.files.items() if is_reuse(path)}

    def covered(self):
        return sorted((path for path, data in self.files.items() if is_covered(path, data)), key=str.encode)

    def source(self, path):
        """The file that states what another one is under."""
        return path + ".license" if path + ".license" in self.files else path

    def own(self, path, tag):
        """What a file states itself, including licences that aren't expressions."""
        return [text for _, text in stated(self.files[self.source(path)], tag)]

    def counting(self, path):
        """One annotation of each folder from the root to the file's."""
        parts, found = path.split("/"), []
        for depth in range(len(parts)):
            folder = "".join(part + "/" for part in parts[:depth])
            good = [each for each in self.annotations.get(folder) or [] if isinstance(each, Annotation)]
            matching = [each for each in good if each.matches("/".join(parts[depth:]))]
            found += matching[-1:]
        return found

    def information(self, path):
        """The notices and the licences that a file is under, each sorted and once."""
        counting, told = self.counting(path), []
        override = next((place for place, each in enumerate(counting) if each.precedence == "override"), None)
        for tag, key in ((NOTICE_TAG, "notices"), (LICENCE_TAG, "licences")):
            above = counting if override is None else counting[:override]
            values = [text for each in above if each.precedence == "aggregate" for text in getattr(each, key)]
            if override is not None:
                values += getattr(counting[override], key)
            else:
                own = self.own(path, tag)
                nearest = [getattr(each, key) for each in reversed(counting) if each.precedence == "closest" and getattr(each, key)]
                values += own or (nearest[0] if nearest else [])
            told.append(sorted(set(values), key=str.encode))
        return told[0], told[1]

    def first_fault(self):
        """The line of the first fault that `gather` reports, or None."""
        for path in sorted((path for path in self.files if is_reuse(path)), key=str.encode):
            found = self.annotations[path.rpartition("REUSE.toml")[0]]
            if found is None:
                return f"fault: BadToml {path}"
            for number, each in enumerate(found):
                if isinstance(each, int):
                    return f"fault: BadAnnotation {path} {number} {each}"
        for path, line in self.bad_licences():
            return f"fault: BadExpression {path} {line}"
        return None

    def bad_licences(self):
        """Each licence of a covered file that isn't an expression, by the file that states it and its line."""
        for source in sorted({self.source(path) for path in self.covered()}, key=str.encode):
            for line, text in stated(self.files[source], LICENCE_TAG):
                if not is_expression(text):
                    yield source, line


def is_reuse(path):
    return path.rpartition("/")[2] == "REUSE.toml"


def is_covered(path, data):
    name = path.rpartition("/")[2]
    is_left_out = is_reuse(path) or name.endswith(".license") or PLAIN_NAMES.fullmatch(name)
    return bool(data) and not is_left_out and not path.startswith(("LICENSES/", ".reuse/"))


def joined(licences):
    """The expression of a file, as tests/acceptance/trees.py reports it."""
    if len(licences) < 2:
        return licences[0] if licences else "-"
    return " AND ".join(f"({licence})" for licence in licences)


def gathered(files):
    """What is reported about each covered file by its path, or the line of the first fault."""
    tree = Tree(files)
    fault = tree.first_fault()
    if fault:
        return fault
    told = {}
    for path in tree.covered():
        notices, licences = tree.information(path)
        together = joined(licences)
        if len(licences) > 1 and expression_faults.fault_of(together.encode()):
            return "fault: ExpressionTooLong"
        is_shown = notices and not any("</text>" in notice for notice in notices)
        shown = "; ".join(notices).replace("\n", "; ") if is_shown else "-"
        told[path] = f"{shown} / {together}"
    return told


def keys_of(licences):
    """The licences, references and exceptions in expressions, as keys of texts."""
    found = set()
    for licence in licences:
        tree = second_judge.Tokens(licence.encode(), second_judge.CAPITALS).joined(b"OR")
        for term in second_lists.terms_of(tree):
            name, _, exception = term.decode().partition(" WITH ")
            found.add(name if name.startswith(("LicenseRef-", "DocumentRef-")) else name.removesuffix("+"))
            found |= {exception} if exception else set()
    return found


def key_of_text(path):
    name = path.removeprefix("LICENSES/")
    name = name.rpartition(".")[0] if "." in name else name
    return key_of(name)


def key_of(name):
    """Licences and exceptions are compared ignoring case, references byte for byte."""
    return name if name.startswith(("LicenseRef-", "DocumentRef-")) else second_lists.folded(name)


def first_mention(information, key):
    """An identifier as the first file by path writes it, with that path."""
    for path, (_, licences) in information.items():
        for word in re.split(r"[ \t()]", " ".join(licences)):
            name = word.removesuffix("+")
            if word not in ("AND", "OR", "WITH") and key_of(name) == key:
                return name, path
    return key, None


def flaws_in(tree):
    """What can't be read: the older annotations, then what is wrong with REUSE.toml files and with the licences of files."""
    flaws = [("Dep5", ".reuse/dep5")] if ".reuse/dep5" in tree.files else []
    for path in sorted((path for path in tree.files if is_reuse(path)), key=str.encode):
        found = tree.annotations[path.rpartition("REUSE.toml")[0]]
        flaws += [("BadToml", path)] if found is None else [("BadAnnotation", path) for each in found if isinstance(each, int)]
    return flaws + [("BadExpression", path, line) for path, line in tree.bad_licences()]


def blanks_in(tree):
    """Licences with a blank at an end, in REUSE.toml files whose annotations can all be read."""
    blanks = []
    for path in sorted((path for path in tree.files if is_reuse(path)), key=str.encode):
        found = tree.annotations[path.rpartition("REUSE.toml")[0]] or []
        if not any(isinstance(each, int) for each in found):
            blanks += [("BlankAtEnd", path) for each in found if any(text != text.strip(" \t") for text in each.licences)]
    return blanks


def linted(files):
    """The problems by kind: what tests/acceptance/trees.py shows of `lint`, as lists."""
    tree = Tree(files)
    flaws = flaws_in(tree)
    information = {path: tree.information(path) for path in tree.covered()}
    used = keys_of(licence for _, licences in information.values() for licence in licences if is_expression(licence))
    text_files = [path for path in tree.files if re.fullmatch(r"LICENSES/[^/]+", path) and not path.endswith(".license") and not is_reuse(path)]
    missing = [first_mention(information, key) for key in sorted(used - set(map(key_of_text, text_files)), key=str.encode)]
    # (what can't be read may use them)
    unused = [] if flaws else sorted((path for path in text_files if key_of_text(path) not in used), key=str.encode)
    bare = [path for path, (notices, licences) in information.items() if not notices or not licences]
    return flaws + blanks_in(tree), missing, unused, bare
