"""Checks that what the pages name exists: paths, crates, calls, definitions, clauses, targets of make, and command lines of the desk.

tests/pages.py calls `failures`. Fenced blocks count only as command lines; any other word in backquotes must be a word of the sources, of
the tests or of the Makefile, so that no page keeps a name that was dropped.
"""

import glob
import os
import re
import shlex

TREE = os.path.dirname(os.path.dirname(os.path.abspath(__file__)))
TOP = ("bench", "build", "crates", "docs", "examples", "manual", "packaging", "tests")
SOURCES = ("crates/*/src", "crates/*/specs", "crates/*/proofs", "tests", "bench")
ENDS = (".rt", ".antt", ".py", ".sh", ".c", ".dialogue")
DECLARED = r"\b(?:fn|struct|enum|trait|type|mod|const)\s+(\w+)"
# Names that aren't ours: a command of the system, words of SQL and of npm, a misspelled type of relationship.
FOREIGN = {"sha1sum", "ATTACH", "UNLICENSED", "dependsOn"}


def text_at(path):
    with open(os.path.join(TREE, path), encoding="utf-8", errors="replace") as file:
        return file.read()


def files_in(*patterns):
    """The files of the tree below some folders, as paths from its top."""
    for pattern in patterns:
        for folder in glob.glob(os.path.join(TREE, pattern)):
            for at, _, names in os.walk(folder):
                yield from (os.path.relpath(os.path.join(at, name), TREE) for name in names)


class Tree:
    """The texts that names are looked up in, each read once."""

    def __init__(self):
        self.crates = {name for name in os.listdir(os.path.join(TREE, "crates")) if name.startswith("desk_")}
        self.texts, self.parts = {}, {}
        for path in files_in(*SOURCES):
            if path.endswith(ENDS):
                self.texts[path] = text_at(path)
        self.makefile = text_at("Makefile")
        self.words = set(re.findall(r"\w+", self.makefile + " ".join(self.texts.values())))

    def joined(self, crates, part):
        """All sources of a part of some crates."""
        key = (frozenset(crates), part)
        if key not in self.parts:
            starts = tuple(f"crates/{crate}/{part}/" for crate in crates)
            self.parts[key] = "\n".join(text for path, text in self.texts.items() if path.startswith(starts))
        return self.parts[key]

    def declared(self, crates):
        """The names that the sources of some crates declare."""
        key = (frozenset(crates), DECLARED)
        if key not in self.parts:
            self.parts[key] = set(re.findall(DECLARED, self.joined(crates, "src")))
        return self.parts[key]

    def has_path(self, path):
        if path.startswith("build/"):
            return path in self.makefile
        if path.split("/")[0] in self.crates:
            path = "crates/" + path
        return bool(glob.glob(os.path.join(TREE, path.replace("NAME", "*"))))

    def has_file(self, name, crates):
        """A file is there by its name or by the end of its path, in one of these crates or, without one, anywhere."""
        paths = (path for path in self.texts if not crates or path.split("/")[1] in crates)
        return any(path.endswith("/" + name) for path in paths)

    def has_call(self, crates, name):
        """A path of names, the last of which is declared in one of these crates, or in any."""
        *owners, last = name.split("::")
        crates = [owners.pop(0)] if owners and owners[0] in self.crates else crates or self.crates
        return self.declared(crates) >= {*owners, last}


def lines_of(page):
    """The lines of a page outside its blocks, each with the crates that the heading above it names."""
    named, is_block = [], False
    for line in text_at(page).split("\n"):
        if line.startswith("```"):
            is_block = not is_block
        elif not is_block:
            if line.startswith("#"):
                named = re.findall(r"\bdesk_\w+", line)
            yield line, named


def spans(line):
    return re.findall(r"`([^`]+)`", line)


def name_failures(tree, page):
    """Each name in backquotes that isn't there."""
    for line, heading in lines_of(page):
        crates = [name for name in re.findall(r"\bdesk_\w+", line) if name in tree.crates] + heading
        for span in spans(line):
            first = span.split("/")[0]
            if re.fullmatch(r"[\w./*-]+", span) and "/" in span and (first in TOP or first in tree.crates or first.startswith("desk_")):
                is_there = tree.has_path(span)
            elif re.fullmatch(r"(src|specs|proofs)((/\w+)*\.\w+|/?)", span) or re.fullmatch(r"\w+(\.rt|\.antt|\.py|\.c)", span):
                is_there = span.rstrip("/") in ("src", "specs", "proofs") or tree.has_file(span, [] if span.endswith((".py", ".c")) else crates)
            elif re.fullmatch(r"\w+(::\w+)+", span):
                is_there = tree.has_call(crates, span) or not span.startswith("desk_") and span.split("::")[0] in tree.words
            elif re.fullmatch(r"[a-z]+(-[a-z]+){2,}", span):
                is_there = glob.glob(os.path.join(TREE, f"tests/*/{span}")) or tree.has_file(span + ".dialogue", [])
            elif re.fullmatch(r"make [a-z]+( .*)?", span):
                is_there = re.search(rf"^{span.split()[1]}:", tree.makefile, flags=re.M)
            elif re.fullmatch(r"\w+", span):
                parts = any(name.endswith(span) or name.startswith(span) or name == "desk_" + span for name in tree.crates)
                is_there = span in tree.words or span in FOREIGN or parts
            else:
                continue
            if not is_there:
                yield f"{page}: there is no {span}"


def table_rows(page):
    """The spans of the first cell of each row of a table, the crates that the heading and this cell name, and the other cells."""
    for line, heading in lines_of(page):
        if line.startswith("| "):
            first, *others = re.split(r" \| ", line[2:])
            yield spans(first), heading + re.findall(r"\b(desk_\w+)", first), others


def definition_failures(tree, page):
    """Each definition of the page that its crates don't have, or that no clause cites."""
    code = set(re.findall(r"\w+", tree.joined(tree.crates, "src")))
    for names, crates, _ in table_rows(page):
        crates = crates or tree.crates
        defined = tree.joined(crates, "specs")
        for name in names:
            if not re.fullmatch(r"\w+", name) or name in tree.crates:
                continue
            is_defined = re.search(rf"^\s*(abbrev )?(pub )?(data |record )?{name}\b", defined, flags=re.M)
            if not is_defined and not tree.has_call(crates, name):
                yield f"{page}: {name} isn't defined in {', '.join(crates)}"
            elif name not in code:
                yield f"{page}: no clause cites {name}"


def clause_failures(tree, page):
    """Each call of the page that its crates don't have, and each clause in parentheses that no contract of them has."""
    for names, crates, cells in table_rows(page):
        called = [name for name in names if re.fullmatch(r"\w+(::\w+)*", name) and name not in tree.crates]
        for name in called:
            if not tree.has_call(crates, name):
                yield f"{page}: {', '.join(crates)} has no call {name}"
        sources = tree.joined(crates or tree.crates, "src")
        for group in re.findall(r"\((`[a-z_]+`(?:, `[a-z_]+`)*)\)", " ".join(cells)):
            for name in spans(group):
                if not re.search(rf"\bensures {name} \{{", sources):
                    yield f"{page}: no contract of {', '.join(crates)} has a clause {name}"


def usages():
    """How each subcommand is called, by its help: its options with a value or none, those that it needs, how many words it takes."""
    found = {}
    for path in sorted(glob.glob(os.path.join(TREE, "tests/acceptance/help-of-*/stdout"))):
        text = text_at(os.path.relpath(path, TREE))
        usage = re.search(r"^Usage: desk (\w+) ?(.*)$", text, flags=re.M)
        options = dict(re.findall(r"^ +(?:-\w, )?(--[\w-]+)( <\w+>)?", text, flags=re.M))
        needed = re.findall(r"(--\w+) <\w+>", usage.group(2))
        words = re.findall(r"<\w+>(?:\.\.\.)?", re.sub(r"--\w+ <\w+>", "", usage.group(2)))
        found[usage.group(1)] = (options, needed, len(words), usage.group(2).endswith("..."))
    return found


def is_called(usage, words):
    """Whether the help of a subcommand allows the words after it."""
    options, needed, count, is_open = usage
    given, plain, words = [], 0, list(words)
    while words:
        word = words.pop(0)
        if not word.startswith("--"):
            plain += 1
            continue
        given.append(word)
        if word not in options or options[word] and not words:
            return False
        if options[word]:
            words.pop(0)
    if given == ["--help"] and not plain:
        return True
    return set(needed) <= set(given) and (plain >= count if is_open else plain == count)


def command_lines(page):
    """The words of each command line of the desk that a page shows, and whether it is in a sentence."""
    text = text_at(page)
    blocks = [block for language, block in re.findall(r"^```(\w*)\n(.*?)^```$", text, flags=re.M | re.S) if language in ("", "sh")]
    blocks += re.findall(r"^    (desk .*)$", text, flags=re.M)
    shown = [(line, False) for block in blocks for line in block.replace("|\n", "| ").split("\n")]
    shown += [(span, True) for line, _ in lines_of(page) for span in spans(line)]
    for line, is_span in shown:
        for command in re.findall(r"(?:^|\$ |[|&] *|^\s+)(desk(?: [^|].*)?)$" if is_span else r"(?:^|\$ |[|&;] +)(desk .*)$", line):
            lexer = shlex.shlex(command, posix=True, punctuation_chars=True)
            lexer.whitespace_split = True
            words = []
            for word in lexer:
                if set(word) <= set("|&;<>()"):
                    break
                words.append(word)
            yield words[1:], is_span


def command_failures(page, known):
    """Each command line that the help doesn't allow. A sentence may name just a subcommand."""
    for words, is_span in command_lines(page):
        if words in (["--help"], ["--version"], []) or len(words) == 1 and is_span and words[0] in known:
            continue
        if words[0] not in known or not is_called(known[words[0]], words[1:]):
            yield f"{page}: no call of the desk: desk {' '.join(words)}"


def failures():
    tree, known = Tree(), usages()
    pages = [*sorted(glob.glob("*.md", root_dir=TREE)), *sorted(os.path.relpath(path, TREE) for path in glob.glob(os.path.join(TREE, "docs/*.md")))]
    for page in pages:
        yield from name_failures(tree, page)
        yield from command_failures(page, known)
    yield from definition_failures(tree, "docs/DEFINITIONS.md")
    yield from clause_failures(tree, "docs/PROVED.md")
