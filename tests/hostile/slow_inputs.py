"""The slowest known inputs within the limits, of each kind: each function writes the files of one, and returns the words of a command, the
name of its standard input and how many bytes a stranger wrote.

The limits are those of docs/REQUESTS.md, docs/CATALOGUE.md and docs/HTTP.md: an expression has 16,384 bytes and 1,024 terms, a document and
a catalogue 4 MiB, a line 8 MiB, a tree 10,000 files."""

import json
import os
import sqlite3

MIB = 1 << 20
HEAD = (
    "SPDXVersion: SPDX-2.3\nDataLicense: CC0-1.0\nSPDXID: SPDXRef-DOCUMENT\nDocumentName: d\nDocumentNamespace: https://example.org/d\n"
    "Creator: Tool: x\nCreated: 2025-01-01T00:00:00Z\n"
)
NAMING = ["--name", "n", "--namespace", "https://example.org/n", "--created", "2025-01-01T00:00:00Z"]
LICENCE, NOTICE = "SPDX-License-" + "Identifier", "SPDX-FileCopyright" + "Text"
MOST = 10_000


def line(**request):
    return json.dumps(request, separators=(",", ":"), ensure_ascii=False) + "\n"


def write(room, name, text):
    path = os.path.join(room, name)
    os.makedirs(os.path.dirname(path), exist_ok=True)
    with open(path, "wb") as file:
        return file.write(text if isinstance(text, bytes) else text.encode())


def full(begin, piece, size=4 * MIB):
    """A text of this many bytes, or a few less: one piece over and over."""
    return begin + piece * ((size - len(begin.encode())) // len(piece.encode()))


def of_script(room, *lines):
    size = write(room, "lines", "".join(lines))
    return ["script"], "lines", size


# ---- expressions


def check_all_terms(room):
    terms = [f"t{n}" for n in range(1_024)]
    text = " AND ".join(terms)
    return ["check", text, *terms], None, len(text)


def alternatives_of_choices(room):
    text = " AND ".join("(" + " OR ".join(f"t{k}" for k in range(n % 6, n % 6 + 12)) + ")" for n in range(85))
    return ["alternatives", text], None, len(text)


def alternatives_of_products(room):
    side = " AND ".join(f"(a{n} OR b{n})" for n in range(6))
    other = side.replace("a", "c").replace("b", "d")
    text = " AND ".join(f"({one})" for one in (side, other))
    return ["alternatives", text], None, len(text)


def deep_groups(room):
    text = "(" * 64 + " OR ".join(f"t{n}" for n in range(1_024)) + ")" * 64
    return ["check", text, *[f"t{n}" for n in range(1_024)]], None, len(text)


# ---- documents


def imported(text, *more):
    return lambda room: of_script(room, line(do="import", text=text()), *more)


FINDINGS = line(ask="findings", document=1)


def small_fields():
    return full(HEAD, "x:\n")


def small_packages():
    return HEAD + "".join(f"PackageName:\nSPDXID:SPDXRef-{n}\n" for n in range(MOST))


def relationships():
    packages = "".join(f"PackageName:\nSPDXID:SPDXRef-{n}\n" for n in range(1_000))
    pairs = "".join(f"Relationship: SPDXRef-{n % 1_000} CONTAINS SPDXRef-{(n * 7 + n // 1_000) % 1_000}\n" for n in range(90_000))
    return (HEAD + packages + pairs)[: 4 * MIB].rpartition("\n")[0] + "\n"


def many_contained():
    """Each package contains each of some files, and has a code."""
    files = "".join(f"FileName: ./f{n}\nSPDXID: SPDXRef-f{n}\nFileChecksum: SHA1: {n:040x}\n" for n in range(300))
    packages = "".join(f"PackageName: p\nSPDXID: SPDXRef-{n}\nPackageVerificationCode: {n:040x}\n" for n in range(260))
    pairs = "".join(f"Relationship: SPDXRef-{n} CONTAINS SPDXRef-f{k}\n" for n in range(260) for k in range(300))
    return (HEAD + files + packages + pairs)[: 4 * MIB].rpartition("\n")[0] + "\n"


def long_conclusions():
    text = " OR ".join(f"t{n}" for n in range(1_024))
    packages = [f"PackageName: p\nSPDXID: SPDXRef-{n}\nPackageLicenseConcluded: {text}\n" for n in range(4 * MIB // (len(text) + 80))]
    return HEAD + "".join(packages)


# ---- catalogues


def loaded(text):
    return lambda room: of_script(room, line(do="catalogue", text=text()))


def rules():
    return full('forms = ["a"]\n', '[[rule]]\nterm = "t{}"\nform = "a"\nduties = []\n', 64) + "".join(
        f'[[rule]]\nterm = "t{n}"\nform = "a"\nduties = []\n' for n in range(88_000))


def codes():
    duties = "".join(f'[[duty]]\ncode = "c{n}"\ntitle = "t"\n' for n in range(40_000))
    listed = ",".join(f'"c{n}"' for n in range(40_000))
    return f'forms = ["a"]\n{duties}[[rule]]\nterm = "t"\nform = "a"\nduties = [{listed}]\n'


def small_tables():
    return full('forms = ["a"]\n', "[[x]]\n")


def dotted_keys():
    return 'forms = ["a"]\n' + "a." * (2 * MIB - 100) + "a = 1\n"


def nested_lists():
    return 'forms = ["a"]\nx = ' + "[" * (4 * MIB - 100)


def nested_tables():
    return full('forms = ["a"]\nx = ', "{a=")


def small_keys():
    return 'forms = ["a"]\n' + "".join(f"k{n}=1\n" for n in range(420_000))


def deep_tables():
    table = "{a=" * 75 + "1" + "}" * 75
    return full('forms = ["a"]\nx = [', table + ",") + "]\n"


def nested_headers():
    """Headers that each define 79 tables in one another."""
    path = ".a" * 78
    return "".join(f"[k{n}{path}]\n" for n in range(4 * MIB // (len(path) + 9)))


def long_list():
    return full('forms = ["a"]\nx = [', "1,") + "]\n"


# ---- patterns and trees


def tables_of_a_tree(room):
    return ["lint", "tree"], None, write(room, "tree/REUSE.toml", "version = 1\n" + nested_headers()) + write(room, "tree/f", "x")


def long_path(room, files=1):
    """Files at paths that are nearly as long as a system takes."""
    folder = os.path.join(room, "tree")
    os.makedirs(folder)
    here = os.open(folder, os.O_RDONLY)
    for _ in range(14):
        os.mkdir("a" * 250, dir_fd=here)
        here, before = os.open("a" * 250, os.O_RDONLY, dir_fd=here), here
        os.close(before)
    for number in range(files):
        os.close(os.open(f"{number:04}" + "a" * 240, os.O_CREAT | os.O_WRONLY, dir_fd=here))
        with open(os.open(f"{number:04}" + "a" * 240, os.O_WRONLY, dir_fd=here), "wb") as file:
            file.write(b"x")
    os.close(here)


def deep_path(room, files):
    """Files below 1,900 folders in one another, with names of one byte."""
    os.makedirs(os.path.join(room, "tree"))
    here = os.open(os.path.join(room, "tree"), os.O_RDONLY)
    for _ in range(1_900):
        os.mkdir("a", dir_fd=here)
        here, before = os.open("a", os.O_RDONLY, dir_fd=here), here
        os.close(before)
    for number in range(files):
        with open(os.open(f"{number:04}", os.O_CREAT | os.O_WRONLY, dir_fd=here), "wb") as file:
            file.write(b"x")
    os.close(here)


def pattern(text, files, paths=long_path, each=3_750):
    def made(room):
        paths(room, files)
        size = write(room, "tree/REUSE.toml", f'version = 1\n[[annotations]]\npath = "{text}"\n{LICENCE} = "MIT"\n')
        return ["lint", "tree"], None, size + files * each
    return made


def runs_that_fail(room):
    """A pattern that nearly matches at each place of many long names."""
    size = write(room, "tree/REUSE.toml", f'version = 1\n[[annotations]]\npath = "*{"a" * 120}b*"\n{LICENCE} = "MIT"\n')
    for n in range(MOST - 1):
        name = f"{n:04}" + "a" * 246
        size += write(room, f"tree/{name}", "x") + len(name)
    return ["lint", "tree"], None, size


def many_annotations(room):
    toml = "version = 1\n" + "".join(f'[[annotations]]\npath = "**a{n}*b"\n{LICENCE} = "MIT"\n' for n in range(1_000))
    size = write(room, "tree/REUSE.toml", toml)
    size += sum(write(room, f"tree/{'a' * 100}{n}", "x") + 104 for n in range(1_000))
    return ["lint", "tree"], None, size


def patterns_that_fail(room):
    """Patterns that nearly match each of many long names: each is compared with each path."""
    patterns = ", ".join(f'"*a*b{n}"' for n in range(1_000))
    size = write(room, "tree/REUSE.toml", f'version = 1\n[[annotations]]\npath = [{patterns}]\n{LICENCE} = "MIT"\n')
    for n in range(MOST - 1):
        name = f"{n:04}" + "a" * 196
        size += write(room, f"tree/{name}", "x") + len(name)
    return ["lint", "tree"], None, size


def many_files(room):
    size = sum(write(room, f"tree/{n % 100}/f{n}", f"{NOTICE}: x\n{LICENCE}: MIT\n") for n in range(MOST))
    return ["gather", "tree", *NAMING], None, size


def nested_files(depth, each):
    """Nested folders with this many files each, and a REUSE.toml that counts for all below it. A file's path is written by a stranger,
    too."""
    toml = f'version = 1\n[[annotations]]\npath = "**"\nprecedence = "aggregate"\n{LICENCE} = "l{{}}"\n{NOTICE} = "n{{}}"\n'

    def made(room):
        os.makedirs(os.path.join(room, "tree"))
        here, size = os.open(os.path.join(room, "tree"), os.O_RDONLY), 0
        for level in range(depth):
            texts = {"REUSE.toml": toml.replace("{}", str(level)), **{f"f{n}": "x" for n in range(each)}}
            for name, text in texts.items():
                with open(os.open(name, os.O_CREAT | os.O_WRONLY, dir_fd=here), "w") as file:
                    size += file.write(text) + 2 * level + len(name)
            os.mkdir("a", dir_fd=here)
            here, before = os.open("a", os.O_RDONLY, dir_fd=here), here
            os.close(before)
        os.close(here)
        return ["lint", "tree"], None, size
    return made


def licensing(path, licences):
    """An annotation that counts in addition to what files state: a path, and this many licences."""
    return f'[[annotations]]\npath = "{path}"\nprecedence = "aggregate"\n{LICENCE} = [' + ", ".join(f'"{n}"' for n in licences) + "]\n"


def many_licences(each):
    """A REUSE.toml of this many licences, over files that have a tag each."""
    def made(room):
        size = write(room, "tree/REUSE.toml", "version = 1\n" + licensing("**", (f"l{n}" for n in range(each))))
        size += sum(write(room, f"tree/f{n}", f"{LICENCE}: m{n}\n") + len(f"f{n}") for n in range(MOST - 1))
        return ["lint", "tree"], None, size
    return made


def as_json(made):
    """The same, by `desk lint --json`."""
    def asked(room):
        words, source, size = made(room)
        return [*words, "--json"], source, size
    return asked


# a folder with as long a path as the system lets a program open it by
DEEP = "/".join(["d" * 240] * 14)


def licences_of_a_deep_file(room):
    """A million licences over a file in a deep folder, with its path on each line."""
    size = write(room, "tree/REUSE.toml", "version = 1\n" + licensing("**", (f"l{n}" for n in range(1_000_000))))
    return ["lint", "tree"], None, size + write(room, f"tree/{DEEP}/f", "x") + len(f"{DEEP}/f")


def bad_tags(folder):
    """A file of 400,000 tags that aren't licence expressions."""
    def made(room):
        return ["lint", "tree"], None, write(room, f"tree/{folder}/f", f"{LICENCE}: (\n" * 400_000) + len(f"{folder}/f")
    return made


def bad_annotations(room):
    """A REUSE.toml of 700,000 annotations without a path, in a deep folder."""
    size = write(room, f"tree/{DEEP}/REUSE.toml", "version = 1\n" + "[[annotations]]\n" * 700_000)
    return ["lint", "tree"], None, size + len(f"{DEEP}/REUSE.toml")


def licences_by_turns(room):
    """Two annotations of 5,000 licences each, which count for every other file."""
    toml = "version = 1\n" + "".join(licensing(f"*.{side}", (f"{side}{n}" for n in range(5_000))) for side in "ab")
    size = write(room, "tree/REUSE.toml", toml)
    for n in range(MOST - 1):
        name = f"f{n:04}." + "ab"[n % 2]
        size += write(room, f"tree/{name}", f"{LICENCE}: m{n}\n") + len(name)
    return ["lint", "tree"], None, size


def licences_of_folders(room):
    """A REUSE.toml of 5,000 licences, and one of a licence in each of 4,999 folders."""
    size = write(room, "tree/REUSE.toml", "version = 1\n" + licensing("**", (f"l{n}" for n in range(5_000))))
    for n in range((MOST - 1) // 2):
        size += write(room, f"tree/{n}/REUSE.toml", "version = 1\n" + licensing("**", [f"m{n}"])) + len(f"{n}/REUSE.toml")
        size += write(room, f"tree/{n}/f", "x") + len(f"{n}/f")
    return ["lint", "tree"], None, size


def million_tags(room):
    return ["lint", "tree"], None, write(room, "tree/f", f"{LICENCE}: MIT\n" * 1_000_000)


def other_tags(room):
    size = sum(write(room, f"tree/f{n}", "".join(f"{LICENCE}: l{n}-{k}\n" for k in range(100))) for n in range(1_000))
    return ["lint", "tree"], None, size


# ---- texts of JSON


def json_line(text):
    return lambda room: of_script(room, text() + "\n")


def many_terms():
    return line(do="choose", release="r", document=1, package="p", terms=["a"] * 2_000_000).rstrip()


def of_choice(room, conclusion, terms):
    """A choice for a package with this conclusion, in a release that is open."""
    document = HEAD + f"PackageName: p\nSPDXID: SPDXRef-p\nPackageLicenseConcluded: {conclusion}\n"
    before = [line(do="catalogue", text='forms = ["f"]\n'), line(do="import", text=document), line(do="open", release="r", form="f"),
              line(do="attach", release="r", document=1)]
    return of_script(room, *before, line(do="choose", release="r", document=1, package="SPDXRef-p", terms=terms))


def many_terms_chosen(room):
    return of_choice(room, "a", ["a"] * 2_000_000)


def other_terms_chosen(room):
    """Terms of which the expression has only one."""
    return of_choice(room, "0", [f"{n}" for n in range(900_000)])


def own_terms_chosen(room):
    """Copies of 1,000 terms, all of which the expression needs."""
    terms = [f"{n}" for n in range(1_000, 2_000)]
    return of_choice(room, " AND ".join(terms), terms * 1_190)


def many_keys():
    return '{"do":"close"' + "".join(f',"{n:06}":1' for n in range(760_000)) + "}"


def one_key_again():
    return '{"do":"close"' + ',"day":1' * 1_000_000 + "}"


def escapes():
    return '{"ask":"totals","release":"' + "\\u0000" * 1_390_000 + '"}'


def nested():
    return full("", '{"a":[', 8 * MIB - 10)


def deep_objects():
    value = '{"":' * 124 + "1" + "}" * 124
    return "[" + ",".join([value] * ((8 * MIB - 100) // (len(value) + 1))) + "]"


# ---- requests of HTTP: the words name what is sent, and how


def head_in_bytes(room):
    data = b"GET /duties/1/changes HTTP/1.1\r\nA: "
    return ["serve", "one by one"], "sent", write(room, "sent", data + b"b" * (16_384 - len(data) - 4) + b"\r\n\r\n")


def line_ends(room):
    return ["serve", "one by one"], "sent", write(room, "sent", b"\r\n" * 8_192)


def large_body(room):
    body = line(do="import", text=small_fields()).encode()
    return ["serve", "at once"], "sent", write(room, "sent", b"POST /commands HTTP/1.1\r\nContent-Length: %d\r\n\r\n" % len(body) + body)


# ---- database files: a desk's tables, and many more rows


def many_rows(text):
    def made(room):
        path = os.path.join(room, "desk.db")
        connection = sqlite3.connect(path, isolation_level=None)
        connection.execute(f"BEGIN")
        connection.execute(text)
        connection.execute("COMMIT")
        connection.close()
        return ["audit", "--db", "desk.db"], None, os.path.getsize(path)
    return made


NUMBERS = "WITH RECURSIVE n(k) AS (SELECT 1 UNION ALL SELECT k + 1 FROM n WHERE k < {})"


def zeros(room):
    path = os.path.join(room, "desk.db")
    with open(path, "r+b") as file:
        file.truncate(64 * MIB)
    return ["audit", "--db", "desk.db"], None, 64 * MIB


SLOW = {
    "expression: 1,024 terms joined by AND, all listed": check_all_terms,
    "expression: 85 choices of 12 terms": alternatives_of_choices,
    "expression: 64 sets by 64 sets": alternatives_of_products,
    "expression: 1,024 terms in 64 parentheses": deep_groups,
    "document: 1.4 million fields of three bytes": imported(small_fields),
    "document: the same, and its findings": imported(small_fields, FINDINGS),
    "document: 10,000 packages of 30 bytes, and their findings": imported(small_packages, FINDINGS),
    "document: 90,000 relationships": imported(relationships, FINDINGS),
    "document: 260 packages that contain 300 files each": imported(many_contained, FINDINGS),
    "document: conclusions of 1,024 terms": imported(long_conclusions, FINDINGS),
    "catalogue: 88,000 rules": loaded(rules),
    "catalogue: a rule of 40,000 codes": loaded(codes),
    "catalogue: 700,000 tables": loaded(small_tables),
    "catalogue: a key of two million parts": loaded(dotted_keys),
    "catalogue: four million lists in one another": loaded(nested_lists),
    "catalogue: a million tables in one another": loaded(nested_tables),
    "catalogue: 420,000 keys": loaded(small_keys),
    "catalogue: tables of one key, 75 in one another": loaded(deep_tables),
    "catalogue: 25,000 headers of tables, 79 in one another": loaded(lambda: 'forms = ["a"]\n' + nested_headers()),
    "catalogue: a list of two million numbers": loaded(long_list),
    "pattern: `**a*` before 996 bytes, one long path": pattern("**a*" + "a" * 995 + "b", 1),
    "pattern: `**a*` before 996 bytes, 100 long paths": pattern("**a*" + "a" * 995 + "b", 100),
    "pattern: `*a` 499 times and `*b`, 1,000 long paths": pattern("*a" * 499 + "*b", 1_000),
    "pattern: `**a` 333 times, 1,000 long paths": pattern("**a" * 332 + "**b", 1_000),
    "pattern: `**` and `/*` 498 times, 1,000 paths of 1,900 names": pattern("**" + "/*" * 498 + "b", 1_000, deep_path, 3_804),
    "pattern: a star before 121 bytes, 9,999 names of 250 bytes": runs_that_fail,
    "tree: 10,000 files with tags": many_files,
    "tree: 200 folders in one another, 9,000 files": nested_files(200, 45),
    "tree: 1,900 folders in one another, 7,600 files": nested_files(1_900, 4),
    "tree: 5,000 licences of a REUSE.toml, 9,999 files": many_licences(5_000),
    "tree: a million licences of a REUSE.toml, 9,999 files": many_licences(1_000_000),
    "tree: the same, by `lint --json`": as_json(many_licences(1_000_000)),
    "tree: a million licences over a file with a path of 3,375 bytes": licences_of_a_deep_file,
    "tree: that, by `lint --json`": as_json(licences_of_a_deep_file),
    "tree: 400,000 bad tags": bad_tags("d"),
    "tree: 400,000 bad tags, by `lint --json`": as_json(bad_tags("d")),
    "tree: 400,000 bad tags in a file with a path of 3,375 bytes": bad_tags(DEEP),
    "tree: those, by `lint --json`": as_json(bad_tags(DEEP)),
    "tree: 700,000 bad annotations in a folder with a path of 3,374 bytes": bad_annotations,
    "tree: the same as JSON": as_json(bad_annotations),
    "tree: twice 5,000 licences for every other of 9,999 files": licences_by_turns,
    "tree: 5,000 licences, and one in each of 4,999 folders": licences_of_folders,
    "tree: 25,000 headers of a REUSE.toml, 79 tables in one another": tables_of_a_tree,
    "tree: a file of a million tags": million_tags,
    "tree: 100,000 licences in 1,000 files": other_tags,
    "tree: 1,000 annotations, 1,000 files": many_annotations,
    "tree: 1,000 patterns, 9,999 names of 200 bytes": patterns_that_fail,
    "JSON: a list of two million terms": json_line(many_terms),
    "JSON: two million terms that are chosen": many_terms_chosen,
    "JSON: a thousand terms, each chosen 1,190 times": own_terms_chosen,
    "JSON: 900,000 distinct terms that are chosen": other_terms_chosen,
    "JSON: 760,000 keys": json_line(many_keys),
    "JSON: a key a million times": json_line(one_key_again),
    "JSON: 1.4 million escapes": json_line(escapes),
    "JSON: a million objects in one another": json_line(nested),
    "JSON: objects of one key, 124 in one another": json_line(deep_objects),
    "HTTP: a head of 16,384 bytes, one by one": head_in_bytes,
    "HTTP: 16,384 bytes of line ends, one by one": line_ends,
    "HTTP: an import of 1.4 million fields": large_body,
    "database: a million changes": many_rows(NUMBERS.format(1_000_000) + " INSERT INTO change SELECT 1, 100 + k, '2025-03-03', 'met', 'x' FROM n"),
    "database: 100,000 choices": many_rows(NUMBERS.format(100_000) + " INSERT INTO choice SELECT 'held', 2, 'SPDXRef-q', 't' || k FROM n"),
    "database: 100,000 releases": many_rows(NUMBERS.format(100_000) + " INSERT INTO releases SELECT 'r' || k, 6 + k, 'binary', 'open', 0 FROM n"),
    "database: 64 MiB, all but the first pages zero": zeros,
}
