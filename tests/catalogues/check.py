"""Checks the catalogue of the examples without the desk: python3 tests/catalogues/check.py

The catalogue follows docs/CATALOGUE.md; each licence has a rule in each form, with a comment above it that names a clause or a sentence;
each duty is owed by some rule; an old id owes what its newer one owes. What with-texts.sh prints is that catalogue with texts, each as its
file has it.
"""

import os
import re
import subprocess
import sys
import tempfile
import tomllib

TREE = os.path.dirname(os.path.dirname(os.path.dirname(os.path.abspath(__file__))))
FOLDER = os.path.join(TREE, "examples", "catalogue")
CATALOGUE = os.path.join(FOLDER, "catalogue.toml")
WITH_TEXTS = os.path.join(FOLDER, "with-texts.sh")
MOST_BYTES = 4_194_304
FORMS = ["source", "binary", "service"]
NAME = re.compile(r"[A-Za-z0-9.-]{1,64}")
TERM = re.compile(r"[A-Za-z0-9.-]+\+?( WITH [A-Za-z0-9.-]+)?")
# What a comment on a rule begins with: the licence, and a clause of its text or a sentence of it.
CLAUSE = re.compile(r"(?P<licence>[A-Za-z0-9.-]+) (clauses? \d|sentence ')")
# Deprecated ids that differ from their newer ones in more than the end.
OLDER = {
    "GPL-2.0-with-classpath-exception": "GPL-2.0-only WITH Classpath-exception-2.0",
    "GPL-3.0-with-GCC-exception": "GPL-3.0-or-later WITH GCC-exception-3.1",
}
# Bytes that a string of TOML can't hold as they are, and what could end it.
STRANGE = 'a "quoted" word, """three""", \'\'\'three\'\'\', a \\ and \\u0041\\\n\ta tab\f\n\x01\x1f\x7f \r\n\n& \\\\& caf\u00e9'

failures = []


def is_title(text):
    return isinstance(text, str) and 1 <= len(text.encode()) <= 256 and not re.search(r"[\x00-\x1f\x7f]", text)


def doubles(values):
    return sorted({str(value) for value in values if values.count(value) > 1})


def newer(term):
    """The term that replaces an old one, or the term itself."""
    if term in OLDER:
        return OLDER[term]
    licence, *exception = term.split(" ", 1)
    if re.fullmatch(r"(A|L)?GPL-\d\.\d\+?", licence):
        licence = licence.rstrip("+") + ("-or-later" if licence.endswith("+") else "-only")
    return " ".join([licence, *exception])


def ids_of(rules):
    """The ids of licences and exceptions in the rules, in small letters."""
    return {word.rstrip("+").lower() for rule in rules for word in rule["term"].split(" WITH ")}


def check_format(text):
    """What docs/CATALOGUE.md asks of a catalogue; returns it."""
    if len(text.encode()) > MOST_BYTES:
        failures.append("the catalogue has more than 4 MiB")
    catalogue = tomllib.loads(text)
    if set(catalogue) != {"forms", "duty", "rule"}:
        failures.append(f"the catalogue has the keys {', '.join(catalogue)}")
    if catalogue["forms"] != FORMS:
        failures.append(f"the forms are {catalogue['forms']}")
    for duty in catalogue["duty"]:
        if set(duty) != {"code", "title"} or not NAME.fullmatch(duty["code"]) or not is_title(duty["title"]):
            failures.append(f"no duty: {duty}")
    codes = [duty["code"] for duty in catalogue["duty"]]
    for rule in catalogue["rule"]:
        if set(rule) != {"term", "form", "duties"} or not TERM.fullmatch(rule["term"]) or re.match("(License|Document)Ref-", rule["term"]):
            failures.append(f"no rule: {rule}")
        where = f"{rule['term']} in {rule['form']}"
        if rule["form"] not in catalogue["forms"]:
            failures.append(f"{where}: no such form")
        for code in rule["duties"]:
            if code not in codes:
                failures.append(f"{where}: there is no duty {code}")
        for code in doubles(rule["duties"]):
            failures.append(f"{where}: {code} twice")
    places = [(rule["term"].lower(), rule["form"]) for rule in catalogue["rule"]]
    for twice in doubles(catalogue["forms"]) + doubles(codes) + doubles(places):
        failures.append(f"{twice} is there twice")
    return catalogue


def check_whole(catalogue):
    """Each licence has all forms, each duty is owed, and old ids owe what the newer ones owe."""
    rules = {(rule["term"], rule["form"]): rule["duties"] for rule in catalogue["rule"]}
    for term in sorted({term for term, _ in rules}):
        for form in FORMS:
            if (term, form) not in rules:
                failures.append(f"{term} has no rule in {form}")
            elif (other := newer(term)) != term and rules.get((other, form)) != rules[term, form]:
                failures.append(f"{term} in {form} owes other duties than {other}")
    owed = {code for duties in rules.values() for code in duties}
    for duty in catalogue["duty"]:
        if duty["code"] not in owed:
            failures.append(f"no rule owes {duty['code']}")


def check_comments(text, catalogue):
    """The comment above each rule says where its duties come from. If it names duties, they are those of the rule."""
    blocks = re.findall(r"((?:^#.*\n)*)^\[\[rule\]\]$", text, flags=re.M)
    if len(blocks) != len(catalogue["rule"]):
        failures.append(f"{len(blocks)} tables of rules are found, and {len(catalogue['rule'])} rules")
        return
    codes = {duty["code"] for duty in catalogue["duty"]}
    for block, rule in zip(blocks, catalogue["rule"]):
        where = f"{rule['term']} in {rule['form']}"
        comment = " ".join(line.removeprefix("#").strip() for line in block.splitlines())
        found = CLAUSE.match(comment)
        stem = re.split(r"-only|-or-later|-with-|\+| ", rule["term"])[0]
        if not found:
            failures.append(f"{where}: no clause is named above it")
        elif found["licence"] != stem:
            failures.append(f"{where}: the comment is about {found['licence']}")
        named = codes & set(re.findall(r"[a-z]+(?:-[a-z]+)+", comment))
        if named and named != set(rule["duties"]):
            failures.append(f"{where}: its comment has other duties: {', '.join(sorted(named ^ set(rule['duties'])))}")


def with_texts(*words):
    run = subprocess.run(["sh", WITH_TEXTS, *words], stdout=subprocess.PIPE, stderr=subprocess.PIPE)
    return run.returncode, run.stdout.decode(), run.stderr.decode()


def check_texts(text, catalogue):
    """What with-texts.sh prints alone, with a folder of texts, and from its own output."""
    ids = ids_of(catalogue["rule"])
    with tempfile.TemporaryDirectory() as room:
        for name in ("MIT", "AGPL-3.0-or-later", "Classpath-exception-2.0", "No-such-licence"):
            with open(os.path.join(room, name + ".txt"), "w", encoding="utf-8", newline="") as file:
                file.write(name + STRANGE)
        printed = os.path.join(room, "printed.toml")
        for folders, own in (([], []), ([os.path.join(room, "none"), room], ["MIT", "Classpath-exception-2.0"])):
            status, out, err = with_texts(CATALOGUE, *folders)
            whole = tomllib.loads(out)
            texts = {table["licence"]: table["body"] for table in whole["text"]}
            lacks = {line.removeprefix("no text: ").lower() for line in err.splitlines()}
            if status or not out.startswith(text) or {key: whole[key] for key in catalogue} != catalogue:
                failures.append(f"with-texts.sh ends with {status} and another catalogue")
            if len(out.encode()) > MOST_BYTES:
                failures.append("the catalogue with texts has more than 4 MiB")
            folded = [table["licence"].lower() for table in whole["text"]]
            if doubles(folded) or set(folded) & lacks or set(folded) | lacks != ids:
                failures.append(f"with-texts.sh has texts of {', '.join(sorted(folded))} and none of {', '.join(sorted(lacks))}")
            for name in own:
                if texts.get(name) != name + STRANGE + "\n":
                    failures.append(f"the text of {name} is {texts.get(name)!r}")
            for name in ("AGPL-3.0", "AGPL-3.0-only", "AGPL-3.0-or-later") if own else ():
                if texts.get(name) != "AGPL-3.0-or-later" + STRANGE + "\n":
                    failures.append(f"the text of {name} is {texts.get(name)!r}")
            check_system(texts)
            with open(printed, "w", encoding="utf-8", newline="") as file:
                file.write(out)
            if with_texts(printed, *folders) != (0, out, err):
                failures.append("with-texts.sh adds to what it printed")
    if with_texts(os.path.join(FOLDER, "none.toml"))[0] != 1:
        failures.append("with-texts.sh reads a catalogue that isn't there")


def check_system(texts):
    """Texts of the tree and of the system are as their files have them, if these exist."""
    common = "/usr/share/common-licenses/"
    files = {name: [common + name] for name in ("MPL-2.0", "CC0-1.0")}
    files["Apache-2.0"] = [os.path.join(TREE, "LICENSES", "Apache-2.0.txt")]
    gnu = {"GPL-2.0": ["GPL-2"], "GPL-3.0": ["GPL-3"], "LGPL-2.0": ["LGPL-2"], "LGPL-2.1": ["LGPL-2.1"], "LGPL-3.0": ["LGPL-3", "GPL-3"]}
    for name, names in gnu.items():
        for end in ("", "-only", "-or-later"):
            files[name + end] = [common + it for it in names]
    for name, paths in files.items():
        if all(map(os.path.isfile, paths)):
            bodies = []
            for path in paths:
                with open(path, encoding="utf-8", newline="") as file:
                    bodies.append(file.read())
            if texts.get(name) != "\n".join(bodies):
                failures.append(f"the text of {name} isn't that of {' and '.join(paths)}")


def main():
    with open(CATALOGUE, encoding="utf-8", newline="") as file:
        text = file.read()
    catalogue = check_format(text)
    check_whole(catalogue)
    check_comments(text, catalogue)
    check_texts(text, catalogue)
    for failure in failures:
        print(failure, file=sys.stderr)
    print("catalogues: passed" if not failures else f"catalogues: {len(failures)} differences")
    return 1 if failures else 0


if __name__ == "__main__":
    sys.exit(main())
