"""Compares the pages with the definitions, the code and the examples: python3 tests/pages.py

This covers numbers and names of refusals, of faults and of kinds of findings, and the limits. The prover checks that code and definitions
agree if a contract cites both; here each number and name is also read from the pages. Each refusal has an example on a page, and what a
page names exists (tests/page_names.py).
"""

import glob
import json
import os
import re
import sys

sys.dont_write_bytecode = True

import page_names

HERE = os.path.dirname(os.path.abspath(__file__))
TREE = os.path.dirname(HERE)
CRATES = os.path.join(TREE, "crates")
HELP = "tests/acceptance/help-of-script/stdout"

# The most words of each page, as `wc -w` counts them.
MOST_WORDS = {
    "CHANGELOG.md": 970,
    "CONTRIBUTING.md": 1_160,
    "README.md": 700,
    "SECURITY.md": 470,
    "docs/ARCHITECTURE.md": 2_400,
    "docs/AUDIT.md": 1_530,
    "docs/CATALOGUE.md": 1_190,
    "docs/COUNSEL.md": 600,
    "docs/CREDITS.md": 530,
    "docs/DATABASE.md": 1_360,
    "docs/DOCUMENTS.md": 1_210,
    "docs/DECISIONS.md": 3_800,
    "docs/DEFINITIONS.md": 5_300,
    "docs/EXTENDING.md": 1_700,
    "docs/FILLS.md": 860,
    "docs/HOSTILE.md": 1_370,
    "docs/HTTP.md": 1_190,
    "docs/LINT.md": 1_120,
    "docs/PROVED.md": 4_700,
    "docs/REFUSALS.md": 2_180,
    "docs/RELEASE.md": 1_500,
    "docs/REPORTS.md": 1_400,
    "docs/REQUESTS.md": 3_860,
    "docs/SPEED.md": 1_890,
    "docs/TABLES.md": 1_140,
    "docs/TRUST.md": 870,
}

# The most characters of a line of docs/EXTENDING.md.
STEP_COLUMNS = 120

failures = []


def text_of(*path):
    with open(os.path.join(TREE, *path), encoding="utf-8") as file:
        return file.read()


def compare(what, found, wanted):
    """Reports each entry that only one of two tables has."""
    if not wanted:
        failures.append(f"{what}: the definition has no entry")
    for key in sorted(set(found) | set(wanted), key=str):
        if found.get(key) != wanted.get(key):
            failures.append(f"{what}: {key} is {found.get(key)} here and {wanted.get(key)} there")


def section(text, heading):
    """What is below a heading, up to the next one."""
    return re.split(r"^#+ ", text.split(heading + "\n", 1)[1], maxsplit=1, flags=re.M)[0]


def rows_of(text):
    """Number and name of each row of a page's table."""
    return {name: int(number) for number, name in re.findall(r"^\| (\d+) \| (\w+) \|", text, flags=re.M)}


def defined(crate, file, function):
    """What a definition gives each variant: a number, or the text of a name."""
    text = text_of("crates", crate, "specs", file + ".antt")
    lines = re.findall(rf"^{function} \(?\w+\.(\w+)[^=]*= (?:codes \"([^\"]*)\"|(\d+))$", text, flags=re.M)
    return {variant: name if name else int(number) for variant, name, number in lines}


def limits_of_definitions():
    text = text_of("crates/desk_base/specs/Limits.antt")
    return {name: int(value) for name, value in re.findall(r"^(\w+) = (\d+)$", text, flags=re.M)}


def limits_of_code():
    text = text_of("crates/desk_base/src/limits.rt")
    found = re.findall(r"^pub const (\w+): \w+ = ([\d_]+);$", text, flags=re.M)
    return {name.lower(): int(value.replace("_", "")) for name, value in found}


# What the pages call the limits: the page, a pattern of its row with the number in it, and the definition's names of that number.
LIMITS = [
    ("REQUESTS", r"a line, without its end \| ([\d,]+) bytes", ["line_bytes"]),
    ("REQUESTS", r"a document \| ([\d,]+) bytes", ["document_bytes"]),
    ("REQUESTS", r"of a document, together \| ([\d,]+)", ["document_elements"]),
    ("REQUESTS", r"a catalogue \| ([\d,]+) bytes", ["catalogue_bytes"]),
    ("REQUESTS", r"a licence expression \| ([\d,]+) bytes", ["expression_bytes"]),
    ("REQUESTS", r"a licence expression \| .* bytes, ([\d,]+) terms", ["expression_terms"]),
    ("REQUESTS", r"repeated ones count\), ([\d,]+) parentheses open", ["open_parentheses"]),
    ("REQUESTS", r"releases \(`releases`\) \| ([\d,]+) each", ["revisions", "documents", "releases"]),
    ("REQUESTS", r"attached to one release \(`attached`\) \| ([\d,]+)", ["attached"]),
    ("REQUESTS", r"a replacement is free \| ([\d,]+)", ["adoptions"]),
    ("REQUESTS", r"duties of all releases \(`duties`\) \| ([\d,]+)", ["duties"]),
    ("REQUESTS", r"the name of a release \| ([\d,]+) bytes", ["name_bytes"]),
    ("REQUESTS", r"or a withdrawal \| ([\d,]+) bytes", ["note_bytes"]),
    ("REQUESTS", r"met, waived or reopened \| ([\d,]+)", ["changes"]),
    ("CATALOGUE", r"must be there \| 1 to ([\d,]+) entries", ["forms"]),
    ("CATALOGUE", r"1 to \d+ entries, each of 1 to ([\d,]+) letters", ["id_bytes"]),
    ("CATALOGUE", r"for people \| 1 to ([\d,]+) bytes", ["title_bytes"]),
    ("REFUSALS", r"has more than ([\d,]+) minimal sets", ["listed_sets"]),
    ("REFUSALS", r"has more than ([\d,]+) distinct terms", ["listed_terms"]),
    ("REFUSALS", r"the (\d+)th parenthesis", ["open_parentheses"]),
    ("REQUESTS", r"reads of a script \| ([\d,]+), of", ["script_reads"]),
]


def check_names():
    refusals = text_of("docs/REFUSALS.md")
    first = refusals.split("\n## ", 1)[0]
    compare("docs/REFUSALS.md", rows_of(first), defined("desk_model", "Numbers", "refusal_number"))
    names = defined("desk_model", "Names", "refusal_name")
    compare("the names of refusals", {name: name for name in rows_of(first)}, names)
    for heading, function in (
        ("## Faults of a document, in BadDocument", "document_fault_number"),
        ("## Faults of an expression", "expression_fault_number"),
    ):
        compare(heading, rows_of(section(refusals, heading)), defined("desk_model", "FaultNumbers", function))
    faults = rows_of(section(text_of("docs/CATALOGUE.md"), "## Faults"))
    compare("docs/CATALOGUE.md", faults, defined("desk_model", "FaultNumbers", "catalogue_fault_number"))
    requests = text_of("docs/REQUESTS.md")
    findings = section(requests, "### findings: where a document departs from the standard")
    compare("the kinds of findings", rows_of(findings), defined("desk_model", "FindingKinds", "kind_number"))
    words = re.search(r"^\| 27 \| Full \| the limit: (.*?) \|", first, flags=re.M).group(1)
    listed = {word: word for word in re.findall(r"`(\w+)`", words)}
    compare("the limits that Full names", listed, {n: n for n in defined("desk_model", "Names", "limit_name").values()})


def check_examples():
    """Each refusal is in a dialogue of the pages, which the acceptance cases run."""
    told = set()
    for page in ("REFUSALS", "REQUESTS", "CATALOGUE"):
        for block in re.findall(r"^```dialogue\n(.*?)^```$", text_of("docs", page + ".md"), flags=re.M | re.S):
            told |= set(re.findall(r'^< \{.*"name":"(\w+)","refused":\d+\}$', block, flags=re.M))
    names = set(rows_of(text_of("docs/REFUSALS.md").split("\n## ", 1)[0]))
    failures.extend(f"no page has an example of {name}" for name in sorted(names - told))


def check_limits():
    definitions = limits_of_definitions()
    code = limits_of_code()
    compare("desk_base's limits", {name: code.get(name) for name in definitions}, definitions)
    for page, pattern, names in LIMITS:
        found = re.search(pattern, text_of("docs", page + ".md"))
        if not found:
            failures.append(f"docs/{page}.md has no row like {pattern}")
            continue
        number = int(found.group(1).replace(",", ""))
        for name in names:
            wanted = definitions[name] + (1 if "th parenthesis" in pattern else 0)
            if number != wanted:
                failures.append(f"docs/{page}.md has {number} for {name}, which is {wanted}")


def check_conditions():
    """The conditions of an audit, in the order in which they are tested."""
    defined_names = re.findall(r'^audit_name \w+ = codes "(\w+)"$', text_of("crates/desk_snapshot/specs/Reports.antt"), flags=re.M)
    headings = re.findall(r"^### (\w+)$", text_of("docs/AUDIT.md"), flags=re.M)
    if not defined_names or headings != defined_names:
        failures.append(f"docs/AUDIT.md has the conditions {headings}, and the definition {defined_names}")


def check_texts():
    """Each text that docs/REPORTS.md shows is one that an acceptance case expects."""
    wanted = [text_of(path) for path in glob.glob(os.path.join(HERE, "acceptance/*/stdout"))]
    for language, block in re.findall(r"^```(\w*)\n(.*?)^```$", text_of("docs/REPORTS.md"), flags=re.M | re.S):
        if not language and not block.startswith("$ ") and not any(block in text for text in wanted):
            failures.append(f"docs/REPORTS.md shows a text that no case expects: {block}")


def forms_of_requests():
    """The words after `do` and `ask`, each with the members that its form must have, by the definition."""
    text = text_of("crates/desk_json/specs/Requests.antt")
    bodies = dict(re.findall(r"^(\w+)_request \w+ = (.*\n(?: .*\n)*)", text, flags=re.M))
    commands, _, questions = text.partition("\nquery_request word d =\n")
    forms = {}
    for first, part in (("do", commands), ("ask", questions)):
        for word, name in re.findall(r'bytes_eq word \(codes "(\w+)"\) then (\w+)_request', part):
            forms[first, word] = set(re.findall(r'with_\w+ \(codes "(\w+)"\)', bodies[name]))
    return forms


def forms_of_head():
    """The members of each form by the head of the crate that reads them, without those that may be left out."""
    forms, first = {}, None
    for names, members in re.findall(r"^//! \| (`.*`) \| (.*)\|$", text_of("crates/desk_json/src/lib.rt"), flags=re.M):
        if members == "Other members ":
            first = names.strip("`")
            continue
        needed = members.partition(", and perhaps")[0]
        forms.update(((first, name), set(re.findall(r"`(\w+)`", needed))) for name in re.findall(r"`(\w+)`", names))
    return forms


def forms_in_words():
    """The members by which `desk_words` says why a line isn't a request, without those that may be left out."""
    text = text_of("crates/desk_words/src/forms.rt")
    keys = re.findall(r'^const (\w+): Key = Key \{\n +name: "(\w+)",\n +wanted: .*\n +is_optional: (\w+),', text, flags=re.M)
    needed = {constant: name for constant, name, is_optional in keys if is_optional == "false"}
    forms = {}
    for first, names in (("do", "COMMANDS"), ("ask", "QUERIES")):
        listed = re.search(rf"^pub\(crate\) const {names}: .*?^\];$", text, flags=re.M | re.S).group()
        for word, members in re.findall(r'word: "(\w+)",\s*keys: &\[([^\]]*)\]', listed):
            forms[first, word] = {needed[key] for key in re.findall(r"\w+", members) if key in needed}
    return forms


def sections_of_requests():
    """What docs/REQUESTS.md says about each form, commands after `do` and questions after `ask`."""
    page, sections = text_of("docs/REQUESTS.md"), {}
    for first, part in (("do", "Commands"), ("ask", "Questions")):
        text = re.split(r"^## ", page.split(f"\n## {part}\n", 1)[1], maxsplit=1, flags=re.M)[0]
        for line, word in re.findall(r"^(### (\w+): .*)$", text, flags=re.M):
            sections[first, word] = section(text, line)
    return sections


def check_requests():
    """Each form has its own section and a place in the help, with requests that have its members, and its row in the crate's head."""
    forms = forms_of_requests()
    compare("the head of desk_json", forms_of_head(), forms)
    compare("the forms of desk_words", forms_in_words(), forms)
    sections = sections_of_requests()
    compare("the sections of docs/REQUESTS.md", {name: name for name in sections}, {name: name for name in forms})
    for place, texts in (("docs/REQUESTS.md", sections), ("the help of script", dict.fromkeys(forms, text_of(HELP)))):
        for (first, word), members in forms.items():
            shown = re.findall(rf'^ *> (\{{"{first}":"{word}"(?:,.*)?\}})$', texts.get((first, word), ""), flags=re.M)
            if not any(set(json.loads(request)) - {"do", "ask", "profile", "until"} == members for request in shown):
                failures.append(f"{place} has no {first} {word} with {', '.join(sorted(members))}")


def check_decisions():
    """Each decision is a separate bullet, with a name, and short."""
    for line in text_of("docs/DECISIONS.md").splitlines():
        if line.startswith("-") and (not line.startswith("- **") or len(line) > 300):
            failures.append(f"docs/DECISIONS.md has a bullet without a name or of more than 300 characters: {line[:60]}")


def check_words():
    """No page is longer than its budget."""
    for page, most in MOST_WORDS.items():
        words = len(text_of(page).split())
        if words > most:
            failures.append(f"{page} has {words:,} words; its budget is {most:,}")


def check_version():
    """The version is that of VERSION wherever it is written, with the version of the tables if the program prints it there."""
    version = text_of("VERSION").rstrip("\n")
    tables = re.search(r"^schema_version = (\d+)$", text_of("crates/desk_sql_layout/specs/Layout.antt"), flags=re.M).group(1)
    if not re.fullmatch(r"\d+\.\d+\.\d+", version):
        failures.append(f"VERSION has {version!r}, and not three numbers")
    printed = f"{version} (tables {tables})"
    for path, text in (
        ("crates/desk_line/src/subcommands.rt", f'const VERSION: &str = "{printed}";'),
        ("tests/acceptance/version/stdout", f"desk {printed}"),
        ("CHANGELOG.md", f"## {version}"),
    ):
        if not re.search(rf"^{re.escape(text)}( .*)?$", text_of(path), flags=re.M):
            failures.append(f"{path} has no line {text}")


def check_lists():
    """The steps of docs/EXTENDING.md are one line each, and short."""
    for line in text_of("docs/EXTENDING.md").splitlines():
        if len(line) > STEP_COLUMNS:
            failures.append(f"docs/EXTENDING.md has a line of more than {STEP_COLUMNS} characters: {line[:60]}")


def check_tables():
    """The names by which a file that isn't a desk is recognized are those of the tables that a desk declares, in their order."""
    tables = text_of("crates/desk_sql_adopt/src/forms.rt")
    declared = re.findall(r"^    TableForm \{\n        name: \"(\w+)\",$", tables, flags=re.M)
    told = re.search(r"^const NAMES: .*?= \[\n(.*?)^\];$", text_of("crates/desk_files/src/differences.rt"), flags=re.M | re.S)
    names = re.findall(r"\"(\w+)\"", told.group(1)) if told else []
    if not declared or names != declared:
        failures.append(f"crates/desk_files/src/differences.rt has the tables {names}, and not {declared}")


def main():
    check_names()
    check_version()
    check_lists()
    check_tables()
    check_conditions()
    check_examples()
    check_limits()
    check_texts()
    check_requests()
    check_decisions()
    check_words()
    failures.extend(page_names.failures())
    for failure in failures:
        print(failure, file=sys.stderr)
    print("pages: passed" if not failures else f"pages: {len(failures)} differences")
    return 1 if failures else 0


if __name__ == "__main__":
    sys.exit(main())
