"""Compares what `desk explain` prints with the tables of the pages: python3 tests/explain.py PROGRAM

Each row of a table must be printed in its words, the rows of one name in the order of the pages; and each name in the program's tables must
be on a page.
"""

import glob
import os
import re
import subprocess
import sys

HERE = os.path.dirname(os.path.abspath(__file__))
TREE = os.path.dirname(HERE)
REFUSALS, REQUESTS, CATALOGUE, AUDIT, LINT = (f"docs/{name}.md" for name in ("REFUSALS", "REQUESTS", "CATALOGUE", "AUDIT", "LINT"))
CAUSE = "Usual cause"

failures = []


def text_of(path):
    with open(os.path.join(TREE, path), encoding="utf-8") as file:
        return file.read()


def section(page, heading):
    """What a page has below a heading, up to the next one."""
    return re.split(r"^#+ ", text_of(page).split(heading + "\n", 1)[1], maxsplit=1, flags=re.M)[0]


def rows(text, head):
    """The cells of each row of the table with this head, as plain text."""
    below = text.split(head + "\n", 1)[1].split("\n\n", 1)[0]
    for line in below.splitlines()[1:]:
        yield [cell.strip().replace("`", "") for cell in line.strip().strip("|").split(" | ")]


def block(name, kind, lines, page):
    """What is printed for a row: the name and its kind, and a line for each cell that isn't empty."""
    told = [(label, words) for label, words in lines if words] + [("Page", page)]
    return name, f"{name}: {kind}\n" + "".join(f"  {label}: {words}\n" for label, words in told)


def refusals():
    first = text_of(REFUSALS).split("\n## ", 1)[0]
    for number, name, _, requests, cause in rows(first, "| Number | Name | Values in `at` | Commands and questions | Usual cause |"):
        yield block(name, f"refusal {number} ({requests})", [(CAUSE, cause)], REFUSALS)


def faults(page, heading, head, kind):
    """The faults below a heading, each with a number, a name, what is wrong, and perhaps the cause."""
    label = head.strip("| ").split(" | ")[-1]
    for number, name, wrong, *cause in rows(section(page, heading), head):
        yield block(name, f"fault {number} of {kind}", [("What is wrong", wrong), *((label, words) for words in cause)], page)


def other_faults():
    for name, place, wrong, cause in rows(section(REFUSALS, "## Other faults"), "| Name | Where | What is wrong | Usual cause |"):
        yield block(name, f"fault ({place})", [("What is wrong", wrong), (CAUSE, cause)], REFUSALS)


def findings():
    head = "| Kind | Name | What is wrong | Clause of SPDX 2.3 | Usual cause |"
    for number, name, wrong, clauses, cause in rows(text_of(REQUESTS), head):
        yield block(name, f"finding {number} (SPDX 2.3: {clauses})", [("What is wrong", wrong), (CAUSE, cause)], REQUESTS)


def conditions():
    """Of each condition of an audit, its paragraph without what it says of its query."""
    for number, name in enumerate(re.findall(r"^### (\w+)$", text_of(AUDIT), flags=re.M), 1):
        paragraph = section(AUDIT, f"### {name}").strip().split("\n\n")[0].replace("`", "")
        meaning, cause = paragraph.split(" Usual cause: ")
        words = (part.removesuffix(".") for part in (meaning, cause.split(" The query ")[0]))
        yield block(name, f"condition {number} of an audit", zip(("What must hold", CAUSE), words), AUDIT)


def problems():
    for name, wrong in rows(text_of(LINT), "| `kind` | What is wrong |"):
        yield block(name, "problem of a source tree", [("What is wrong", wrong)], LINT)


def wanted():
    """What has to be printed for each name, in the order of the pages."""
    plain = "| Number | Name | What is wrong |"
    told = {}
    for name, text in (
        *refusals(),
        *faults(REFUSALS, "## Faults of a document, in BadDocument", f"{plain} Usual cause, and what is wanted |", "a document (BadDocument)"),
        *faults(REFUSALS, "## Faults of an expression", plain, "an expression (BadExpression)"),
        *other_faults(),
        *findings(),
        *faults(CATALOGUE, "## Faults", f"{plain} Usual cause |", "a catalogue (BadCatalogue)"),
        *conditions(),
        *problems(),
    ):
        told[name] = told.get(name, "") + text
    return told


def names_of_code():
    """The names in the program's tables."""
    for path in glob.glob(os.path.join(TREE, "crates/desk_explain/src/*.rt")):
        yield from re.findall(r'^ +name: "(\w+)",$', text_of(path), flags=re.M)


def main():
    program = os.path.abspath(sys.argv[1])
    told = wanted()
    for name, text in told.items():
        run = subprocess.run([program, "explain", name], stdin=subprocess.DEVNULL, capture_output=True, text=True, check=False)
        if (run.returncode, run.stdout, run.stderr) != (0, text, ""):
            failures.append(f"{name}: status {run.returncode}, {run.stdout + run.stderr!r} and not {text!r}")
    failures.extend(f"no page has {name}" for name in sorted(set(names_of_code()) - set(told)))
    for failure in failures:
        print(failure)
    print(f"explain: {len(failures)} differences" if failures else f"explain: passed, {len(told)} names")
    return 1 if failures else 0


if __name__ == "__main__":
    sys.exit(main())
