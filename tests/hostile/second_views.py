"""What a second desk writes as notices, a page, tables and lists: from docs/REPORTS.md and the example of a page in tests/acceptance."""

import html
import os
import unicodedata

import catalogue_faults
import running
import second_desk
import second_judge
import second_lists

EXAMPLE = os.path.join(running.TESTS, "acceptance/page-of-a-release/stdout")
RELEASES = "name form state revision raised open met waived withdrawn".split()
DOCUMENTS = "number name namespace packages shipped findings profile".split()
DUTIES = "number release document package name rule code title state raised since until".split()
STATES = ("open", "met", "waived", "withdrawn")
# What sets the direction of text: these letters, and those between two others.
TURNING = {0x061C, 0x200E, 0x200F, *range(0x202A, 0x202F), *range(0x2066, 0x206A)}
NO_TEXT = "No text recorded."


# ---- notices


def frozen(desk, name):
    """The release, or a refusal."""
    release = desk.release({"release": name})
    second_desk.refuse_if(release.state != "frozen", 13, release.state)
    return release


def lines_of(desk, release):
    """The name, version, licences and copyright of each package that ships."""
    for number, package, terms in release.frozen:
        _, name, version, _, copyright_text, _ = desk.documents[number - 1].packages[package]
        texts = [None if text is None else text.decode() for text in (name, version, copyright_text)]
        yield texts[0], texts[1], [rule.spelled.decode() for _, rule in terms], "none given" if texts[2] is None else texts[2]


def texts_of(desk, release):
    """The title and the text of each licence, exception and reference of a frozen release, in the order of first use."""
    catalogue = catalogue_faults.toml_of(desk.catalogues[release.revision - 1].decode()) if release.revision else {}
    recorded = {second_judge.folded(text["licence"].encode()).decode(): (text["licence"], text["body"]) for text in catalogue.get("text", [])}
    found = {}
    for number, _, terms in release.frozen:
        extracted = dict(desk.documents[number - 1].read.references)
        for term, _ in terms:
            licence, _, exception = term.decode().partition(" WITH ")
            if term.startswith(second_judge.RESERVED):
                text = extracted.get(licence.encode())
                found.setdefault((number, licence), (licence, None if text is None else text.decode()))
            for key in ([] if term.startswith(second_judge.RESERVED) else [licence.removesuffix("+")]) + [exception] * bool(exception):
                found.setdefault((0, key), recorded.get(key, (key, None)))
    return list(found.values())


def ended(text):
    return text if text.endswith("\n") else text + "\n"


def notices(desk, name):
    release = frozen(desk, name)
    told = f"Notices for {name} ({release.form})\n"
    for package, version, rules, copyright_text in lines_of(desk, release):
        told += f"\n{package}{'' if version is None else f' {version}'}\n"
        told += "".join(f"Licence: {rule}\n" for rule in rules) + f"Copyright: {copyright_text}\n"
    for title, text in texts_of(desk, release):
        told += f"\n---- {title} ----\n" + ended(NO_TEXT if text is None else text)
    return told


# ---- tables


def record(cells):
    """A record of RFC 4180, ended by a line feed."""
    quoted = ['"{}"'.format(cell.replace('"', '""')) if set(cell) & set(',"\r\n') else cell for cell in cells]
    return ",".join(quoted) + "\n"


def no_formula(cell):
    """A cell that no spreadsheet takes for a formula."""
    return "'" + cell if cell[:1] in set("=+-@\t\r") else cell


def duties(desk, name):
    """The table of the duties of a release."""
    names = "number document package term rule code state since".split()
    rows = desk.ask_duties({"release": name})["rows"]
    return [names, *([str(cell) for cell in row] for row in rows)]


def totals(desk, name):
    row = desk.ask_totals({"release": name})["rows"][0]
    return "raised {} open {} met {} waived {} withdrawn {}\n".format(*row)


def changes(desk, number):
    rows = desk.ask_changes({"duty": number})["rows"]
    lines = [[str(step), day, word, *(["until", *until] if until else []), *([text] if text else [])] for step, day, word, text, *until in rows]
    return "".join(" ".join(line) + "\n" for line in lines)


# ---- lists


def release_rows(desk):
    yield RELEASES
    for release in desk.releases.values():
        yield [release.name, release.form, release.state, str(release.revision), *map(str, desk.ask_totals({"release": release.name})["rows"][0])]


def document_rows(desk):
    yield DOCUMENTS
    for number, document in enumerate(desk.documents, 1):
        sections, _ = second_judge.sections_of(second_judge.oracle.fields(document.data.decode()))
        # (the name may be in the section of an element)
        name = next(section["DocumentName"] for section in sections if "DocumentName" in section)
        findings = len(second_lists.findings(document.data, document.profile))
        counts = [len(document.packages), len(document.shipped()), findings, 1 + (document.profile != second_judge.CAPITALS)]
        yield [str(number), name, document.read.namespace.decode(), *map(str, counts)]


def titles(desk):
    """The titles of codes in the catalogue in force."""
    catalogue = catalogue_faults.toml_of(desk.catalogues[-1].decode()) if desk.catalogues else {}
    return {duty["code"]: duty["title"] for duty in catalogue.get("duty", [])}


def last_day(duty):
    """The last day of a waiver that ends, or nothing."""
    return duty.changes[-1][4] if duty.state == "waived" and len(duty.changes[-1]) == 5 else ""


def is_listed(duty, release=None, code=None, is_open=False, past=None):
    if release not in (None, duty.release.name) or code not in (None, duty.row[4]) or is_open and duty.state != "open":
        return False
    return past is None or last_day(duty) != "" and last_day(duty) < past


def duty_rows(desk, **filters):
    yield DUTIES
    named = titles(desk)
    for duty in sorted(desk.duties, key=lambda duty: (duty.changes[0][1], duty.number)):
        if is_listed(duty, **filters):
            number, package, _, rule, code = duty.row
            name = desk.documents[number - 1].packages[package][1].decode()
            days = [duty.changes[0][1], duty.changes[-1][1], last_day(duty)]
            yield [str(duty.number), duty.release.name, str(number), package, name, rule, code, named.get(code, ""), duty.state, *days]


# ---- columns on a terminal


def shown(cell):
    """A cell as a terminal gets it."""
    return "".join("?" if unicodedata.category(letter) == "Cc" or ord(letter) in TURNING else letter for letter in cell)


def width(cell):
    """How many columns a terminal gives to it."""
    return sum(0 if unicodedata.combining(letter) else 2 if unicodedata.east_asian_width(letter) in "WF" else 1 for letter in shown(cell))


def columns(rows):
    rows = list(rows)
    widths = [max(map(width, column)) for column in zip(*rows)]
    line = lambda row: "".join(shown(cell) + " " * (size - width(cell) + 2) for cell, size in zip(row[:-1], widths))
    return "".join(line(row) + shown(row[-1]) + "\n" for row in rows)


# ---- the page


def is_barred(letter):
    """Whether HTML doesn't allow a letter, or it sets the direction of text."""
    number = ord(letter)
    is_control = unicodedata.category(letter) == "Cc" and letter not in "\t\n\f\r"
    return is_control or 0xFDD0 <= number <= 0xFDEF or number & 0xFFFE == 0xFFFE or number in TURNING


def escaped(text):
    letters = "".join("\ufffd" if is_barred(letter) else letter for letter in text)
    return html.escape(letters).replace("&#x27;", "&#39;")


def head(cell, more=""):
    return f'<tr><th scope="row"{more}>{cell}</th>'


def cell(text):
    return f"<td>{escaped(text)}</td>"


def count(number):
    return f'<td class="number">{number}</td>'


def last(text):
    return f'<td class="lines">{escaped(text)}</td></tr>\n'


def bar(part, whole):
    return f'<td><svg viewBox="0 0 {whole} 1" preserveAspectRatio="none" aria-hidden="true"><rect width="{part}" height="1"/></svg></td></tr>\n'


def link(duty):
    return head(f'<a href="#duty-{duty.number}">{duty.number}</a>')


def by_licence(release):
    """The duties of each licence, in the order of first use."""
    found = {}
    for duty in release.duties:
        found.setdefault(duty.row[3], []).append(duty.state)
    for licence, states in found.items():
        counts = [len(states), *map(states.count, ("met", "waived", "withdrawn", "open"))]
        yield head(escaped(licence)) + "".join(map(count, counts)) + bar(counts[-1], counts[0])


def tables(desk, release):
    """The rows of each table of a page, in their order."""
    raised = len(release.duties)
    states = [duty.state for duty in release.duties]
    yield [head(word.capitalize()) + count(number) + bar(number, raised)
           for word, number in [("raised", raised), *((state, states.count(state)) for state in STATES)]]
    yield [head(escaped(name)) + cell(version or "") + f"<td>{''.join(f'<div>{escaped(rule)}</div>' for rule in rules)}</td>" + last(copyright_text)
           for name, version, rules, copyright_text in lines_of(desk, release)]
    yield list(by_licence(release))
    yield [head(duty.number, f' id="duty-{duty.number}"') + count(duty.row[0]) + cell(duty.row[1]) + cell(duty.row[3]) + cell(duty.row[4])
           + cell(duty.state) + last(duty.changes[-1][1]) for duty in release.duties]
    yield [link(duty) + cell(duty.row[3]) + cell(duty.row[4]) + cell(last_day(duty)) + last(duty.changes[-1][3])
           for duty in release.duties if last_day(duty)]
    yield [link(duty) + cell(day) + cell(word) + cell(until[0] if until else "") + last(text)
           for duty in release.duties for _, day, word, text, *until in duty.changes]


def article(title, text):
    body = f"<p>{NO_TEXT}</p>" if text is None else f"<pre>\n{escaped(text)}</pre>"
    return f"<article>\n<h3>{escaped(title)}</h3>\n{body}\n</article>\n"


def page(desk, name):
    """The example with other rows and notices."""
    release = frozen(desk, name)
    with open(EXAMPLE, encoding="utf-8", newline="") as file:
        text = file.read().partition("</html>\n")
    front, *parts = (text[0] + text[1]).replace("Release r1<", f"Release {name}<").replace("It ships as binary.", f"It ships as {release.form}.").split("<table>\n")
    told = front
    for part, rows in zip(parts, tables(desk, release)):
        names, _, rest = part.partition("<tbody>\n")
        behind = rest.partition("</tbody>\n</table>\n")[2]
        told += f"<table>\n{names}<tbody>\n{''.join(rows)}</tbody>\n</table>\n{behind}" if rows else f"<p>None.</p>\n{behind}"
    before, _, rest = told.partition("<article>\n")
    end = rest.rpartition("</article>\n")[2]
    return before + "".join(article(*text) for text in texts_of(desk, release)) + end
