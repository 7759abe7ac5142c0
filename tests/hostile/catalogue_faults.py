"""The first fault of a catalogue: a second reader of docs/CATALOGUE.md, over Python's tomllib.

tomllib reads TOML 1.0 and the desk TOML 1.1, and both standards leave numbers and times beyond their ranges to the reader; `is_sure` says
whether the two must agree on a text."""

import functools
import re
import tomllib

import second_judge

NOT_TOML, MISSING, BAD_KIND, BAD_TERM, UNKNOWN_FORM, UNKNOWN_DUTY, TWICE, TOO_LARGE = range(1, 9)
FORMS, ID_BYTES, TITLE_BYTES = 16, 64, 256
# What TOML 1.1 has and TOML 1.0 hasn't, a mark of the order of bytes, times, and numbers of many digits, points or letters.
UNSURE = re.compile(r"""^\ufeff | \\[ex] | [{}] | \d\d:\d\d | \d{4}-\d\d | [\d_]{17,} | \d[eE] | 0[xob][0-9A-Fa-f_]{15,} """, re.X)


class Fault(Exception):
    def __init__(self, number, part=None, index=0):
        super().__init__([number] if part is None else [number, part, index])


def is_sure(text):
    return not UNSURE.search(text)


@functools.lru_cache(maxsize=1_000)
def toml_of(text):
    """The tables of a TOML document, or None."""
    try:
        return tomllib.loads(text)
    except (tomllib.TOMLDecodeError, RecursionError, ValueError, TypeError, AttributeError, KeyError):
        return None


def is_id(value):
    return isinstance(value, str) and len(value.encode()) <= ID_BYTES and re.fullmatch(second_judge.IDSTRING, value.encode()) is not None


def is_title(value):
    return isinstance(value, str) and 1 <= len(value.encode()) <= TITLE_BYTES and second_judge.are_shown(value.encode())


def read_forms(found):
    if "forms" not in found:
        raise Fault(MISSING, "forms")
    forms = found["forms"]
    if not isinstance(forms, list) or not 1 <= len(forms) <= FORMS:
        raise Fault(BAD_KIND, "forms")
    for index, form in enumerate(forms):
        if not is_id(form):
            raise Fault(BAD_KIND, "forms", index)
    for index, form in enumerate(forms):
        if form in forms[:index]:
            raise Fault(TWICE, "forms", index)
    return forms


def tables(found, part, keys):
    """Each table of a part with its index, once its keys are there."""
    listed = found.get(part, [])
    if not isinstance(listed, list):
        raise Fault(BAD_KIND, part)
    for index, table in enumerate(listed):
        if not isinstance(table, dict):
            raise Fault(BAD_KIND, part, index)
        if any(key not in table for key in keys):
            raise Fault(MISSING, part, index)
        yield index, [table[key] for key in keys]


def read_duties(found):
    codes = set()
    for index, (code, title) in tables(found, "duty", ("code", "title")):
        if not is_id(code) or not is_title(title):
            raise Fault(BAD_KIND, "duty", index)
        if code in codes:
            raise Fault(TWICE, "duty", index)
        codes.add(code)
    return codes


def read_rules(found, forms, codes):
    seen = set()
    for index, (term, form, duties) in tables(found, "rule", ("term", "form", "duties")):
        is_list = isinstance(duties, list) and all(isinstance(code, str) for code in duties)
        if not isinstance(term, str) or not isinstance(form, str) or not is_list:
            raise Fault(BAD_KIND, "rule", index)
        printed = second_judge.term_of(term.encode())
        if printed is None or printed.startswith(second_judge.RESERVED):
            raise Fault(BAD_TERM, "rule", index)
        if form not in forms:
            raise Fault(UNKNOWN_FORM, "rule", index)
        if not set(duties) <= codes:
            raise Fault(UNKNOWN_DUTY, "rule", index)
        if len(set(duties)) < len(duties) or (printed, form) in seen:
            raise Fault(TWICE, "rule", index)
        seen.add((printed, form))


def read_texts(found):
    seen = set()
    for index, (licence, body) in tables(found, "text", ("licence", "body")):
        if not isinstance(licence, str) or not isinstance(body, str):
            raise Fault(BAD_KIND, "text", index)
        name = licence.encode()
        if not re.fullmatch(second_judge.IDSTRING, name) or name.startswith(second_judge.RESERVED):
            raise Fault(BAD_TERM, "text", index)
        if second_judge.folded(name) in seen:
            raise Fault(TWICE, "text", index)
        seen.add(second_judge.folded(name))


def fault_of(text):
    """What `at` of BadCatalogue contains, or None for a catalogue."""
    if len(text.encode()) > second_judge.CATALOGUE_BYTES:
        return [TOO_LARGE]
    found = toml_of(text)
    if found is None:
        return [NOT_TOML]
    try:
        forms = read_forms(found)
        read_rules(found, forms, read_duties(found))
        read_texts(found)
        return None
    except Fault as fault:
        return fault.args[0]
