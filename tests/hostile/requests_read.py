"""Which lines are requests: a second reader of docs/REQUESTS.md, over Python's json."""

import json

KEYS = {
    "catalogue": "text", "import": "text", "open": "release form", "attach": "release document", "conclude": "document package expression",
    "adopt": "document reference licence", "choose": "release document package terms", "unchoose": "release document package",
    "freeze": "release day", "meet": "duty day text", "waive": "duty day text", "reopen": "duty day text", "close": "day",
    "withdraw": "release day text",
}
QUESTIONS = {
    "duties": "release", "totals": "release", "changes": "duty", "findings": "document", "release": "release",
    "alternatives": "document package", "cheapest": "document form package", "releases": "", "documents": "", "open": "",
    "wanting": "release", "ready": "release", "gaps": "release",
}
MAY_BE_LEFT_OUT = {"import": "profile", "waive": "until", "ready": "day"}
NUMBERS = {"document", "duty", "profile"}
LINE_BYTES = 8 << 20
LARGEST = (1 << 63) - 1


class Number(str):
    """A whole number as it is written."""


class NoValue:
    """A number that isn't whole, or a word such as NaN."""

    def __init__(self, text):
        if text in ("NaN", "Infinity", "-Infinity"):
            raise ValueError(text)


def without_end(line):
    """A line without LF or CR LF, of which it has one."""
    return line.removesuffix(b"\n").removesuffix(b"\r") if line.endswith(b"\r\n") else line.removesuffix(b"\n")


def is_blank(line):
    return not without_end(line).strip(b" \t")


def is_text(value):
    """A text that UTF-8 has: half a pair of surrogates isn't one."""
    if not isinstance(value, str) or isinstance(value, Number):
        return False
    return not any("\ud800" <= letter <= "\udfff" for letter in value)


def value_of(key, value):
    """The value of a key, or None if it is of another kind."""
    if key in NUMBERS:
        is_number = isinstance(value, Number) and not value.startswith("-") and len(value) < 20 and int(value) <= LARGEST
        return int(value) if is_number else None
    if key == "terms":
        return value if isinstance(value, list) and all(map(is_text, value)) else None
    return value if is_text(value) else None


def keys_of(request):
    """The keys that a request must have, and the one that it may have."""
    for first, kinds in (("do", KEYS), ("ask", QUESTIONS)):
        kind = request.get(first)
        if is_text(kind) and kind in kinds:
            return {first, *kinds[kind].split()}, {MAY_BE_LEFT_OUT.get(kind, first)}
    return None, None


def has_half(value):
    """Whether half a pair of surrogates is in a text, or in one of a list."""
    if isinstance(value, list):
        return any(map(has_half, value))
    return isinstance(value, str) and any("\ud800" <= letter <= "\udfff" for letter in value)


def object_with(pairs):
    """An object. Of two values of one key the later one counts, but the earlier one must be readable too."""
    if any(has_half(key) or has_half(value) for key, value in pairs):
        raise ValueError
    return dict(pairs)


def object_of(line):
    try:
        found = json.loads(line.decode(), parse_int=Number, parse_float=NoValue, parse_constant=NoValue, object_pairs_hook=object_with)
    except (ValueError, RecursionError):
        return None
    return found if isinstance(found, dict) else None


def request_of(line):
    """The request of a line, or None."""
    line = without_end(line)
    found = object_of(line) if len(line) <= LINE_BYTES else None
    if found is None:
        return None
    wanted, optional = keys_of(found)
    if wanted is None or not wanted <= set(found) <= wanted | optional:
        return None
    request = {key: value_of(key, value) for key, value in found.items()}
    if None in request.values() or request.get("profile", 1) not in (1, 2):
        return None
    return request
