"""What the bytes of a connection ask for: a second reader of docs/HTTP.md and RFC 9112.

It parses a request leniently and notes what strict readers refuse. If the standard leaves a byte to the reader, two answers are right: 400,
and that for the request as it was parsed."""

import re

import requests_read

HEAD, FIELDS, BODY = 16_384, 64, 8 << 20
TOKEN = re.compile(rb"[!#$%&'*+\-.^_`|~0-9A-Za-z]+")
# Bytes that a target may have by RFC 3986. A reader may take others.
TARGET = re.compile(rb"[A-Za-z0-9\-._~:/?#\[\]@!$&'()*+,;=%]+")
VALUE = re.compile(rb"[\t\x20-\x7e]*")
BAD, FORBIDDEN, TOO_LARGE, NOT_IMPLEMENTED = 400, 403, 413, 501
OWN = rb"(?i:127\.0\.0\.1|localhost|\[::1\])"


class Asked:
    """Only a status, or a method, a target and a body. `is_sure` says whether the request may not be refused."""

    def __init__(self, status=None, method=None, target=None, body=b"", is_sure=True):
        self.status, self.method, self.target, self.body, self.is_sure = status, method, target, body, is_sure


def head_of(data):
    """The lines of the head and how many bytes it has, line ends before it included, or None."""
    start = re.match(rb"(\r?\n)*", data).end()
    match = re.search(rb"\n\r?\n", data[start:])
    if not match:
        return None
    end = start + match.end()
    return data[start : start + match.start()].split(b"\n"), end


def is_line(line):
    """A line has a CR only at its end."""
    return b"\r" not in line.removesuffix(b"\r") and b"\0" not in line


def field_of(line):
    """The name in small letters, the value, and whether each byte is one that the standard has; None for no field."""
    name, colon, value = line.removesuffix(b"\r").partition(b":")
    if not colon or not TOKEN.fullmatch(name):
        return None
    return name.lower(), value.strip(b" \t"), VALUE.fullmatch(value) is not None


def length_of(fields):
    """The length of the body, or None if the fields are inconsistent."""
    lengths = {value for name, value, _ in fields if name == b"content-length"}
    if any(not re.fullmatch(rb"[0-9]{1,18}", value) for value in lengths) or len({int(value) for value in lengths}) > 1:
        return None
    return int(lengths.pop()) if lengths else 0


def request_line(line):
    """Method, target, and whether the target has no odd byte; None for no request line of these versions."""
    parts = line.removesuffix(b"\r").split(b" ")
    if len(parts) != 3 or not TOKEN.fullmatch(parts[0]) or not parts[1] or parts[2] not in (b"HTTP/1.0", b"HTTP/1.1"):
        return None
    if any(byte <= 32 or byte == 127 for byte in parts[1]):
        return None
    return parts[0], parts[1], TARGET.fullmatch(parts[1]) is not None


def is_address(text, port):
    """The desk's own address."""
    match = re.fullmatch(OWN + rb"(?::([0-9]{1,18}))?", text)
    return match is not None and (int(match[1]) if match[1] else 80) == port


def is_foreign(fields, port):
    """A browser sent these fields for a page from elsewhere ('Who can reach it' of the page)."""
    hosts = [value for name, value, _ in fields if name == b"host"]
    for name, value, _ in fields:
        if name == b"origin" and not (value[:7].lower() == b"http://" and is_address(value[7:], port)):
            return True
        if name == b"sec-fetch-site" and value not in (b"same-origin", b"none"):
            return True
    if any(host and not re.fullmatch(OWN + rb"(:.*)?", host, re.DOTALL) for host in hosts):
        return True
    return any(name.startswith(b"sec-fetch-") for name, _, _ in fields) and not all(is_address(host, port) for host in hosts)


def asked(data, port=None):
    """What all bytes of a connection ask for, after which the peer sends no more. None if it sent nothing. With a port, pages from
    elsewhere are refused."""
    if not data:
        return None
    found = head_of(data)
    if not found or found[1] > HEAD or not all(map(is_line, found[0])):
        return Asked(BAD)
    (first, *rest), end = found
    line, fields = request_line(first), list(map(field_of, rest))
    if line is None or None in fields or len(fields) > FIELDS:
        return Asked(BAD)
    method, target, is_plain = line
    is_sure = is_plain and all(known for _, _, known in fields)
    if port is not None and is_foreign(fields, port):
        return Asked(FORBIDDEN, is_sure=is_sure)
    if any(name == b"transfer-encoding" for name, _, _ in fields):
        return Asked(NOT_IMPLEMENTED, is_sure=is_sure)
    length = length_of(fields)
    if length is None:
        return Asked(BAD)
    if length > BODY:
        return Asked(TOO_LARGE, is_sure=is_sure)
    body = data[end : end + length]
    return Asked(BAD) if len(body) < length else Asked(None, method, target, body, is_sure)


NUMBER, NAME = rb"([0-9]{1,18})", rb"([^/]+)"
ROUTES = [
    (rb"/documents/%b/findings" % NUMBER, "findings", "document"),
    (rb"/documents/%b/packages/%b/alternatives" % (NUMBER, NAME), "alternatives", "document package"),
    (rb"/documents/%b/packages/%b/cheapest/%b" % (NUMBER, NAME, NAME), "cheapest", "document package form"),
    (rb"/releases/%b" % NAME, "release", "release"),
    (rb"/releases/%b/duties" % NAME, "duties", "release"),
    (rb"/releases/%b/totals" % NAME, "totals", "release"),
    (rb"/duties/%b/changes" % NUMBER, "changes", "duty"),
    (rb"/releases/%b/notices" % NAME, "notices", "release"),
    (rb"/releases/%b/duties.csv" % NAME, "csv", "release"),
]


def question_of(path):
    """The question of a path, or None."""
    for pattern, kind, keys in ROUTES:
        match = re.fullmatch(pattern.replace(b"duties.csv", rb"duties\.csv"), path)
        if match:
            values = [value.decode("utf-8", "surrogateescape") for value in match.groups()]
            return {"ask": kind, **{key: int(value) if key in requests_read.NUMBERS else value for key, value in zip(keys.split(" "), values)}}
    return None


def request_of(asked):
    """The request of a method, a target and a body: an object, the name of a fault, or bytes that aren't a catalogue."""
    path = asked.target.partition(b"?")[0]
    if asked.method == b"GET":
        return question_of(path) or "route"
    if asked.method != b"POST":
        return "route"
    if path == b"/commands":
        return requests_read.request_of(asked.body) or "command"
    if path == b"/documents":
        return {"do": "import", "text": asked.body}
    if path == b"/catalogue":
        try:
            return {"do": "catalogue", "text": asked.body.decode()}
        except UnicodeDecodeError:
            return "catalogue"
    return "route"
