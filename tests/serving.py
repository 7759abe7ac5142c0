"""Sends requests to a desk that `desk serve` keeps in a file: python3 tests/serving.py PROGRAM

- The dialogues that tests/database.py runs over files, each line on its own connection; the heads of all replies are compared too.
- Each route, byte for byte with status and head, each refusal that it can give, and the examples of docs/HTTP.md.
- Requests that are divided, too long, of other versions, with inconsistent fields, or broken off at each byte.
- Peers that send nothing, a byte now and then, or everything and then disappear, and those that take nothing: the next one is served.
- A disk that fails.
- Ports that can't be listened on.

Ends with the line 'N passed, M failed'."""

import http.client
import json
import os
import shutil
import socket
import sqlite3
import struct
import subprocess
import sys
import tempfile
import threading
import time

sys.path.insert(0, os.path.dirname(os.path.abspath(__file__)))
sys.dont_write_bytecode = True

import database

SECONDS = 120
LIMIT = 8 << 20
REASONS = {
    200: "OK",
    400: "Bad Request",
    403: "Forbidden",
    404: "Not Found",
    409: "Conflict",
    413: "Content Too Large",
    422: "Unprocessable Content",
    500: "Internal Server Error",
    501: "Not Implemented",
    503: "Service Unavailable",
}
NOT_FOUND = {4, 5, 12, 23}
CONFLICT = {3, 7, 10, 13, 14, 20, 24}
FAULTS = {"memory": 503, "store": 500, "command": 400, "request": 400, "origin": 403, "route": 404}


def status_of(reply):
    """The status of a reply, by its body."""
    told = json.loads(reply)
    if "fault" in told:
        return FAULTS[told["fault"]]
    if "refused" not in told:
        return 200
    return 404 if told["refused"] in NOT_FOUND else 409 if told["refused"] in CONFLICT else 422


JSON = "application/json"


def fields_of(body, kind):
    return [("Content-Type", kind), ("Content-Length", str(len(body))), ("Connection", "close")]


def response(body, kind=JSON, status=None):
    """All bytes of the response with a body."""
    status = status or (status_of(body) if kind == JSON else 200)
    fields = "".join(f"{name}: {value}\r\n" for name, value in fields_of(body, kind))
    return f"HTTP/1.1 {status} {REASONS[status]}\r\n{fields}\r\n".encode() + body


def read(body, kind=JSON, status=None):
    """The version, the status, its reason, the fields and the body of that response."""
    status = status or (status_of(body) if kind == JSON else 200)
    return 11, status, REASONS[status], fields_of(body, kind), body


class NotServed(Exception):
    """A program that ended before it listened: its status, and what it wrote to standard error."""

    def __init__(self, status, words):
        super().__init__(f"status {status}: {words!r}")
        self.status, self.words = status, words


class Served:
    """A desk in a file that is served to this many connections."""

    def __init__(self, program, path, limit, **env):
        words = [program, "serve", "--db", path, "--port", "0", "--limit", str(limit)]
        self.process = subprocess.Popen(words, stdout=subprocess.PIPE, stderr=subprocess.PIPE, stdin=subprocess.DEVNULL, env=env or None)
        line = self.process.stdout.readline()
        if not line.startswith(b"listening on 127.0.0.1:"):
            _, words = self.process.communicate(timeout=SECONDS)
            raise NotServed(self.process.returncode, words)
        self.port = int(line.rpartition(b":")[2])

    def connect(self):
        return socket.create_connection(("127.0.0.1", self.port), SECONDS)

    def raw(self, *pieces, ends=True):
        """The bytes that come back when these are sent, one piece after the other."""
        with self.connect() as peer:
            peer.setsockopt(socket.IPPROTO_TCP, socket.TCP_NODELAY, 1)
            try:
                for piece in pieces:
                    peer.sendall(piece)
                if ends:
                    peer.shutdown(socket.SHUT_WR)
            except OSError:
                pass  # (a request that is refused early isn't read to its end)
            return received(peer)

    def ask(self, method, path, body=None, fields=()):
        """The response as Python's own client reads it, which sends these fields too."""
        client = http.client.HTTPConnection("127.0.0.1", self.port, timeout=SECONDS)
        try:
            client.request(method, path, body, dict(fields))
            answer = client.getresponse()
            return answer.version, answer.status, answer.reason, answer.getheaders(), answer.read()
        finally:
            client.close()

    def ended(self):
        """The status, and what was on standard error."""
        _, told = self.process.communicate(timeout=SECONDS)
        return self.process.returncode, told

    def stop(self):
        self.process.kill()
        self.process.communicate()


def received(peer):
    told = b""
    while True:
        try:
            piece = peer.recv(1 << 16)
        except ConnectionResetError:
            return told
        if not piece:
            return told
        told += piece


class Tally:
    def __init__(self):
        self.passed = self.failed = 0

    def note(self, name, found):
        self.passed, self.failed = self.passed + (not found), self.failed + bool(found)
        if found:
            print(f"{name}: {found}", flush=True)

    def same(self, name, told, wanted):
        self.note(name, None if told == wanted else f"{told!r:.400}, and not {wanted!r:.400}")


def spoken(program, room, requests, replies, fields_at=lambda port: ()):
    """What is wrong with a dialogue, each line of which is a connection with the fields for a port, if anything."""
    asked = [line for line in database.lines(requests) if not database.is_blank(line)]
    replies = database.lines(replies)
    desk = Served(program, os.path.join(room, "desk"), len(asked))
    try:
        for number, (line, reply) in enumerate(zip(asked, replies), 1):
            line, reply = line.removesuffix(b"\n"), reply.removesuffix(b"\n")
            wanted = read(BAD, status=413) if len(line) > LIMIT else read(reply)
            told = desk.ask("POST", "/commands", line, fields_at(desk.port))
            if told != wanted:
                return f"line {number} is replied {told!r:.300}, and not {wanted!r:.300}"
        status, stderr = desk.ended()
        return None if status == 0 and not stderr else f"status {status}: {stderr!r}"
    finally:
        desk.stop()


def dialogues(program, tally, fields_at=lambda port: ()):
    for name, requests, replies, _ in database.cases():
        if database.lines(requests):
            with tempfile.TemporaryDirectory(dir=database.ROOM) as room:
                tally.note(name, spoken(program, room, requests, replies, fields_at))


BAD = b'{"fault":"request"}'
DOCUMENT = database.dialogue.fixture("small document").encode()
CATALOGUE = database.dialogue.fixture("small catalogue").encode()


def post(path, body):
    return b"POST %s HTTP/1.1\r\nHost: localhost\r\nContent-Length: %d\r\n\r\n" % (path, len(body)) + body


def get(path, version=b"HTTP/1.1"):
    return b"GET %s %s\r\nHost: localhost\r\n\r\n" % (path, version)


UNKNOWN = b'{"at":[],"name":"UnknownDuty","refused":23}'
NO_ROUTE = b'{"fault":"route"}'
NO_COMMAND = b'{"fault":"command"}'
NO_DOCUMENT = b'{"at":[],"name":"UnknownDocument","refused":4}'
NO_RELEASE = b'{"at":[],"name":"UnknownRelease","refused":12}'

PLAIN = "text/plain; charset=utf-8"
NOTICES = b"""Notices for r1 (binary)

p 1.0
Licence: MIT
Copyright: Copyright P

---- MIT ----
MIT text
"""
CSV = "text/csv; charset=utf-8"
NAMES = b"number,document,package,term,rule,code,state,since\n"
TABLE = NAMES + b"1,1,SPDXRef-p,mit,MIT,include-text,met,2025-03-04\n"

CHANGES = b'{"rows":[[1,"2025-03-03","raised",""],[2,"2025-03-04","met","notices.txt"]]}'
TOTALS = b'{"rows":[[1,0,1,0,0]]}'

# A name, a request, the body of its response, and its type if it isn't JSON: one release, by all routes.
RELEASE = [
    ("an unknown duty", get(b"/duties/1/changes"), UNKNOWN),
    ("totals of no release", get(b"/releases/r1/totals"), NO_RELEASE),
    ("a catalogue that is no text", post(b"/catalogue", b"\xff"), b'{"at":[1],"name":"BadCatalogue","refused":1}'),
    ("a catalogue", post(b"/catalogue", CATALOGUE), b'{"revision":1}'),
    ("a document", post(b"/documents", DOCUMENT), b'{"document":1,"new":true}'),
    ("the document again", post(b"/documents", DOCUMENT), b'{"document":1,"new":false}'),
    ("another document of its name", post(b"/documents", DOCUMENT + b"\n"), b'{"at":[1],"name":"NamespaceTaken","refused":3}'),
    ("its findings", get(b"/documents/1/findings"), b'{"rows":[]}'),
    ("alternatives", get(b"/documents/1/packages/SPDXRef-p/alternatives"), b'{"rows":[["mit"]]}'),
    ("the cheapest", get(b"/documents/1/packages/SPDXRef-p/cheapest/binary"), b'{"rows":[[1,["mit"]]]}'),
    ("an opening", post(b"/commands", b'{"do":"open","release":"r1","form":"binary"}'), b'{"done":true}'),
    ("what is in the way", post(b"/commands", b'{"ask":"wanting","release":"r1"}'), b'{"rows":[{"at":[],"name":"EmptyRelease","refused":20}]}'),
    ("whether it is ready", post(b"/commands", b'{"ask":"ready","release":"r1"}'), b'{"at":["open"],"name":"ReleaseState","refused":13}'),
    ("notices of an open release", get(b"/releases/r1/notices"), b'{"at":["open"],"name":"ReleaseState","refused":13}'),
    ("a table of no duties", get(b"/releases/r1/duties.csv"), NAMES, CSV),
    ("an attachment", post(b"/commands", b'{"do":"attach","release":"r1","document":1}'), b'{"done":true}'),
    ("a choice", post(b"/commands", b'{"do":"choose","release":"r1","document":1,"package":"SPDXRef-p","terms":["MIT"]}'), b'{"done":true}'),
    ("a freeze", post(b"/commands", b'{"do":"freeze","release":"r1","day":"2025-03-03"}'), b'{"count":1,"first":1}'),
    ("all open duties", post(b"/commands", b'{"ask":"open"}'), b'{"rows":[[1,"r1",1,"SPDXRef-p","mit","MIT","include-text","2025-03-03"]]}'),
    ("a duty that is met", post(b"/commands", b'{"do":"meet","duty":1,"day":"2025-03-04","text":"notices.txt"}'), b'{"done":true}'),
    ("a question as a request", post(b"/commands", b'{"ask":"totals","release":"r1"}'), TOTALS),
    ("all releases", post(b"/commands", b'{"ask":"releases"}'), b'{"rows":[["r1","binary","frozen",1,1,0,1,0,0]]}'),
    ("all documents", post(b"/commands", b'{"ask":"documents"}'), b'{"rows":[[1,"https://example.org/d1",1,1]]}'),
    ("totals", get(b"/releases/r1/totals"), TOTALS),
    ("the release", get(b"/releases/r1"), b'{"rows":[["r1","binary","frozen",1],[1,"SPDXRef-p","p","MIT",["mit"]]]}'),
    ("its duties", get(b"/releases/r1/duties"), b'{"rows":[[1,1,"SPDXRef-p","mit","MIT","include-text","met","2025-03-04"]]}'),
    ("its notices", get(b"/releases/r1/notices"), NOTICES, PLAIN),
    ("its table of duties", get(b"/releases/r1/duties.csv"), TABLE, CSV),
    ("changes", get(b"/duties/1/changes"), CHANGES),
    ("no route", get(b"/nothing"), NO_ROUTE),
    ("no command", post(b"/commands", b"{}"), NO_COMMAND),
    ("no request", b"GET / HTTP/3\r\n\r\n", BAD),
]

DONE = b'{"done":true}'
WITHDRAWN = b'{"at":["withdrawn"],"name":"ReleaseState","refused":13}'
# The same release, without the questions, and then a duty that is waived up to a day, is opened by that day and by hand, and is withdrawn.
FROZEN = [row for row in RELEASE if row[0] in ("a catalogue", "a document", "an opening", "an attachment", "a choice", "a freeze")]
MOVED = [
    ("a waiver", post(b"/commands", b'{"do":"waive","duty":1,"day":"2025-03-04","text":"w","until":"2025-03-31"}'), DONE),
    ("its last day", post(b"/commands", b'{"do":"close","day":"2025-03-31"}'), b'{"closed":0}'),
    ("the day after it", post(b"/commands", b'{"do":"close","day":"2025-04-01"}'), b'{"closed":1}'),
    ("a waiver for good", post(b"/commands", b'{"do":"waive","duty":1,"day":"2025-04-02","text":"w"}'), DONE),
    ("a waived duty again", post(b"/commands", b'{"do":"reopen","duty":1,"day":"2025-04-03","text":"r"}'), DONE),
    ("another waiver", post(b"/commands", b'{"do":"waive","duty":1,"day":"2025-04-04","text":"w","until":"2025-05-31"}'), DONE),
    ("a withdrawal", post(b"/commands", b'{"do":"withdraw","release":"r1","day":"2025-04-05","text":"x"}'), DONE),
    ("a withdrawn duty", post(b"/commands", b'{"do":"reopen","duty":1,"day":"2025-04-06","text":"r"}'), WITHDRAWN),
    ("a day after all", post(b"/commands", b'{"do":"close","day":"2025-06-01"}'), b'{"closed":0}'),
    ("its totals", get(b"/releases/r1/totals"), b'{"rows":[[1,0,0,0,1]]}'),
    ("notices of a withdrawn release", get(b"/releases/r1/notices"), WITHDRAWN),
    ("a table of withdrawn duties", get(b"/releases/r1/duties.csv"), NAMES + b"1,1,SPDXRef-p,mit,MIT,include-text,withdrawn,2025-04-05\n", CSV),
]


def padded(size):
    """A request of this many bytes, all of them its head."""
    head, end = get(b"/duties/2/changes")[:-2] + b"A: ", b"\r\n\r\n"
    return head + b"b" * (size - len(head) - len(end)) + end


def with_field(field, request=post(b"/commands", b"{}")):
    return request.replace(b"Host", field + b"\r\nHost")


def of_length(length):
    return b"POST /commands HTTP/1.1\r\nContent-Length: %s\r\n\r\n{}" % length


# More of them, on the desk with that release: what is in a target, and in a head.
TARGETS = [
    ("a query behind the path", get(b"/releases/r1/totals?since=1"), TOTALS),
    ("a query with a stroke", get(b"/releases/r1/totals?of=/releases/r2"), TOTALS),
    ("a query behind the notices", get(b"/releases/r1/notices?form=source"), NOTICES, PLAIN),
    ("a query behind a document", post(b"/documents?again", DOCUMENT), b'{"document":1,"new":false}'),
    ("a table of another kind", get(b"/releases/r1/duties.txt"), NO_ROUTE),
    ("notices that are posted", post(b"/releases/r1/notices", b""), NO_ROUTE),
    ("requests by GET", get(b"/commands"), NO_ROUTE),
    ("documents by GET", get(b"/documents"), NO_ROUTE),
    ("a catalogue by GET", get(b"/catalogue"), NO_ROUTE),
    ("a catalogue by PUT", post(b"/catalogue", CATALOGUE).replace(b"POST", b"PUT"), NO_ROUTE),
    ("a method in small letters", get(b"/releases/r1/totals").replace(b"GET", b"get"), NO_ROUTE),
    ("another method", get(b"/releases/r1/totals").replace(b"GET", b"HEAD"), NO_ROUTE),
    ("a stroke at the end", get(b"/releases/r1/totals/"), NO_ROUTE),
    ("two strokes", get(b"//releases/r1/totals"), NO_ROUTE),
    ("an empty part", get(b"/releases//totals"), NO_ROUTE),
    ("a part too many", get(b"/releases/r1/totals/all"), NO_ROUTE),
    ("capitals", get(b"/Releases/r1/totals"), NO_ROUTE),
    ("percent signs in a name", get(b"/releases/r%31/totals"), NO_RELEASE),
    ("percent signs in a route", get(b"/releases/r1/t%6ftals"), NO_ROUTE),
    ("percent signs in a number", get(b"/duties/%31/changes"), NO_ROUTE),
    ("two dots", get(b"/releases/../releases/r1/totals"), NO_ROUTE),
    ("two dots for a name", get(b"/releases/.."), NO_RELEASE),
    ("an absolute target", get(b"http://localhost/releases/r1/totals"), NO_ROUTE),
    ("an authority", get(b"localhost:80").replace(b"GET", b"CONNECT"), NO_ROUTE),
    ("an asterisk", get(b"*").replace(b"GET", b"OPTIONS"), NO_ROUTE),
    ("18 digits", get(b"/duties/" + b"0" * 17 + b"1/changes"), CHANGES),
    ("19 digits", get(b"/duties/" + b"0" * 18 + b"1/changes"), NO_ROUTE),
    ("no digits", get(b"/duties/-1/changes"), NO_ROUTE),
    ("no digit", get(b"/duties//changes"), NO_ROUTE),
    ("a sign", get(b"/documents/+1/findings"), NO_ROUTE),
    ("the last of 18 digits", get(b"/duties/999999999999999999/changes"), UNKNOWN),
    ("a document of 18 digits", get(b"/documents/999999999999999999/findings"), NO_DOCUMENT),
    ("a document past 32 bits", get(b"/documents/4294967297/findings"), NO_DOCUMENT),
    ("document 0", get(b"/documents/0/findings"), NO_DOCUMENT),
    ("a blank in the target", get(b"/duties /2/changes"), BAD),
    ("a NUL in the target", get(b"/duties/\x002/changes"), BAD),
]
HEADS = [
    ("HTTP/1.0", get(b"/releases/r1/totals", b"HTTP/1.0"), TOTALS),
    ("HTTP/0.9", b"GET /releases/r1/totals\r\n\r\n", BAD),
    ("HTTP/1.2", get(b"/releases/r1/totals", b"HTTP/1.2"), BAD),
    ("HTTP/2.0", get(b"/releases/r1/totals", b"HTTP/2.0"), BAD),
    ("HTTP/2", b"PRI * HTTP/2.0\r\n\r\nSM\r\n\r\n", BAD),
    ("bytes that are no head", b"\x16\x03\x01\x02\x00\x01\x00\x01\xfc\x03\x03", BAD),
    ("line ends before it", b"\r\n\n" + get(b"/duties/2/changes"), UNKNOWN),
    ("bare line feeds", get(b"/duties/2/changes").replace(b"\r", b""), UNKNOWN),
    ("a field over two lines", get(b"/duties/2/changes").replace(b"localhost", b"local\r\n host"), BAD),
    ("a NUL in a field", get(b"/duties/2/changes").replace(b"localhost", b"local\x00host"), BAD),
    ("a NUL in a name", get(b"/duties/2/changes").replace(b"Host", b"Ho\x00st"), BAD),
    ("a carriage return alone", get(b"/duties/2/changes").replace(b"localhost", b"local\rhost"), BAD),
    ("no colon", with_field(b"Accept"), BAD),
    ("no name", with_field(b": a"), BAD),
    ("a blank before the colon", with_field(b"Accept : a"), BAD),
    ("Expect", with_field(b"Expect: 100-continue"), NO_COMMAND),
    ("64 fields", with_field(b"\r\n".join([b"A: b"] * 63), get(b"/duties/2/changes")), UNKNOWN),
    ("65 fields", with_field(b"\r\n".join([b"A: b"] * 64), get(b"/duties/2/changes")), BAD),
    ("a head of 16,384 bytes", padded(16_384), UNKNOWN),
    ("a head of 16,385 bytes", padded(16_385), BAD),
    ("16,384 bytes without an end", padded(20_000)[:16_384], BAD),
    ("16,384 line ends", b"\r\n" * 8_192, BAD),
    ("a body behind a GET", post(b"/duties/2/changes", b"body").replace(b"POST", b"GET"), UNKNOWN),
    ("more than one request", get(b"/duties/2/changes") * 2, UNKNOWN),
    ("a body that goes on", post(b"/commands", b"{}") + b"more", NO_COMMAND),
    ("a length in capitals", post(b"/commands", b"{}").replace(b"Content-Length", b"CONTENT-LENGTH"), NO_COMMAND),
    ("two equal lengths", with_field(b"content-length: 02"), NO_COMMAND),
    ("two lengths", with_field(b"Content-Length: 1"), BAD),
    ("lengths 1 and 2", b"GET /duties/2/changes HTTP/1.1\r\nContent-Length: 1\r\nContent-Length: 2\r\n\r\n{}", BAD),
    ("two lengths past the limit", b"GET / HTTP/1.1\r\nContent-Length: 8388609\r\nContent-Length: 8388610\r\n\r\n", BAD),
    ("a length and what is none", with_field(b"Content-Length: two"), BAD),
    ("an empty length", of_length(b""), BAD),
    ("a length with a sign", of_length(b"+2"), BAD),
    ("a length below nothing", of_length(b"-2"), BAD),
    ("a list of lengths", of_length(b"2, 2"), BAD),
    ("a length of 18 digits", of_length(b"0" * 17 + b"2"), NO_COMMAND),
    ("a length of 19 digits", of_length(b"0" * 18 + b"2"), BAD),
    ("chunks behind 64 fields", with_field(b"\r\n".join([b"Transfer-Encoding: chunked"] + [b"A: b"] * 63)), BAD),
]
# What is refused with its own status.
OTHERS = [
    ("chunks", with_field(b"Transfer-Encoding: chunked"), 501),
    ("chunks of an unknown duty", with_field(b"Transfer-Encoding: chunked", get(b"/duties/1/changes")), 501),
    ("chunks in capitals", with_field(b"TRANSFER-ENCODING: CHUNKED"), 501),
    ("another coding", with_field(b"Transfer-Encoding: identity"), 501),
    ("chunks and two lengths", with_field(b"Transfer-Encoding: chunked\r\nContent-Length: 1"), 501),
    ("a length past the limit", b"POST /documents HTTP/1.1\r\nContent-Length: 8388609\r\n\r\n", 413),
    ("a length past the limit by GET", b"GET /duties/2/changes HTTP/1.1\r\nContent-Length: 8388609\r\n\r\n", 413),
    ("the largest length", b"POST /nothing HTTP/1.1\r\nContent-Length: 999999999999999999\r\n\r\n", 413),
]
BODIES = [
    ("no length", b"POST /commands HTTP/1.1\r\n\r\n", NO_COMMAND),
    ("a request over two lines", post(b"/commands", b'{"ask":"totals",\r\n"release":"r1"}\n'), TOTALS),
    ("two requests", post(b"/commands", b'{"ask":"totals","release":"r1"}' * 2), NO_COMMAND),
    ("a request that is no text", post(b"/commands", b'{"ask":"totals","release":"\xff"}'), NO_COMMAND),
    ("an empty document", post(b"/documents", b""), b'{"at":[6,1,"SPDXVersion"],"name":"BadDocument","refused":2}'),
    ("half a document", post(b"/documents", b"SPDXVersion: SPDX-2.3\nSPDXID"), b'{"at":[2,2],"name":"BadDocument","refused":2}'),
    ("a document that is no text", post(b"/documents", b"\xff"), b'{"at":[1,0],"name":"BadDocument","refused":2}'),
    ("a document of 8 MiB", post(b"/documents", DOCUMENT + b" " * (LIMIT - len(DOCUMENT))), b'{"at":[11,0],"name":"BadDocument","refused":2}'),
    ("an empty catalogue", post(b"/catalogue", b""), b'{"at":[2,"forms",0],"name":"BadCatalogue","refused":1}'),
    ("half a catalogue", post(b"/catalogue", b"forms = ["), b'{"at":[1],"name":"BadCatalogue","refused":1}'),
    ("a catalogue of 8 MiB", post(b"/catalogue", CATALOGUE + b" " * (LIMIT - len(CATALOGUE))), b'{"at":[8],"name":"BadCatalogue","refused":1}'),
]
# Parts of requests, after which the peer sends no more.
PARTS = [
    ("a body that is shorter", post(b"/commands", b"{}")[:-1]),
    ("a body that is shorter, of no route", post(b"/nothing", b"body")[:-1]),
    ("a body that is shorter, behind a GET", post(b"/duties/2/changes", b"body").replace(b"POST", b"GET")[:-1]),
    ("no body", of_length(b"8388608")[:-2]),
    ("16,383 bytes without an end", padded(20_000)[:16_383]),
    ("a line end", b"\r\n"),
]


def routes(program, tally, room):
    """Each route, and what isn't a request, on one desk. A peer that sends a whole request need not say that no more comes."""
    path = os.path.join(room, "routes")
    named = get(b"/duties/9/changes")
    whole = RELEASE + TARGETS + HEADS + BODIES
    desk = Served(program, path, len(whole) + len(OTHERS) + len(PARTS) + 2 * len(named) + 1)
    try:
        for name, request, body, *kind in whole:
            tally.same(name, desk.raw(request, ends=False), response(body, *kind))
        for name, request, status in OTHERS:
            tally.same(name, desk.raw(request, ends=False), response(BAD, status=status))
        for name, request in PARTS:
            tally.same(name, desk.raw(request), response(BAD))
        tally.same("byte by byte", desk.raw(*(bytes([byte]) for byte in named), ends=False), response(UNKNOWN))
        tally.same("no byte", desk.raw(), b"")
        for count in range(1, len(named)):
            tally.same(f"{count} bytes of a request", desk.raw(named[:count]), response(BAD))
            tally.same(f"{count} bytes and the rest", desk.raw(named[:count], named[count:], ends=False), response(UNKNOWN))
        desk.raw(named)
        tally.same("how it ends", desk.ended(), (0, b""))
    finally:
        desk.stop()
    told = subprocess.run([program, "script", "--db", path], input=b'{"ask":"changes","duty":1}\n', capture_output=True, timeout=SECONDS, check=False)
    tally.same("the file afterwards", told.stdout, CHANGES + b"\n")


def moves(program, tally, room):
    """A release whose duty is waived, opened and withdrawn."""
    desk = Served(program, os.path.join(room, "moves"), len(FROZEN) + len(MOVED))
    try:
        for name, request, body, *kind in FROZEN + MOVED:
            tally.same(name, desk.raw(request, ends=False), response(body, *kind))
        tally.same("how it ends after moves", desk.ended(), (0, b""))
    finally:
        desk.stop()


def refusal(number, name, *at):
    return json.dumps({"at": list(at), "name": name, "refused": number}, separators=(",", ":")).encode()


def concluding(expression, namespace="https://example.org/d1", package="SPDXRef-p"):
    """A document with a package of this conclusion."""
    return (
        "SPDXVersion: SPDX-2.3\nDataLicense: CC0-1.0\nSPDXID: SPDXRef-DOCUMENT\nDocumentName: d\n"
        f"DocumentNamespace: {namespace}\nCreator: Tool: x-1\nCreated: 2025-01-01T00:00:00Z\n"
        f"PackageName: p\nSPDXID: {package}\nPackageDownloadLocation: NOASSERTION\nFilesAnalyzed: false\n"
        f"PackageLicenseConcluded: {expression}\nPackageCopyrightText: NOASSERTION\n"
    ).encode()


TOO_MANY = " AND ".join(f"(a{n} OR b{n})" for n in range(7))
TOO_MANY_TERMS = " OR ".join(f"a{n}" for n in range(129))
PACKAGE = "/documents/{}/packages/{}/"
# A method, a path, a body and what is replied: the refusals of each route.
REFUSALS = [
    ("GET", PACKAGE.format(1, "SPDXRef-p") + "cheapest/binary", None, NO_DOCUMENT),
    ("GET", PACKAGE.format(1, "SPDXRef-p") + "alternatives", None, NO_DOCUMENT),
    ("GET", "/documents/1/findings", None, NO_DOCUMENT),
    ("GET", "/releases/r1", None, NO_RELEASE),
    ("GET", "/releases/r1/duties", None, NO_RELEASE),
    ("GET", "/releases/r1/totals", None, NO_RELEASE),
    ("GET", "/releases/r1/notices", None, NO_RELEASE),
    ("GET", "/releases/r1/duties.csv", None, NO_RELEASE),
    ("GET", "/duties/1/changes", None, UNKNOWN),
    ("POST", "/catalogue", b'forms = "binary"', refusal(1, "BadCatalogue", 3, "forms", 0)),
    ("POST", "/documents", b"SPDXVersion: SPDX-3.0\n", refusal(2, "BadDocument", 5, 1)),
    ("POST", "/documents", concluding("NONE"), b'{"document":1,"new":true}'),
    ("POST", "/documents", concluding("MIT"), refusal(3, "NamespaceTaken", 1)),
    ("POST", "/documents", concluding(TOO_MANY, "https://example.org/d2"), b'{"document":2,"new":true}'),
    ("POST", "/documents", concluding(TOO_MANY_TERMS, "https://example.org/d3"), b'{"document":3,"new":true}'),
    ("GET", PACKAGE.format(1, "p") + "alternatives", None, refusal(5, "UnknownPackage")),
    ("GET", PACKAGE.format(1, "SPDXRef-p") + "alternatives", None, refusal(16, "NoConclusion", 1, "SPDXRef-p")),
    ("GET", PACKAGE.format(2, "SPDXRef-p") + "alternatives", None, refusal(28, "TooMany")),
    ("GET", PACKAGE.format(3, "SPDXRef-p") + "alternatives", None, refusal(29, "TooManyTerms")),
    ("GET", PACKAGE.format(2, "SPDXRef-p") + "cheapest/binary", None, refusal(11, "UnknownForm")),
    ("POST", "/catalogue", CATALOGUE, b'{"revision":1}'),
    ("GET", PACKAGE.format(1, "p") + "cheapest/binary", None, refusal(5, "UnknownPackage")),
    ("GET", PACKAGE.format(1, "SPDXRef-p") + "cheapest/binary", None, refusal(16, "NoConclusion", 1, "SPDXRef-p")),
    ("GET", PACKAGE.format(2, "SPDXRef-p") + "cheapest/binary", None, refusal(28, "TooMany")),
    ("GET", PACKAGE.format(3, "SPDXRef-p") + "cheapest/binary", None, refusal(29, "TooManyTerms")),
    ("POST", "/commands", b'{"do":"open","release":"r1","form":"binary"}', b'{"done":true}'),
    ("GET", "/releases/r1/notices", None, refusal(13, "ReleaseState", "open")),
    ("POST", "/commands", b'{"do":"withdraw","release":"r1","day":"2025-03-05","text":"x"}', b'{"done":true}'),
    ("GET", "/releases/r1/notices", None, refusal(13, "ReleaseState", "withdrawn")),
    ("GET", "/releases/r1/duties.csv", None, NAMES, CSV),
    ("GET", "/releases/r1", None, b'{"rows":[["r1","binary","withdrawn",0]]}'),
]
FULL = [
    ("POST", "/documents", concluding("MIT", "https://example.org/last"), refusal(27, "Full", "documents")),
    ("POST", "/catalogue", CATALOGUE, refusal(27, "Full", "revisions")),
]
ROOM = 4_096


def refusals(program, tally, room):
    """What each route refuses, as Python's client reads it, on a new desk and on one that is full."""
    full = os.path.join(room, "full")
    lines = [{"do": "import", "text": concluding("MIT", f"https://example.org/d{n}").decode()} for n in range(ROOM)]
    lines += [{"do": "catalogue", "text": CATALOGUE.decode()} for _ in range(ROOM)]
    text = "".join(json.dumps(line) + "\n" for line in lines).encode()
    done = subprocess.run([program, "script", "--db", full], input=text, capture_output=True, timeout=SECONDS, check=False)
    tally.same("a desk that is filled", done.returncode, 0)
    for path, listed in ((os.path.join(room, "refusals"), REFUSALS), (full, FULL)):
        desk = Served(program, path, len(listed))
        try:
            for method, target, body, reply, *kind in listed:
                tally.same(f"{method} {target}", desk.ask(method, target, body), read(reply, *kind))
            tally.same("how it ends after refusals", desk.ended(), (0, b""))
        finally:
            desk.stop()


def waiting(program, tally, room, name, peer, wanted):
    """A peer that keeps the desk waiting does so for ten seconds, and no longer; then its fault is counted, and the next one is served."""
    desk = Served(program, os.path.join(room, name), 3)
    try:
        tally.same(f"{name}: a command before it", desk.raw(post(b"/catalogue", CATALOGUE)), response(b'{"revision":1}'))
        start = time.monotonic()
        told = []
        behind = threading.Timer(1, lambda: told.append(desk.raw(get(b"/duties/1/changes"))))
        behind.start()
        found = peer(desk)
        behind.join()
        waited = time.monotonic() - start
        tally.same(f"{name}: what it gets", found, wanted)
        tally.same(f"{name}: the next one", told, [response(UNKNOWN)])
        tally.note(f"{name}: the wait", None if 8 < waited < 20 else f"{waited:.1f} seconds")
        status, words = desk.ended()
        tally.same(f"{name}: the status", status, 3)
        tally.note(f"{name}: the words", None if b"connections that failed: 1" in words else repr(words))
    finally:
        desk.stop()


def silent(desk):
    with desk.connect() as peer:
        return received(peer)


def slow(desk):
    """A command that comes too slowly, a byte a second."""
    with desk.connect() as peer:
        try:
            for byte in post(b"/catalogue", CATALOGUE):
                peer.sendall(bytes([byte]))
                time.sleep(1)
        except OSError:
            pass  # (it was given up)
        return received(peer)


LARGE = "A text of an office. " * 190_000
LARGE_NOTICES = (NOTICES.decode().replace("MIT text", LARGE) + f"\n---- LicenseRef-1 ----\n{LARGE}\n").replace(
    "\n---- MIT", "\nq\nLicence: MIT\nCopyright: none given\n\n---- MIT"
).encode()
LARGE_RELEASE = [
    {"do": "catalogue", "text": CATALOGUE.decode().replace("MIT text", LARGE)},
    {"do": "import", "text": DOCUMENT.decode() + "PackageName: q\nSPDXID: SPDXRef-q\nPackageDownloadLocation: NOASSERTION\n"
     f"FilesAnalyzed: false\nPackageLicenseConcluded: LicenseRef-1\nLicenseID: LicenseRef-1\nExtractedText: <text>{LARGE}</text>\n"},
    {"do": "adopt", "document": 1, "reference": "LicenseRef-1", "licence": "MIT"},
    {"do": "open", "release": "r1", "form": "binary"},
    {"do": "attach", "release": "r1", "document": 1},
    {"do": "choose", "release": "r1", "document": 1, "package": "SPDXRef-p", "terms": ["MIT"]},
    {"do": "choose", "release": "r1", "document": 1, "package": "SPDXRef-q", "terms": ["LicenseRef-1"]},
    {"do": "freeze", "release": "r1", "day": "2025-03-03"},
]


def full(desk):
    """What arrives of large notices if nothing is read for fifteen seconds after their first byte has come: not all."""
    with socket.socket() as peer:
        peer.setsockopt(socket.SOL_SOCKET, socket.SO_RCVBUF, 65_536)
        peer.settimeout(SECONDS)
        peer.connect(("127.0.0.1", desk.port))
        peer.sendall(get(b"/releases/r1/notices"))
        # (the desk waits from its first write on, which a busy machine may delay)
        peer.recv(1, socket.MSG_PEEK)
        time.sleep(15)
        told = received(peer)
        whole = response(LARGE_NOTICES, PLAIN)
        return whole.startswith(told), len(told) < len(whole)


def slow_peers(program, tally, room):
    """Three desks at a time: each waits ten seconds."""
    large = os.path.join(room, "a peer that takes nothing")
    lines = "".join(json.dumps(line) + "\n" for line in LARGE_RELEASE).encode()
    done = subprocess.run([program, "script", "--db", large], input=lines, capture_output=True, timeout=SECONDS, check=False)
    tally.same("large notices", (done.returncode, done.stderr), (0, b""))
    peers = [
        threading.Thread(target=waiting, args=(program, tally, room, "a silent peer", silent, b"")),
        threading.Thread(target=waiting, args=(program, tally, room, "a slow peer", slow, b"")),
    ]
    for peer in peers:
        peer.start()
    desk = Served(program, large, 3)
    try:
        tally.same("large notices over HTTP", desk.raw(get(b"/releases/r1/notices")), response(LARGE_NOTICES, PLAIN))
        tally.same("a peer that takes nothing", full(desk), (True, True))
        tally.same("the next one behind it", desk.raw(get(b"/duties/9/changes")), response(UNKNOWN))
        status, words = desk.ended()
        tally.same("the status behind it", status, 3)
        tally.note("the words behind it", None if b"connections that failed: 1" in words else repr(words))
    finally:
        desk.stop()
        for peer in peers:
            peer.join()


def gone(program, tally, room):
    """Peers that sent a whole command, and disappear before it is read: the next one is served, and each command is carried out or not."""
    count = 20
    desk = Served(program, os.path.join(room, "gone"), count + 3)
    try:
        desk.raw(post(b"/catalogue", CATALOGUE))
        with desk.connect() as first:
            for number in range(count):
                with desk.connect() as peer:
                    peer.sendall(post(b"/commands", b'{"do":"open","release":"g%d","form":"binary"}' % number))
                    # (it is reset when it is closed)
                    peer.setsockopt(socket.SOL_SOCKET, socket.SO_LINGER, struct.pack("ii", 1, 0))
            first.sendall(get(b"/duties/1/changes"))
            tally.same("the peer before those that are gone", received(first), response(UNKNOWN))
        told = desk.raw(post(b"/commands", b'{"do":"open","release":"g0","form":"binary"}'))
        either = [response(b'{"done":true}'), response(b'{"at":[],"name":"NameTaken","refused":10}')]
        tally.note("behind peers that are gone", None if told in either else repr(told))
        status, words = desk.ended()
        tally.note("how it ends behind them", None if (status, words) == (0, b"") or status == 3 and b"that failed" in words else repr((status, words)))
    finally:
        desk.stop()


STORE = b'{"fault":"store"}'


def disk(program, tally, room):
    """Each sync of the disk is made to fail in turn: a file isn't opened, or a command gets 500. Then so do all later ones, and the next run
    finds the command carried out or not."""
    library, kept, path, met = (os.path.join(room, name) for name in ("disk.so", "kept", "disk", "met"))
    source = os.path.join(os.path.dirname(os.path.abspath(__file__)), "stops/disk.c")
    subprocess.run(["cc", "-shared", "-fPIC", "-O2", "-o", library, source, "-ldl"], check=True)
    line = json.dumps({"do": "catalogue", "text": CATALOGUE.decode()}) + "\n"
    subprocess.run([program, "script", "--db", kept], input=line.encode(), capture_output=True, timeout=SECONDS, check=True)
    opened = b'{"rows":[["r1","binary","open",0]]}'
    failed = 0
    for at in range(1, 100):
        for end in ("", "-wal", "-shm"):
            if os.path.exists(path + end):
                os.remove(path + end)
        shutil.copy(kept, path)
        env = {"LD_PRELOAD": library, "DISK_CALLS": "sync", "DISK_AT": str(at), "DISK_DOES": "fail", "DISK_TOLD": met}
        try:
            desk = Served(program, path, 2, **env)
        except NotServed as error:
            tally.note(f"sync {at} of the disk", None if os.path.exists(met) and error.status == 3 else str(error))
            os.remove(met)
            continue
        try:
            told = [desk.raw(post(b"/commands", b'{"do":"open","release":"r1","form":"binary"}'))]
            is_met = os.path.exists(met)
            told.append(desk.raw(get(b"/releases/r1")))
            desk.ended()
        finally:
            desk.stop()
        if not is_met:
            tally.same("a disk that doesn't fail", told, [response(b'{"done":true}'), response(opened)])
            break
        os.remove(met)
        failed += 1
        tally.same(f"sync {at} of the disk", told, [response(STORE)] * 2)
        question = b'{"ask":"release","release":"r1"}\n'
        done = subprocess.run([program, "script", "--db", path], input=question, capture_output=True, timeout=SECONDS, check=False)
        tally.note(f"the next run after sync {at}", None if done.stdout.rstrip() in (NO_RELEASE, opened) else repr(done))
    tally.note("a disk that fails", None if failed else "no reply says so")


def ports(program, tally, room):
    """Ports that can't be listened on."""
    with socket.create_server(("127.0.0.1", 0)) as other:
        words = [program, "serve", "--db", os.path.join(room, "port"), "--port", str(other.getsockname()[1]), "--limit", "1"]
        done = subprocess.run(words, capture_output=True, timeout=SECONDS, check=False)
    well = done.returncode == 3 and not done.stdout and b"another program listens there" in done.stderr
    tally.note("a port in use", None if well else repr(done))
    refused = os.path.join(room, "refused")
    with sqlite3.connect(refused) as other:
        other.execute("create table meta (version)")
    words = [program, "serve", "--db", refused, "--port", "0", "--limit", "1"]
    done = subprocess.run(words, capture_output=True, timeout=SECONDS, check=False)
    well = done.returncode == 1 and done.stdout.startswith(b"fault: ")
    tally.note("a file that keeps no desk", None if well else repr(done))


# What the lines of docs/HTTP.md that begin with curl are replied, one after the other, on a new desk.
PAGE = os.path.join(os.path.dirname(os.path.abspath(__file__)), "../docs/HTTP.md")
SHOWN = [
    b'{"at":[],"name":"UnknownForm","refused":11}',
    NO_RELEASE,
    b'{"document":1,"new":true}',
    b'{"revision":1}',
    b'{"rows":[]}',
    b'{"rows":[["mit"]]}',
    b'{"rows":[[1,["mit"]]]}',
    NO_RELEASE,
    NO_RELEASE,
    NO_RELEASE,
    UNKNOWN,
    NO_RELEASE,
    NO_RELEASE,
]


def page(program, tally, room):
    """The page's examples, by curl."""
    if not shutil.which("curl"):
        tally.note("the examples of docs/HTTP.md", "there is no curl to run them")
        return
    with open(PAGE, encoding="utf-8") as text:
        commands = [line.strip() for line in text if line.startswith("    curl ")]
    for name, body in (("app.spdx", DOCUMENT), ("catalogue.toml", CATALOGUE)):
        with open(os.path.join(room, name), "wb") as out:
            out.write(body)
    desk = Served(program, os.path.join(room, "page"), len(SHOWN) + 1)
    try:
        tally.same("the examples of docs/HTTP.md", len(commands), len(SHOWN))
        for command, reply in zip(commands, SHOWN):
            shown = command.replace("curl ", "curl -s ", 1).replace(":8080/", f":{desk.port}/")
            done = subprocess.run(shown, shell=True, cwd=room, capture_output=True, timeout=SECONDS, check=False)
            tally.same(command, done.stdout, reply)
        done = subprocess.run(["curl", "-si", f"http://127.0.0.1:{desk.port}/duties/1/changes"], capture_output=True, timeout=SECONDS, check=False)
        tally.same("a whole response by curl", done.stdout, response(UNKNOWN))
        tally.same("how the page's desk ends", desk.ended(), (0, b""))
    finally:
        desk.stop()


def main():
    program = os.path.abspath(sys.argv[1])
    tally = Tally()
    with tempfile.TemporaryDirectory(dir=database.ROOM) as room:
        routes(program, tally, room)
        moves(program, tally, room)
        refusals(program, tally, room)
        page(program, tally, room)
        slow_peers(program, tally, room)
        gone(program, tally, room)
        disk(program, tally, room)
        ports(program, tally, room)
    dialogues(program, tally)
    print(f"{tally.passed} passed, {tally.failed} failed")
    sys.exit(tally.failed > 0 or tally.passed == 0)


if __name__ == "__main__":
    main()
