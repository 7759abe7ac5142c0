"""Sends a desk that `desk serve` keeps in a file the requests that browsers send, for its own pages and for pages from elsewhere: python3
tests/origins.py PROGRAM

- Requests with `Origin`, `Sec-Fetch-` and `Host` fields: each one that a browser sends for a page from elsewhere gets 403 and changes
  nothing, whatever it asks for; each one for a page from the desk's own address, and each one that no browser sent, is answered as usual.
- The order of the tests of a head: this one comes after 400 for what isn't a head, and before 501, 400 and 413 for its fields.
- The dialogues that tests/database.py runs over files, with the fields that a browser sends for a page from the desk's own address.

Ends with the line 'N passed, M failed'."""

import os
import subprocess
import sys
import tempfile

sys.path.insert(0, os.path.dirname(os.path.abspath(__file__)))
sys.dont_write_bytecode = True

import database
import serving

BARRED = serving.response(b'{"fault":"origin"}')
BAD = serving.response(serving.BAD)
# What would change the desk, if it were applied.
WITHDRAW = b'{"do":"withdraw","release":"r1","day":"2025-03-05","text":"x"}'
ASKED = [
    serving.post(b"/commands", WITHDRAW),
    serving.get(b"/releases/r1"),
    serving.get(b"/releases/r1/notices"),
    serving.post(b"/catalogue", serving.CATALOGUE),
    serving.get(b"/nothing"),
    serving.get(b"/releases/r1").replace(b"GET", b"OPTIONS"),
]
CROSS = b"Sec-Fetch-Site: cross-site"


def foreign(port):
    """The fields of requests from elsewhere, including `Host`."""
    own, host = b"http://127.0.0.1:%d" % port, b"Host: 127.0.0.1:%d" % port
    other = port + 1 if port < 65_535 else port - 1
    origins = [
        b"http://evil.example",
        b"http://evil.example:%d" % port,
        b"null",
        b"",
        b"http://127.0.0.1",
        b"http://127.0.0.1:",
        b"http://127.0.0.1:%d" % other,
        b"http://127.0.0.1:%d0" % port,
        b"http://127.0.0.1:%d" % (port // 10),
        b"http://127.0.0.1:+%d" % port,
        b"http://127.0.0.2:%d" % port,
        b"http://127.0.0.1.evil.example:%d" % port,
        b"http://localhost.evil.example:%d" % port,
        b"http://evil.localhost:%d" % port,
        b"http://[::2]:%d" % port,
        b"http://::1:%d" % port,
        b"https://127.0.0.1:%d" % port,
        b"127.0.0.1:%d" % port,
        own + b"/",
        own + b" http://evil.example",
    ]
    fields = [[host, b"Origin: " + origin] for origin in origins]
    fields += [[host, name + b": null"] for name in (b"ORIGIN", b"origin", b"oRiGiN")]
    fields += [
        [host, b"Origin: " + own, b"Origin: null"],
        [host, b"Origin: null", b"Origin: " + own],
        [host, b"Origin: " + own, CROSS],
        [host, CROSS],
        [host, b"sec-fetch-site: cross-site"],
        [host, b"SEC-FETCH-SITE: cross-site"],
        [host, b"Sec-Fetch-Site: same-site"],
        [host, b"Sec-Fetch-Site: Same-Origin"],
        [host, b"Sec-Fetch-Site: same-origin2"],
        [host, b"Sec-Fetch-Site:"],
        [host, b"Sec-Fetch-Site: same-origin", b"Sec-Fetch-Site: cross-site"],
        [b"Host: evil.example:%d" % port],
        [b"Host: evil.example"],
        [b"HOST: evil.example:%d" % port],
        [b"Host: 127.0.0.1.evil.example:%d" % port],
        [b"Host: localhostx:%d" % port],
        [b"Host: 127.0.0.2:%d" % port],
        [host, b"Host: evil.example:%d" % port],
        [b"Host: 127.0.0.1", b"Sec-Fetch-Mode: cors"],
        [b"Host: 127.0.0.1:%d" % other, b"Sec-Fetch-Site: same-origin"],
        [b"sec-fetch-dest: image", b"Host: localhost:%d0" % port],
    ]
    return fields


def own(port):
    """The fields of requests that aren't from elsewhere."""
    fields = [[b"Host: %s:%d" % (name, port), b"Origin: http://%s:%d" % (name, port)] for name in (b"127.0.0.1", b"localhost", b"[::1]", b"LocalHost")]
    host = b"Host: 127.0.0.1:%d" % port
    return fields + [
        [host, b"Origin: HTTP://127.0.0.1:%d" % port],
        [host, b"origin:http://localhost:%d  " % port],
        [host, b"Origin: http://127.0.0.1:%d" % port, b"Sec-Fetch-Site: same-origin", b"Sec-Fetch-Mode: cors", b"Sec-Fetch-Dest: empty"],
        [host, b"Sec-Fetch-Site: none", b"Sec-Fetch-User: ?1"],
        [b"Host: [::1]:%d" % port, b"Sec-Fetch-Site: none"],
        [b"host: LOCALHOST:%d" % port, b"SEC-FETCH-SITE: same-origin"],
        [b"Host: localhost"],
        [b"Host: localhost:1"],
        [b"Host:"],
        [],
        [b"Accept: */*", b"Referer: http://evil.example/", b"Sec-Fetc: a", b"X-Origin: null"],
    ]


def with_fields(request, fields):
    """A request with these fields in place of its `Host`."""
    assert request.count(b"Host: localhost\r\n") == 1
    return request.replace(b"Host: localhost\r\n", b"".join(field + b"\r\n" for field in fields))


def heads(port):
    """Heads from elsewhere that have something else wrong, and what is replied."""
    null = [b"Host: localhost", b"Origin: null"]
    post = serving.post(b"/commands", WITHDRAW)
    return [
        ("chunks", with_fields(post, null + [b"Transfer-Encoding: chunked"]), BARRED),
        ("two lengths", with_fields(post, null + [b"Content-Length: 1"]), BARRED),
        ("a body past the limit", with_fields(post, null).replace(b"Content-Length: %d" % len(WITHDRAW), b"Content-Length: 8388609"), BARRED),
        ("a body that is shorter", with_fields(post, null)[:-1], BARRED),
        ("HTTP/1.0", with_fields(serving.get(b"/releases/r1", b"HTTP/1.0"), null), BARRED),
        ("HTTP/1.2", with_fields(serving.get(b"/releases/r1", b"HTTP/1.2"), null), BAD),
        ("a head that is no head", with_fields(post, null + [b"no colon"]), BAD),
        ("a head without its end", with_fields(serving.get(b"/releases/r1"), null)[:-2], BAD),
        ("65 fields", with_fields(serving.get(b"/releases/r1"), null + [b"A: b"] * 63), BAD),
        ("64 fields, the last of elsewhere", with_fields(serving.get(b"/releases/r1"), [b"Host: localhost"] + [b"A: b"] * 62 + [b"Origin: null"]), BARRED),
        ("bytes one by one", with_fields(post, null), BARRED),
    ]


def state(desk):
    """What the desk says about its one release."""
    return [desk.ask("GET", path) for path in ("/releases/r1", "/releases/r1/totals", "/duties/1/changes")]


def origins(program, tally, room):
    path = os.path.join(room, "origins")
    first = serving.Served(program, path, len(serving.RELEASE))
    for _, request, *_ in serving.RELEASE:
        first.raw(request, ends=False)
    tally.same("the release", first.ended(), (0, b""))
    desk = serving.Served(program, path, 100_000)
    try:
        before = state(desk)
        for fields in foreign(desk.port):
            for request in ASKED:
                tally.same(f"{fields} {request[:20]}", desk.raw(with_fields(request, fields), ends=False), BARRED)
        for name, request, reply in heads(desk.port):
            pieces = (bytes([byte]) for byte in request) if name.endswith("one by one") else (request,)
            tally.same(name, desk.raw(*pieces), reply)
        tally.same("the desk after all these", state(desk), before)
        for fields in own(desk.port):
            told = desk.raw(with_fields(serving.get(b"/releases/r1/totals"), fields), ends=False)
            tally.same(f"{fields}", told, serving.response(serving.TOTALS))
        fields = own(desk.port)[0]
        preflight = with_fields(serving.get(b"/releases/r1").replace(b"GET", b"OPTIONS"), fields)
        tally.same("a preflight of one's own page", desk.raw(preflight, ends=False), serving.response(serving.NO_ROUTE))
        tally.same("a withdrawal from one's own page", desk.raw(with_fields(ASKED[0], fields), ends=False), serving.response(b'{"done":true}'))
        tally.note("the desk after that", None if state(desk) != before else "it is as before")
    finally:
        desk.stop()
    told = subprocess.run([program, "audit", "--db", path], capture_output=True, timeout=serving.SECONDS, check=False)
    tally.same("the audit afterwards", told.stdout, b"sound\n")


def browser_fields(port):
    """What Chromium sends for a page of the desk's own address."""
    return {
        "Origin": f"http://127.0.0.1:{port}",
        "Referer": f"http://127.0.0.1:{port}/",
        "Content-Type": "text/plain;charset=UTF-8",
        "Accept": "*/*",
        "Accept-Language": "en-US,en;q=0.9",
        "Sec-Fetch-Site": "same-origin",
        "Sec-Fetch-Mode": "cors",
        "Sec-Fetch-Dest": "empty",
        "sec-ch-ua": '"Not:A-Brand";v="8", "Chromium";v="156"',
        "sec-ch-ua-mobile": "?0",
        "sec-ch-ua-platform": '"Linux"',
    }


def main():
    program = os.path.abspath(sys.argv[1])
    tally = serving.Tally()
    with tempfile.TemporaryDirectory(dir=database.ROOM) as room:
        origins(program, tally, room)
    serving.dialogues(program, tally, browser_fields)
    print(f"{tally.passed} passed, {tally.failed} failed")
    sys.exit(tally.failed > 0 or tally.passed == 0)


if __name__ == "__main__":
    main()
