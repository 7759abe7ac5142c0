"""Connections to `desk serve`: requests from a grammar and by mutation, whole, cut short, or in pieces, a session of them on one desk in a
file."""

import os
import random
import socket
import tempfile

import http_read
import lines
import mutations
import offices
import running
import second_desk
import second_views
import serving

NAME, SIZE = "connections", 500
TARGETS = ["/releases/r1", "/releases/r1/duties", "/releases/r1/totals", "/releases/r2/totals?x=1", "/duties/1/changes", "/duties/23/changes",
           "/documents/1/findings", "/documents/2/packages/SPDXRef-q/alternatives", "/documents/1/packages/SPDXRef-b/cheapest/binary",
           "/releases/r1/notices", "/releases/r1/duties.csv", "/releases/r3", "/documents/9/findings", "/nothing", "/commands", "/", "*",
           "http://localhost/releases/r1", "/releases//totals", "/duties/0000000000000000001/changes", "/releases/r%31", "/Releases/r1"]
FIELDS = ["Host: localhost", "Host: localhost", "Accept: */*", "User-Agent: x", "Expect: 100-continue", "Connection: keep-alive", "A:", "a:b", "A:\tb \t",
          "Content-Type: application/json"]
ODD_FIELDS = ["Transfer-Encoding: chunked", "Content-Length: 1", "Content-Length: +2", "Content-Length: 2, 2", "Content-Length: ", "Content-Length: 8388609",
              "Content-Length: 99999999999999999999", "Content-Length : 2", "no colon", ": x", " folded: x", "A: \x00", "A: \x80", "content-length: 0"]
# What browsers send, for the desk's own pages and for pages from elsewhere. (The port isn't known yet.)
PORT = "{PORT}"
ORIGINS = ["Origin: null", f"Origin: http://127.0.0.1:{PORT}", f"ORIGIN: http://LOCALHOST:{PORT}", "Origin: http://localhost", "Origin: http://evil.example",
           f"Origin: http://[::1]:{PORT}", f"Origin: http://127.0.0.1:{PORT}0", f"Origin: https://127.0.0.1:{PORT}", "Sec-Fetch-Site: cross-site",
           "Sec-Fetch-Site: same-origin", "sec-fetch-site: none", "Sec-Fetch-Site: same-site", "Sec-Fetch-Mode: cors", f"Host: localhost:{PORT}",
           f"Host: 127.0.0.1:{PORT}", "Host: evil.example", f"host: evil.example:{PORT}", "Host: localhost:1", "Host:", f"Host: localhost.evil:{PORT}"]
VERSIONS = ["HTTP/1.1", "HTTP/1.1", "HTTP/1.1", "HTTP/1.0"]
ODD_VERSIONS = ["HTTP/1.2", "HTTP/2.0", "HTTP/0.9", "http/1.1", "", "HTTP/1.1 "]


def odd(turn, usual, others, share=0.04):
    return turn.choice(others if turn.random() < share else usual)


def body_of(turn):
    """A method, a target and a body."""
    kind = turn.random()
    if kind < 0.4:
        return "GET", turn.choice(TARGETS), b""
    if kind < 0.85:
        line = lines.line_of(turn, lines.grown(turn))
        return "POST", "/commands", mutations.changed(turn, line) if turn.random() < 0.1 else line
    if kind < 0.93:
        return "POST", "/documents", lines.text_for(turn, "import").encode()
    if kind < 0.96:
        return "POST", "/catalogue", lines.text_for(turn, "catalogue").encode()
    return turn.choice(["PUT", "DELETE", "HEAD", "get", "OPTIONS", "G\xe9T"]), turn.choice(TARGETS), b"x"


def request(turn):
    method, target, body = body_of(turn)
    fields = [turn.choice(FIELDS) for _ in range(turn.choice([0, 1, 1, 2, 3, 62, 63, 64, 65] if turn.random() < 0.05 else [0, 1, 1, 2, 3]))]
    if body or turn.random() < 0.1:
        fields.append(f"{odd(turn, ['Content-Length'], ['content-length', 'CONTENT-LENGTH'])}: {odd(turn, [len(body)], [len(body) + 1, max(0, len(body) - 1)])}")
    if turn.random() < 0.08:
        fields.insert(turn.randint(0, len(fields)), turn.choice(ODD_FIELDS))
    if turn.random() < 0.1:
        fields += [turn.choice(ORIGINS) for _ in range(turn.choice([1, 1, 2, 3]))]
        turn.shuffle(fields)
    end = odd(turn, ["\r\n"], ["\n"])
    head = end.join([f"{method} {target} {odd(turn, VERSIONS, ODD_VERSIONS, 0.02)}", *fields, "", ""])
    return odd(turn, [b""], [b"\r\n", b"\n\n"]) + head.encode("latin-1") + body


def of_limits(turn):
    head = b"GET /duties/1/changes HTTP/1.1\r\nA: "
    size = turn.choice([16_383, 16_384, 16_385, 40_000])
    return turn.choice([
        head + b"b" * (size - len(head) - 4) + b"\r\n\r\n", head + b"b" * size, b"\r\n" * (size // 2), b"\0" * size, b"GET " * 5_000,
        b"POST /commands HTTP/1.1\r\nContent-Length: 8388608\r\n\r\n{}", turn.randbytes(size), b"", b"\n", b"\x16\x03\x01\x02\x00\x01\x00",
    ])


def one(seed, number):
    """The pieces that a peer sends."""
    turn = random.Random(f"{seed} {NAME} {number}")
    kind = turn.random()
    data = of_limits(turn) if kind < 0.01 else request(turn)
    if 0.01 <= kind < 0.25:
        data = mutations.changed(turn, data)
    asked = http_read.asked(data)
    if asked and asked.method and not lines.is_sure(http_read.request_of(asked)):
        return [b""]
    if kind > 0.95 and data:
        at = turn.randrange(len(data))
        return [data[:at], data[at:]]
    return [data]


def inputs(seed, start):
    return (one(seed, number) for number in range(start, start + SIZE))


def sent(port, pieces):
    """What comes back."""
    with socket.create_connection(("127.0.0.1", port), running.SECONDS * 6) as peer:
        peer.setsockopt(socket.IPPROTO_TCP, socket.TCP_NODELAY, 1)
        try:
            for piece in pieces:
                peer.sendall(piece)
            peer.shutdown(socket.SHUT_WR)
        except OSError:
            pass  # (what is refused early isn't read to its end)
        return serving.received(peer)


def of_text(desk, question):
    """The response to the question for a text."""
    try:
        if question["ask"] == "csv":
            table = second_views.duties(desk, question["release"])
            return serving.response("".join(map(second_views.record, table)).encode(), serving.CSV)
        return serving.response(second_views.notices(desk, question["release"]).encode(), serving.PLAIN)
    except second_desk.Refused as refused:
        return serving.response(second_desk.shown(refused.told))


def answered(desk, asked):
    """The response to a request."""
    request = http_read.request_of(asked)
    if request == "catalogue":
        return serving.response(b'{"at":[1],"name":"BadCatalogue","refused":1}')
    if isinstance(request, str):
        return serving.response(second_desk.shown({"fault": request}))
    if request.get("ask") in ("notices", "csv"):
        return of_text(desk, request)
    return serving.response(desk.answer(request))


REFUSED = serving.response(serving.BAD)


def wrong(desk, port, pieces, told):
    """What is wrong with what came back, if anything. The second desk does what the program did."""
    asked = http_read.asked(b"".join(pieces), port)
    if asked is None:
        return None if told == b"" else f"{told!r:.300} to nothing"
    # (a peer that still sends when it is refused may lose the reply)
    if told == REFUSED and not asked.is_sure or told == b"" and asked.status and len(pieces) > 1:
        return None
    if asked.status == http_read.FORBIDDEN:
        wanted = serving.response(b'{"fault":"origin"}')
    elif asked.status:
        wanted = serving.response(serving.BAD, status=asked.status)
    else:
        wanted = answered(desk, asked)
    return None if told == wanted else f"{told!r:.400}, and not {wanted!r:.400}"


def begun(program, path):
    """A desk in a file with an office, and the second desk with the same."""
    desk, first = second_desk.SecondDesk(), lines.office()
    for line in first:
        desk.reply(line)
    program.run("script", "--db", path, text=b"".join(first))
    return desk


def differences(program, batch):
    with tempfile.TemporaryDirectory(dir=running.ROOM) as room:
        path = os.path.join(room, "desk.db")
        desk = begun(program, path)
        served = serving.Served(program.path, path, len(batch))
        try:
            for place, pieces in enumerate(batch):
                pieces = [piece.replace(PORT.encode(), b"%d" % served.port) for piece in pieces]
                found = wrong(desk, served.port, pieces, sent(served.port, pieces))
                if found:
                    yield place, f"{b''.join(pieces)!r:.2000} gets the reply {found}"
            if served.ended() != (0, b""):
                yield 0, f"serve ended by {served.process.returncode}"
        except OSError as error:
            yield place, f"{b''.join(pieces)!r:.2000}: {error!r}"
        finally:
            served.stop()
        done = program.run("audit", "--db", path, size=os.path.getsize(path))
        if (done.status, done.out) != (0, b"sound\n"):
            yield 0, f"audit: {done!r}"


def shown(one):
    return " and then ".join(map(repr, one))
