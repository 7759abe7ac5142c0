#!/usr/bin/env python3
"""Has the program serve for a long time, and checks that its memory, its descriptors and its file's log don't grow:

    python3 tests/hostile/soak.py PROGRAM [--connections N] [--lines N]

This many requests over HTTP go to one `desk serve`, and this many lines to one `desk script --db`; most ask, and some write: duties are met
and reopened in turn over 400 releases, so the desk's contents grow only a little. From the first tenth on, memory may grow by the rows that
were written plus a mebibyte, and descriptors not at all. Ends with status 1 if they grow more."""

import argparse
import json
import os
import subprocess
import sys
import tempfile
import time

sys.path.insert(0, os.path.dirname(os.path.abspath(__file__)))
sys.dont_write_bytecode = True

import running

import offices
import serving

CONNECTIONS, LINES = 1_000_000, 10_000_000
RELEASES, TENTHS = 400, 10
# One of this many requests writes.
WRITES = 20
# What a process may grow by after the first tenth: a mebibyte, and what a written row takes in memory.
GROWTH, ROW = 1 << 20, 160
LOG = 8 << 20


def line(request):
    return json.dumps(request, separators=(",", ":")).encode() + b"\n"


def first_requests():
    yield {"do": "catalogue", "text": offices.CATALOGUE}
    yield {"do": "import", "text": offices.PLAIN_DOCUMENT}
    for number in range(RELEASES):
        release = f"r{number}"
        yield {"do": "open", "release": release, "form": "binary"}
        yield {"do": "attach", "release": release, "document": 1}
        yield {"do": "choose", "release": release, "document": 1, "package": "SPDXRef-m", "terms": ["MIT"]}
        yield {"do": "freeze", "release": release, "day": "2025-03-03"}


def requests(count):
    """This many requests: questions, refused ones, lines that aren't requests, and moves of duties until each has its changes."""
    moves = 0
    for number in range(count):
        duty, kind = number % (2 * RELEASES) + 1, number % WRITES
        if kind == 0:
            duty, do = moves % (2 * RELEASES) + 1, "meet" if moves // (2 * RELEASES) % 2 == 0 else "reopen"
            moves += 1
            yield {"do": do, "duty": duty, "day": "2025-03-04", "text": "notices.txt"}
        elif kind == 1:
            yield {"do": "open", "release": f"r{number % RELEASES}", "form": "binary"}
        elif kind == 2:
            yield {"ask": "nothing"}
        elif kind % 2:
            yield {"ask": "totals", "release": f"r{number % RELEASES}"}
        else:
            yield {"ask": "duties", "release": f"r{number % RELEASES}"} if kind < 8 else {"ask": "changes", "duty": 2_000_000 + duty}


class Measured:
    """What a process uses, after each tenth of its requests."""

    def __init__(self, process, path, count):
        self.process, self.path, self.step, self.rows = process, path, max(1, count // TENTHS), []

    def look(self, number):
        if number % self.step == 0 and number:
            self.rows.append((number, self.memory(), self.descriptors(), self.log()))

    def memory(self):
        with open(f"/proc/{self.process.pid}/status", encoding="utf-8") as file:
            return int(file.read().partition("\nVmRSS:")[2].split()[0]) << 10

    def descriptors(self):
        return len(os.listdir(f"/proc/{self.process.pid}/fd"))

    def log(self):
        return os.path.getsize(self.path + "-wal") if os.path.exists(self.path + "-wal") else 0

    def told(self, what, seconds):
        """Prints what was measured, and returns whether it stayed flat."""
        first, last = self.rows[0], self.rows[-1]
        written = (last[0] - first[0]) // WRITES
        is_flat = last[1] - first[1] <= GROWTH + ROW * written and last[2] <= first[2] and max(row[3] for row in self.rows) <= LOG
        print(f"{last[0]:>12,} {what} in {seconds:6.0f} s: memory {first[1] / 1e6:.1f} MB after {first[0]:,} and {last[1] / 1e6:.1f} MB "
              f"at the end, {written:,} rows written between them; descriptors {first[2]} and {last[2]}; the log at most "
              f"{max(row[3] for row in self.rows) / 1e6:.1f} MB: {'flat' if is_flat else 'NOT FLAT'}", flush=True)
        return is_flat


def prepared(program, path):
    done = program.run("script", "--db", path, text=b"".join(map(line, first_requests())), seconds=600)
    if done.status != 0:
        sys.exit(f"the desk isn't made: {done!r}")


def over_http(program, room, count):
    path = os.path.join(room, "served.db")
    prepared(program, path)
    begun, desk = time.monotonic(), serving.Served(program.path, path, count)
    measured = Measured(desk.process, path, count)
    try:
        # (the last connection is kept until the process was measured)
        for number, request in enumerate(requests(count - 1)):
            measured.look(number)
            body = line(request)
            told = desk.raw(b"POST /commands HTTP/1.1\r\nHost: localhost\r\nContent-Length: %d\r\n\r\n" % len(body) + body)
            if not told.startswith(b"HTTP/1.1 ") or told.startswith(b"HTTP/1.1 5"):
                sys.exit(f"the reply to request {number} is {told!r:.300}")
        measured.look(count // TENTHS * TENTHS)
        is_flat = measured.told("connections", time.monotonic() - begun)
        desk.raw(b"")
        return is_flat and desk.ended() == (0, b"")
    finally:
        desk.stop()


def by_lines(program, room, count):
    path = os.path.join(room, "script.db")
    prepared(program, path)
    begun = time.monotonic()
    with subprocess.Popen([program.path, "script", "--db", path], stdin=subprocess.PIPE, stdout=subprocess.PIPE) as process:
        measured, waiting = Measured(process, path, count), 0
        for number, request in enumerate(requests(count)):
            measured.look(number)
            process.stdin.write(line(request))
            waiting += 1
            if waiting == 50:
                process.stdin.flush()
                waiting = answered(process, waiting)
        process.stdin.flush()
        answered(process, waiting)
        measured.look(count // TENTHS * TENTHS)
        is_flat = measured.told("lines", time.monotonic() - begun)
        process.stdin.close()
        return process.wait() == 1 and is_flat


def answered(process, waiting):
    for _ in range(waiting):
        reply = process.stdout.readline()
        if not reply.startswith(b"{") or b'"memory"' in reply or b'"store"' in reply:
            sys.exit(f"a line is replied {reply!r:.300}")
    return 0


def main():
    parser = argparse.ArgumentParser(description="Has the program serve for long.")
    parser.add_argument("program")
    parser.add_argument("--connections", type=int, default=CONNECTIONS)
    parser.add_argument("--lines", type=int, default=LINES)
    words = parser.parse_args()
    program = running.Program(words.program)
    with tempfile.TemporaryDirectory(dir=running.ROOM) as room:
        are_flat = [over_http(program, room, words.connections), by_lines(program, room, words.lines)]
        sound = [program.run("audit", "--db", os.path.join(room, name), seconds=600).out for name in ("served.db", "script.db")]
    print(f"the audits of both files: {b', '.join(sound)!r}")
    return not all(are_flat) or sound != [b"sound\n"] * 2


if __name__ == "__main__":
    sys.exit(main())
