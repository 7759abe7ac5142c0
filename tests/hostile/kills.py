#!/usr/bin/env python3
"""Kills the program by SIGKILL at random moments while it writes a desk's file, and checks what is left:

    python3 tests/hostile/kills.py PROGRAM [--times N] [--seed S] [--kinds script,serve,import,catalogue,migrate] [--checked]

After each kill `desk audit` must say `sound`, and the desk must answer as a second desk (second_desk.py) does after all requests that were
replied to, or after some more of those that were sent but not replied to. Ends with status 1 if something differs."""

import argparse
import http.client
import json
import os
import random
import signal
import subprocess
import sys
import tempfile
import threading
import time

sys.path.insert(0, os.path.dirname(os.path.abspath(__file__)))
sys.dont_write_bytecode = True

import running

import offices
import second_desk
import serving
from killed_files import KINDS as KINDS_OF_FILES
from killed_files import Differs

TIMES, MOST, AT_ONCE, LONGEST = 1_000, 120, 6, 0.06
# How many of the last releases are asked for after a kill.
LOOKED_AT = 6
BEGUN = [{"do": "catalogue", "text": offices.CATALOGUE}, {"do": "import", "text": offices.PLAIN_DOCUMENT}]


def line(request):
    return json.dumps(request, separators=(",", ":")).encode() + b"\n"


def requests_of(number):
    """The requests for a release: it is frozen, and its two duties move."""
    name, duty = f"r{number}", 2 * number + 1
    yield {"do": "open", "release": name, "form": "binary"}
    yield {"do": "attach", "release": name, "document": 1}
    yield {"do": "choose", "release": name, "document": 1, "package": "SPDXRef-m", "terms": ["MIT"]}
    yield {"do": "freeze", "release": name, "day": "2025-03-03"}
    yield {"do": "meet", "duty": duty, "day": "2025-03-04", "text": "notices.txt"}
    yield {"do": "waive", "duty": duty + 1, "day": "2025-03-04", "text": "w", "until": "2025-03-31"}
    yield {"do": "reopen", "duty": duty, "day": "2025-03-05", "text": "once more"}
    if number % 3 == 0:
        yield {"do": "withdraw", "release": name, "day": "2025-03-06", "text": "recalled"}


def without_end(number):
    while True:
        yield from requests_of(number)
        number += 1


def started(program, *words, **more):
    return subprocess.Popen([program.path, *words], stdout=subprocess.PIPE, stderr=subprocess.PIPE, **more)


def killer_of(process, turn):
    timer = threading.Timer(turn.uniform(0.001, LONGEST), process.send_signal, [signal.SIGKILL])
    timer.start()
    return timer


def by_script(program, path, turn, requests):
    """The requests that were sent, and the replies that came."""
    process = started(program, "script", "--db", path, stdin=subprocess.PIPE)
    killer, sent, told = killer_of(process, turn), [], []
    try:
        while True:
            while len(sent) - len(told) < AT_ONCE:
                sent.append(next(requests))
                process.stdin.write(line(sent[-1]))
            process.stdin.flush()
            reply = process.stdout.readline()
            if not reply.endswith(b"\n"):
                break
            told.append(reply[:-1])
    except BrokenPipeError:
        pass
    killer.join()
    told += [reply[:-1] for reply in process.stdout.read().splitlines(keepends=True) if reply.endswith(b"\n")]
    ended(process)
    return sent, told


def ended(process):
    words = process.stderr.read()
    if process.wait() != -signal.SIGKILL or words:
        raise Differs(f"status {process.returncode}: {words!r}")
    for stream in (process.stdin, process.stdout, process.stderr):
        if stream:
            try:
                stream.close()
            except BrokenPipeError:
                pass


def over_http(port, request):
    """The reply to a request, or None if the connection broke."""
    client = http.client.HTTPConnection("127.0.0.1", port, timeout=running.SECONDS)
    try:
        client.request("POST", "/commands", line(request))
        return client.getresponse().read()
    except (OSError, http.client.HTTPException):
        return None
    finally:
        client.close()


def by_serve(program, path, turn, requests):
    desk = serving.Served(program.path, path, 1_000_000)
    killer, sent, told = killer_of(desk.process, turn), [], []
    while len(sent) == len(told):
        sent.append(next(requests))
        reply = over_http(desk.port, sent[-1])
        if reply is not None:
            told.append(reply)
    killer.join()
    ended(desk.process)
    return sent, told


def questions_of(numbers):
    for number in numbers:
        for ask in ("release", "totals", "duties"):
            yield {"ask": ask, "release": f"r{number}"}
        yield {"ask": "changes", "duty": 2 * number + 1}
        yield {"ask": "changes", "duty": 2 * number + 2}


def audited(program, path):
    done = program.run("audit", "--db", path)
    if (done.status, done.out, done.err) != (0, b"sound\n", b""):
        raise Differs(f"audit: {done!r}")


def answers(program, path, questions):
    done = program.run("script", "--db", path, text=b"".join(map(line, questions)))
    if running.unlike(done, {0, 1}):
        raise Differs(repr(done))
    return running.lines(done.out)


def looked_at(program, path, desk, sent, told, numbers):
    """The second desk after what was done: after all that was replied, and perhaps some of what was sent after that. Returns how much
    more."""
    for request, reply in zip(sent, told):
        wanted = desk.answer(request)
        if reply != wanted:
            raise Differs(f"{request} is replied {reply!r}, and not {wanted!r}")
    audited(program, path)
    questions = list(questions_of(numbers))
    found, rest = answers(program, path, questions), sent[len(told) :]
    for more in range(len(rest) + 1):
        if found == [desk.answer(question) for question in questions]:
            return more
        if more < len(rest):
            desk.answer(rest[more])
    raise Differs(f"after {len(told)} replies and {len(rest)} more requests the desk answers otherwise: {found!r:.600}")


def of_requests(kill):
    """Kills a desk again and again while it serves requests, which continue from where the second desk is."""
    def kills(program, room, turn, times):
        more, replies, path, desk = 0, 0, None, None
        for time_ in range(times):
            if desk is None or len(desk.releases) > MOST:
                path, desk = os.path.join(room, f"desk{time_}.db"), second_desk.SecondDesk()
                program.run("script", "--db", path, text=b"".join(map(line, BEGUN)))
                for request in BEGUN:
                    desk.answer(request)
            # (what a kill has cut off is sent again, so what is refused now was done then)
            first = max(0, len(desk.releases) - 1)
            sent, told = kill(program, path, turn, without_end(first))
            opened = sum(request["do"] == "open" for request in sent)
            behind = looked_at(program, path, desk, sent, told, range(first, first + opened + 1)[-LOOKED_AT:])
            more, replies = more + behind, replies + len(told)
        return f"{replies:,} replies are in the file, and {more} more requests that weren't replied"
    return kills


KINDS = {"script": of_requests(by_script), "serve": of_requests(by_serve), **KINDS_OF_FILES}


def main():
    parser = argparse.ArgumentParser(description="Kills the program while it writes.")
    parser.add_argument("program")
    parser.add_argument("--times", type=int, default=TIMES)
    parser.add_argument("--seed", type=int, default=1)
    parser.add_argument("--kinds", default=",".join(KINDS))
    parser.add_argument("--checked", action="store_true", help="the program was compiled with checks of memory")
    words = parser.parse_args()
    program, failed = running.Program(words.program, words.checked), 0
    for kind in words.kinds.split(","):
        begun = time.monotonic()
        with tempfile.TemporaryDirectory(dir=running.ROOM) as room:
            try:
                told = KINDS[kind](program, room, random.Random(f"{words.seed} {kind}"), words.times)
            except Differs as error:
                told, failed = f"differs: {error}", failed + 1
        print(f"{kind:10} killed {words.times:>6,} times in {time.monotonic() - begun:5.0f} s: {told}", flush=True)
    return failed > 0


if __name__ == "__main__":
    sys.exit(main())
