"""Runs the program under test, with a limit of time and of memory, and checks what every answer must satisfy."""

import os
import re
import resource
import subprocess
import sys
import time

HERE = os.path.dirname(os.path.abspath(__file__))
TESTS = os.path.dirname(HERE)
sys.path[:0] = [TESTS, *(os.path.join(TESTS, name) for name in ("acceptance", "alternatives", "audits", "documents"))]
sys.dont_write_bytecode = True

# A small input is answered within these seconds, even if other work slows the machine down.
SECONDS = 10
# What a process may take besides ten times its input. A program that is compiled with checks of memory has no such limit.
MEMORY = 256 << 20
# A file system in memory, if there is one.
ROOM = "/dev/shm" if os.path.isdir("/dev/shm") else None
STATUSES = {0, 1, 2, 3}


class Done:
    """The result of a run. The status is None if nothing came in time."""

    def __init__(self, status, out, err, seconds):
        self.status, self.out, self.err, self.seconds = status, out, err, seconds

    def __repr__(self):
        return f"status {self.status} after {self.seconds:.1f} s, {self.out[:300]!r}, {self.err[:300]!r}"


class Program:
    """The program, with the longest time that a run of it took."""

    def __init__(self, path, is_checked=False):
        self.path, self.is_checked = os.path.abspath(path), is_checked
        self.longest, self.runs = 0, 0
        # (checks make it a thousand times slower)
        self.seconds = 600 if is_checked else SECONDS

    def limit(self, size):
        """A function that sets the limits of a child, or nothing."""
        if self.is_checked:
            return None
        room = MEMORY + 10 * size
        return lambda: resource.setrlimit(resource.RLIMIT_AS, (room, room))

    def run(self, *words, text=b"", size=0, seconds=None, **more):
        """Runs it on these words and this input. The size is that of other files that it reads."""
        self.runs += 1
        begun = time.perf_counter()
        try:
            done = subprocess.run(
                [self.path, *words], input=text, capture_output=True, timeout=seconds or self.seconds, check=False,
                preexec_fn=self.limit(len(text) + size), **more,
            )
        except subprocess.TimeoutExpired:
            return Done(None, b"", b"", time.perf_counter() - begun)
        took = time.perf_counter() - begun
        self.longest = max(self.longest, took)
        return Done(done.returncode, done.stdout, done.stderr, took)


def unlike(done, statuses=STATUSES, beside=b""):
    """What no answer may be: late, a crash, a status or words that no page has. None if it is an answer, with these words besides it."""
    if done.status is None:
        return f"nothing within {done.seconds:.0f} seconds"
    if done.status not in statuses:
        return repr(done)
    # (a log that a killed run left may be that of another file)
    said = re.sub(rb'\A"[^\n]*": a run that was killed left a log beside it[^\n]+\n', b"", done.err)
    is_fault = done.status == 3 and re.fullmatch(rb"(error: [^\n]+\n)+", said)
    is_usage = done.status == 2 and said
    if done.err != beside and said != beside and not is_fault and not is_usage:
        return repr(done)
    return None


def lines(text):
    return text.split(b"\n")[:-1] if text.endswith(b"\n") else text.split(b"\n")


def compared(inputs, replies, wanted):
    """The places and words of replies that aren't what is wanted."""
    if len(replies) != len(wanted):
        yield min(len(replies), len(inputs) - 1), f"{len(replies)} replies to {len(wanted)} requests, the last {replies[-1:]!r:.300}"
    for place, (reply, want) in enumerate(zip(replies, wanted)):
        if reply != want:
            yield place, f"{reply!r:.400}, and not {want!r:.400}"
