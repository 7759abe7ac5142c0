"""Times a desk in a file, compared with SQLite's own library: python3 bench/store.py PROGRAM ALONE

The library writes and reads the same rows (bench/beside.c), by the same tables, with a log as the journal and each commit flushed; so does
ALONE (bench/programs/sqlite), by the toolchain's sqlite with no desk, which is the least that a desk can take. Each time is the least of three
runs, on a file in shared memory and on a file on the disk. Commands on the disk are also timed in pairs, a desk's and then the library's,
and the median and the quartiles of both are printed, with those of a flush alone. It needs a C compiler and SQLite's library with its
header.
"""

import os
import shutil
import statistics
import subprocess
import sys
import tempfile
import threading
import time

HERE = os.path.dirname(os.path.abspath(__file__))
sys.path.insert(0, HERE)
sys.dont_write_bytecode = True

import rows

RUNS = 3
PAIRS = 15
COMMANDS = 1_000
QUESTIONS = 10_000
# How many references of one document are adopted
ADOPTIONS = (1_000, 10_000)
# How many releases there are at a conclusion
RELEASES = (409, 4_096)


class Desk:
    """The program over a file, sent requests in turn. Its replies go into a file, since a reader that each reply wakes costs it time."""

    def __init__(self, program, path):
        self.replies = open(path + ".replies", "w+b")
        self.process = subprocess.Popen([program, "script", "--db", path], stdin=subprocess.PIPE, stdout=self.replies)
        self.read = 0

    def come(self):
        """The replies that came since the last ones, and the begun part of the next."""
        return os.pread(self.replies.fileno(), 1 << 26, self.read)

    def step(self, name, requests):
        """The seconds until the last reply to requests that are sent together: none may be refused, or each because of a held choice."""
        wanted = b'"name":"Chosen"' if name == rows.UNDER_A_CHOICE else b""
        sender = threading.Thread(target=self.send, args=("".join(requests).encode(),))
        begun = time.perf_counter()
        sender.start()
        while (found := self.come()).count(b"\n") < len(requests):
            if self.process.poll() is not None:
                sys.exit(f"{name}: the desk ended")
            time.sleep(0.0002)
        seconds = time.perf_counter() - begun
        sender.join()
        self.read += len(found)
        for reply in found.splitlines():
            is_refused = b'"refused"' in reply or b'"fault"' in reply
            if is_refused != bool(wanted) or wanted not in reply:
                sys.exit(f"{name}: {reply!r}")
        return seconds

    def send(self, text):
        self.process.stdin.write(text)
        self.process.stdin.flush()

    def end(self):
        begun = time.perf_counter()
        self.process.stdin.close()
        self.process.wait()
        self.replies.close()
        return time.perf_counter() - begun


def prepared(program, path, duties):
    """A file whose desk has a release that is ready to be frozen with this many duties."""
    desk = Desk(program, path)
    for name, requests in rows.duties(duties):
        if name == "freeze":
            break
        desk.step(name, requests)
    desk.end()


def measured(other, *words):
    """The seconds that another program prints."""
    return float(subprocess.run([other, *map(str, words)], stdout=subprocess.PIPE, check=True).stdout)


def copied(kept, path):
    for end in ("", "-wal", "-shm"):
        if os.path.exists(path + end):
            os.remove(path + end)
    shutil.copy(kept, path)


def commands(program, beside, kept, path):
    """The seconds of the commands by a desk, and then by the library."""
    copied(kept, path)
    desk = Desk(program, path)
    desk.step("totals", [rows.line(ask="totals", release="r")])
    seconds = desk.step("open", [rows.line(do="open", release=f"s{n}", form="binary") for n in range(COMMANDS)])
    desk.end()
    copied(kept, path)
    return seconds, measured(beside, "commands", path, COMMANDS)


def adopted(program, beside, alone, room, count):
    """The least seconds of adoptions of one document's references, by the desk, by the library and by the toolchain's sqlite alone."""
    kept, path = os.path.join(room, "kept.db"), os.path.join(room, "desk.db")
    prepared(program, kept, 10)
    requests = [rows.line(do="adopt", document=1, reference=f"LicenseRef-{n}", licence="MIT") for n in range(count)]
    found = []
    for _ in range(RUNS):
        copied(kept, path)
        desk = Desk(program, path)
        desk.step("totals", [rows.line(ask="totals", release="r")])
        seconds = desk.step("adopt", requests)
        desk.end()
        copied(kept, path)
        other = measured(beside, "adopt", path, count)
        copied(kept, path)
        found.append((seconds, other, measured(alone, "adopt", path, count)))
    return [min(seconds) for seconds in zip(*found)]


def concluded(program, room, count):
    """The least seconds of a conclusion with this many releases: if none holds a choice for its package, and if one does."""
    found = []
    for turn in range(RUNS):
        desk = Desk(program, os.path.join(room, f"desk{turn}.db"))
        seconds = {}
        for name, requests in rows.releases(count):
            seconds[name] = desk.step(name, requests) / count
            if name == rows.UNDER_A_CHOICE:
                break
        desk.end()
        found.append((seconds["conclude"], seconds[rows.UNDER_A_CHOICE]))
    return [min(seconds) for seconds in zip(*found)]


def timed(program, beside, alone, room, duties):
    """The least seconds of each step, by the desk, by the library and by the toolchain's sqlite alone."""
    kept, path = os.path.join(room, "kept.db"), os.path.join(room, "desk.db")
    prepared(program, kept, duties)
    found = {}

    def note(step, by, seconds):
        found[step, by] = min(seconds, found.get((step, by), seconds))

    freeze = [rows.line(do="freeze", release="r", day="2025-03-03")]
    totals = [rows.line(ask="totals", release="r")] * QUESTIONS
    withdraw = [rows.line(do="withdraw", release="r", day="2025-04-02", text="w")]
    for _ in range(RUNS):
        seconds, other = commands(program, beside, kept, path)
        note("commands", "desk", seconds)
        note("commands", "library", other)
        copied(kept, path)
        desk = Desk(program, path)
        desk.step("totals", totals[:1])
        note("freeze", "desk", desk.step("freeze", freeze))
        note("totals", "desk", desk.step("totals", totals))
        note("close", "desk", desk.end())
        begun = time.perf_counter()
        desk = Desk(program, path)
        desk.step("totals", totals[:1])
        note("open", "desk", time.perf_counter() - begun)
        note("withdraw", "desk", desk.step("withdraw", withdraw))
        desk.end()
        note("open", "library", measured(beside, "open", path, 1))
        note("open", "alone", measured(alone, "open", path, 1))
        note("totals", "library", measured(beside, "totals", path, 10))
        copied(kept, path)
        note("freeze", "library", measured(beside, "freeze", path, duties))
        note("withdraw", "library", measured(beside, "withdraw", path, duties))
        for step in ("withdraw", "withdraw-by-thousands"):
            copied(kept, path)
            note("freeze", "alone", measured(alone, "freeze", path, duties))
            note("withdraw", "alone", measured(alone, step, path, duties))
    return found


def compared(desk, other, alone):
    """What the three take, each as a multiple of the library."""
    words = f"{1000 * desk:10.1f} ms, library {1000 * other:10.1f} ms, times {desk / other:.2f}"
    return words if alone is None else f"{words}; the toolchain's sqlite alone {1000 * alone:10.1f} ms, times {alone / other:.2f}"


def flush(path, times):
    """The seconds of this many flushes, each after a write of four pages, on a file that doesn't grow."""
    pages = b"x" * 4 * 4096
    with open(path, "wb") as file:
        file.write(b"\0" * len(pages) * 100)
        file.flush()
        os.fsync(file.fileno())
        begun = time.perf_counter()
        for turn in range(COMMANDS):
            for part in range(times):
                os.pwrite(file.fileno(), pages if part == 0 else pages[:1], turn % 100 * len(pages))
                os.fdatasync(file.fileno())
        return time.perf_counter() - begun


def spread(values, form):
    low, middle, high = (form(value) for value in statistics.quantiles(values, n=4))
    return f"{middle} ({low} to {high})"


def paired(program, beside, room):
    """Prints the commands of a desk and of the library, timed in turn, and flushes alone."""
    kept, path = os.path.join(room, "kept.db"), os.path.join(room, "desk.db")
    prepared(program, kept, 10_000)
    pairs = [commands(program, beside, kept, path) for _ in range(PAIRS)]
    flushes = [(flush(path, 1), flush(path, 2)) for _ in range(PAIRS)]
    print(f"the disk, {PAIRS} pairs of {COMMANDS:,} commands in turn: the middle one, and the quartiles")
    for name, values in (("desk", [pair[0] for pair in pairs]), ("library", [pair[1] for pair in pairs]),
                         ("one flush", [both[0] for both in flushes]), ("two flushes", [both[1] for both in flushes])):
        print(f"  {name:12} {spread(values, lambda value: f'{1e6 * value / COMMANDS:.0f}')} microseconds each")
    print(f"  {'times':12} {spread([desk / other for desk, other in pairs], lambda value: f'{value:.2f}')}")


def main():
    program, alone = map(os.path.abspath, sys.argv[1:])
    with tempfile.TemporaryDirectory() as build:
        beside = os.path.join(build, "beside")
        subprocess.run(["cc", "-O2", "-o", beside, os.path.join(HERE, "beside.c"), "-lsqlite3"], check=True)
        with tempfile.TemporaryDirectory(dir=os.path.abspath("build")) as room:
            paired(program, beside, room)
        for count in ADOPTIONS:
            with tempfile.TemporaryDirectory(dir="/dev/shm") as room:
                found = adopted(program, beside, alone, room, count)
            print(f"shared memory, {count:,} adoptions of one document {compared(*found)}")
        for count in RELEASES:
            with tempfile.TemporaryDirectory(dir="/dev/shm") as room:
                free, held = concluded(program, room, count)
            print(f"shared memory, {count:,} releases: a conclusion {1e6 * free:.0f} microseconds, one that a choice refuses {1e6 * held:.0f}")
        for where, top in (("shared memory", "/dev/shm"), ("the disk", os.path.abspath("build"))):
            for duties in (10_000, 100_000):
                with tempfile.TemporaryDirectory(dir=top) as room:
                    found = timed(program, beside, alone, room, duties)
                print(f"{where}, {duties:,} duties")
                for step, count in (("commands", COMMANDS), ("freeze", 1), ("withdraw", 1), ("open", 1), ("totals", QUESTIONS), ("close", 1)):
                    desk, other = found[step, "desk"], found.get((step, "library"))
                    if step == "totals":
                        print(f"  {count:,} questions for totals {1000 * desk:10.1f} ms, {count / desk:,.0f} a second; the library counts in {100 * other:.3f} ms each")
                    elif other is None:
                        print(f"  {step:24} {1000 * desk:10.1f} ms")
                    else:
                        print(f"  {count:,} {step:20} {compared(desk, other, found.get((step, 'alone')))}")


if __name__ == "__main__":
    main()
