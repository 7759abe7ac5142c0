"""Changes a tree while `desk gather` and `desk lint` read it: python3 tests/changing.py PROGRAM [SECONDS]

Each run must end within a minute: with status 0 or 1 and well-formed output (a document that `desk import` accepts, or a report), or with
status 3 and one line that names a path of the tree. Nothing may be written to the tree itself. Some things replace a file permanently: a
pipe that nobody writes to must not be waited for, and a file that never stops growing must be read to an end.
"""

import json
import os
import random
import re
import subprocess
import sys
import tempfile
import threading
import time

SECONDS = 2.0
LIMIT = 60
FILES = 60
# Written in parts, since these are tags of the tree and not of this file.
TAGS = "// SPDX-" + "FileCopyrightText: 2025 Firm\n// SPDX-" + "License-Identifier: MIT\n"
LINE = "int one_more_line_of_the_file;\n"
GATHER = ["--name", "n", "--namespace", "https://example.org/n", "--created", "2025-01-01T00:00:00Z"]


def write(path, text):
    os.makedirs(os.path.dirname(path), exist_ok=True)
    with open(path, "w", encoding="utf-8") as file:
        file.write(text)


def grow(path):
    with open(path, "a", encoding="utf-8") as file:
        file.write(LINE * 40)


def shrink(path):
    os.truncate(path, random.randrange(0, 300))


def remove(path):
    os.remove(path)


def to_folder(path):
    os.remove(path)
    os.mkdir(path)
    write(os.path.join(path, "inner.c"), TAGS)


def to_link(path):
    os.remove(path)
    os.symlink("/dev/zero", path)


def to_nothing(path):
    """Deletes whatever is there."""
    if os.path.isdir(path) and not os.path.islink(path):
        for name in os.listdir(path):
            os.remove(os.path.join(path, name))
        os.rmdir(path)
    elif os.path.lexists(path):
        os.remove(path)


class Beside(threading.Thread):
    """Does something during the runs, until it is stopped."""

    def __init__(self):
        super().__init__(daemon=True)
        self.stop = threading.Event()

    def __enter__(self):
        self.start()
        return self

    def __exit__(self, *_):
        self.stop.set()
        self.join()


class Writer(Beside):
    """Changes files of a tree."""

    def __init__(self, root):
        super().__init__()
        self.root = root

    def run(self):
        while not self.stop.is_set():
            path = os.path.join(self.root, f"src/{random.randrange(4)}/file{random.randrange(FILES)}.c")
            if os.path.isfile(path) and not os.path.islink(path) and os.path.getsize(path) < 200_000:
                random.choice([grow, grow, shrink, remove, to_folder, to_link])(path)
            else:
                to_nothing(path)
                write(path, TAGS + LINE * random.randrange(200))
            # Some runs should meet many changes, and some none that stops them.
            self.stop.wait(random.choice([0, 0, 0, 0.2]))


class Grower(Beside):
    """Adds to one file as fast as it can, and starts again when it is large."""

    def __init__(self, path):
        super().__init__()
        self.path = path

    def run(self):
        with open(self.path, "ab", buffering=0) as file:
            while not self.stop.is_set():
                file.write(LINE.encode() * 2_000)
                if file.tell() > 20_000_000:
                    os.truncate(self.path, 1_000)


def run(command):
    begun = time.monotonic()
    try:
        done = subprocess.run(command, stdin=subprocess.DEVNULL, capture_output=True, timeout=LIMIT, check=False)
    except subprocess.TimeoutExpired:
        sys.exit(f"{command}: not done after {time.monotonic() - begun:.0f} seconds")
    return done


def judge(program, root, scratch, command, done):
    """Says what is wrong with the end of a run, if anything."""
    out, err = done.stdout.decode(), done.stderr.decode()
    if done.returncode == 3:
        if out or err.count("\n") != 1 or root not in err or not err.startswith("error: cannot read "):
            return f"status 3 with {out[:200]!r} and {err[:400]!r}"
        return None
    # (gather reports a fault there too, otherwise what the document lacks)
    told = {("gather", 0): "(files without a licence: [0-9]+, without a notice: [0-9]+; the document says NOASSERTION of them\n)?",
            ("gather", 1): re.escape(out)}
    if done.returncode not in (0, 1) or not re.fullmatch(told.get((command, done.returncode), ""), err):
        return f"status {done.returncode} with {err[:400]!r}"
    if command == "lint":
        try:
            json.loads(out)
        except ValueError:
            return f"a report that is no JSON: {out[:200]!r}"
        return None
    if done.returncode == 1:
        return None if out.startswith("fault: ") and out.count("\n") == 1 else f"status 1 with {out[:200]!r}"
    document, office = os.path.join(scratch, "document"), os.path.join(scratch, "office.db")
    write(document, out)
    if os.path.exists(office):
        os.remove(office)
    told = run([program, "import", "--db", office, document])
    if told.returncode != 0 or told.stdout != b'{"document":1,"new":true}\n':
        return f"a document that isn't imported: {told.stdout[:200]!r} {told.stderr[:200]!r}"
    return None


def commands(program, root):
    return [("gather", [program, "gather", root, *GATHER]), ("lint", [program, "lint", "--json", root])]


def are_all(ended):
    """Whether each command gave an answer, and reported a change."""
    return all((name, 3) in ended and ((name, 0) in ended or (name, 1) in ended) for name in ("gather", "lint"))


def change_all(program, root, scratch, seconds):
    """Runs both commands while files change, and counts how they ended: each must answer at least once, and meet a change once."""
    for folder in range(4):
        for n in range(FILES):
            write(os.path.join(root, f"src/{folder}/file{n}.c"), TAGS + LINE * 100)
    ended, begun = {}, time.monotonic()
    with Writer(root) as writer:
        while time.monotonic() < begun + seconds or not are_all(ended):
            if time.monotonic() > begun + LIMIT:
                sys.exit(f"Of many runs on a tree that changes some never ended so: {ended}")
            for name, command in commands(program, root):
                done = run(command)
                wrong = judge(program, root, scratch, name, done)
                if wrong:
                    sys.exit(f"{name} on a tree that changes: {wrong}")
                ended[name, done.returncode] = ended.get((name, done.returncode), 0) + 1
        if not writer.is_alive():
            sys.exit("The writer ended.")
    return ended


def grow_one(program, root, scratch):
    """Runs both commands while one file grows as fast as it can."""
    path = os.path.join(root, "log")
    write(path, TAGS)
    with Grower(path) as grower:
        for _ in range(2):
            for name, command in commands(program, root):
                wrong = judge(program, root, scratch, name, run(command))
                if wrong:
                    sys.exit(f"{name} on a file that grows: {wrong}")
        if not grower.is_alive():
            sys.exit("What grows ended.")


def open_pipe(path):
    """Opens a pipe for a moment, so that anyone who waits for a writer continues."""
    os.close(os.open(path, os.O_RDWR | os.O_NONBLOCK))


def names_below(root):
    return {name for _, folders, files in os.walk(root) for name in folders + files}


def put_a_pipe(program, root, scratch):
    """Puts a pipe in the last file's place during the runs, so that some runs find a pipe where they listed a file."""
    path, pipe = os.path.join(root, "turn"), os.path.join(scratch, "pipe")
    for n in range(300):
        write(os.path.join(root, f"src/file{n}.c"), TAGS)
    for turn in range(10):
        for name, command in commands(program, root):
            to_nothing(path)
            write(path, TAGS)
            os.mkfifo(pipe)
            timer = threading.Timer(0.001 * turn, os.rename, (pipe, path))
            timer.start()
            # The program would wait for a pipe that appears just before it opens the file.
            waker = threading.Timer(LIMIT / 2, open_pipe, (path,))
            waker.start()
            done = run(command)
            waker.cancel()
            timer.join()
            wrong = judge(program, root, scratch, name, done)
            if wrong:
                sys.exit(f"{name} where a pipe comes in a file's place: {wrong}")


def main():
    program = os.path.abspath(sys.argv[1])
    seconds = float(sys.argv[2]) if len(sys.argv) > 2 else SECONDS
    random.seed(1)
    with tempfile.TemporaryDirectory() as scratch:
        roots = [os.path.join(scratch, name) for name in ("changing", "growing", "turning")]
        for root in roots:
            write(os.path.join(root, "LICENSES/MIT.txt"), "MIT text\n")
        ended = change_all(program, roots[0], scratch, seconds)
        grow_one(program, roots[1], scratch)
        put_a_pipe(program, roots[2], scratch)
        made = re.compile(r"LICENSES|MIT\.txt|src|[0-3]|file\d+\.c|inner\.c|log|turn")
        for root in roots:
            others = [name for name in names_below(root) if not made.fullmatch(name)]
            if others:
                sys.exit(f"Something was written in a tree: {others}")
    told = ", ".join(f"{name} {count} times with status {status}" for (name, status), count in sorted(ended.items()))
    print(f"On a tree that changes each run ended well: {told}.")


if __name__ == "__main__":
    main()
