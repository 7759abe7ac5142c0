"""Refuses each allocation of the program in turn: python3 tests/allocations/sweep.py PROGRAM

The scripts, the checks, the listings and the trees are those of the acceptance cases of at most 16 KiB or 100 files, and the documents in
JSON those of tests/convert. Each allocation of a run is refused once: the program forks there (`refuse.c`), and a copy of it continues
without that memory. A run over a file isn't forked; it is repeated for each N with its Nth allocation refused, until it makes fewer. Then

- a check or a listing prints its answer with its status, or nothing with status 3 and its message;
- a text from a desk in a file (notices, the table of duties, totals, changes, a page, a list, what prevents a freeze, what keeps a
  release from being ready, what notices lack, choices, proposals) is written fully, or not at all with status 3 and its message; or the reply is {"fault":"memory"};
- an import of a document in JSON replies that the document is new, or in one of those ways; repeated, it replies that the document had been
  imported if the first reply was so, and otherwise that or new;
- an audit and a migration of a file, after its opening and once during it, print their answer, or nothing but their message; the file is
  unchanged or, migrated, has all rows of a migration;
- a script over a file does so too, and may fail to open or to close it, with its message;
- so do the proposals for a document, what a document in JSON is converted to, and the document and the problems of a tree; the message may
  also be that of a folder, a file or an output for which no memory was left;
- a desk that is served, from its first connection on, replies to all requests as usual except one: that one gets 503 with "memory", and the
  others are answered as if it hadn't been sent; or, if it isn't GET, it gets "reply", and the others are answered as after it. The desk may
  fail to close its file, with its message;
- a script prints its replies with its status; or one reply is {"fault":"memory"}, the status is 3 with its message, and the other replies
  are those of the script without that request, so what was accepted remains and the script continued; or it stopped with status 3 and its
  message, after whole replies that are those of the script. Before the first reply it may also say that it could not begin.

Each request of a script or a connection gets a reply about lack of memory at least once, except a line that isn't UTF-8, which needs no
memory.
"""

import os
import re
import shutil
import sqlite3
import subprocess
import sys
import tempfile

HERE = os.path.dirname(os.path.abspath(__file__))
CASES = os.path.join(HERE, "../acceptance")
CONVERTED = os.path.join(HERE, "../convert")
sys.path[:0] = [CASES, os.path.join(HERE, "..")]
sys.dont_write_bytecode = True

import dialogue
import serving

BYTES = 16_384
SHARED = "/dev/shm"
# Scripts that also run over a file: the first one from its first allocation on, others from the first one after those that open the file.
OVER_A_FILE = ("script-first-release.dialogue", "script-waived-and-withdrawn.dialogue")
IMPORTED = "github.json"
FILES = 100
MANY = 1_000_000
# (one of the allocations that open a file, in the middle)
OPENING = 1_000
# The first release in a file of version 1, and how many allocations before the end of a migration that is refused at once its work begins,
# at most
OLDER = "../migrations/first-release-of-version-1.sql"
REFUSING = 100
MEMORY = b'{"fault":"memory"}\n'

WANTING = b"error: no memory is left\n"
NOT_BEGUN = (WANTING, b"error: cannot write: out of memory\n")
STOPPED = b"error: the script stopped: no memory is left for a line or a reply\n"
ONE_FAILED = b"error: requests that failed: 1\n"
NOT_SHOWN = b"error: the request failed: out of memory; it was applied fully or not at all: check before you send it again\n"
LEFT_OUT = re.compile(rb"\Aleft out: .*\n")
UNUSED = re.compile(rb'error: cannot use ".*": .*\n')
UNREAD = re.compile(rb'error: cannot read ".*": (out of memory|Cannot allocate memory.*)\n')


class Program:
    def __init__(self, path, library, room):
        self.path, self.library, self.told = path, library, os.path.join(room, "refused")
        self.folder = os.path.join(room, "folder")
        self.streams = [os.path.join(room, name) for name in ("in", "out", "err")]
        os.mkdir(self.folder)

    def stand_in(self, data, script):
        """Prepares a run of the program in a folder with these files, if any, and those that a script makes, with the words that it ends with."""
        shutil.rmtree(self.folder)
        if data:
            shutil.copytree(data, self.folder)
        else:
            os.mkdir(self.folder)
        if script:
            done = subprocess.run(["sh", script, "echo"], cwd=self.folder, stdout=subprocess.PIPE, check=True)
            return done.stdout.decode().split()
        return []

    def files(self):
        """How many files there are in that folder."""
        return sum(len(names) for _, _, names in os.walk(self.folder))

    def run(self, words, text, refused=0):
        """Standard output, the status, standard error, and whether an allocation was refused."""
        self.clear()
        done = subprocess.run([self.path, *words], input=text, capture_output=True, env=self.env(refused), cwd=self.folder, check=False)
        return done.stdout, done.returncode, done.stderr, os.path.exists(self.told)

    def again(self, words):
        """Standard output and the status of a run on the files that the last one left."""
        done = subprocess.run([self.path, *words], capture_output=True, cwd=self.folder, check=False)
        return done.stdout, done.returncode

    def refusals(self, words, text):
        """Standard output and the status of a run; and of each allocation in it the number, with standard output, the status and standard
        error of the copy that continued without it."""
        self.clear()
        with open(self.streams[0], "wb") as file:
            file.write(text)
        env = {"LD_PRELOAD": self.library, "REFUSE_FROM": "1", "REFUSED": self.told}
        with open(self.streams[0], "rb") as given, open(self.streams[1], "w+b") as out, open(self.streams[2], "w+b") as err:
            done = subprocess.run([self.path, *words], stdin=given, stdout=out, stderr=err, env=env, cwd=self.folder, check=False)
            out.seek(0)
            return (out.read(), done.returncode), self.copies()

    def copies(self):
        """The result of each copy of the last run."""
        with open(self.told, "rb") as file:
            while head := file.readline():
                number, status, out, err = map(int, head.split())
                stdout, stderr = file.read(out), file.read(err)
                yield number, stdout, os.waitstatus_to_exitcode(status), stderr

    def serve(self, requests, refused=0):
        """The same of a desk that is served, with its replies in place of standard output, if it gets to listen."""
        self.clear()
        try:
            desk = serving.Served(self.path, os.path.join(self.folder, "desk.db"), len(requests), **self.env(refused))
        except serving.NotServed as error:
            return None, error.status, error.words, os.path.exists(self.told)
        try:
            replies = [desk.raw(request, ends=False) for request in requests]
            return replies, *desk.ended(), os.path.exists(self.told)
        finally:
            desk.stop()

    def env(self, refused):
        return {"LD_PRELOAD": self.library, "REFUSE": str(refused), "REFUSED": self.told} if refused else {}

    def clear(self):
        for path in (self.told, *(os.path.join(self.folder, name) for name in ("desk.db", "desk.db-wal"))):
            if os.path.exists(path):
                os.remove(path)


def lines(text):
    """The lines of a text, each with its LF."""
    parts = text.split(b"\n")
    return [part + b"\n" for part in parts[:-1]] + parts[-1:]


def is_text(line):
    try:
        return line.decode() is not None
    except UnicodeDecodeError:
        return False


def is_blank(line):
    end = b"\r\n" if line.endswith(b"\r\n") else b"\n"
    return not line.removesuffix(end).strip(b" \t")


class Check:
    """A run of `check`, and what it may print if memory is lacking."""

    def __init__(self, program, words, text):
        self.whole = program.run(words, text)[:2]

    def is_right(self, stdout, status, stderr):
        return (stdout, status) == self.whole or (stdout, status, stderr) == (b"", 3, WANTING)

    def untold(self):
        return []


class Tree(Check):
    """A run of `propose`, `gather` or `lint`, and what it may print if memory is lacking."""

    def is_right(self, stdout, status, stderr):
        if super().is_right(stdout, status, stderr):
            return True
        return (stdout, status) == (b"", 3) and (stderr in NOT_BEGUN or UNREAD.fullmatch(stderr) is not None)


class Shown(Check):
    """A run that writes a text from a desk in a file, and what it may print if memory is lacking."""

    def is_right(self, stdout, status, stderr):
        if super().is_right(stdout, status, stderr):
            return True
        if stdout == MEMORY:
            return (status, stderr) == (3, NOT_SHOWN)
        return status == 3 and stdout in (b"", self.whole[0]) and (stderr in NOT_BEGUN or UNUSED.fullmatch(stderr) is not None)


class Import(Shown):
    """A run that imports a document, and what it may print if memory is lacking. The file is asked after each run."""

    def __init__(self, program, words, text):
        super().__init__(program, words, text)
        self.program, self.words = program, words

    def is_right(self, stdout, status, stderr):
        again = self.program.again(self.words)
        known = self.whole[0].replace(b"true", b"false")
        is_kept = again == (known, 0) or stdout != self.whole[0] and again == self.whole
        # (what is left out of the JSON is reported besides the reply)
        return super().is_right(stdout, status, LEFT_OUT.sub(b"", stderr)) and is_kept


class Script:
    """A run of `script`, and what it may print if memory is lacking."""

    def __init__(self, program, words, text):
        self.program, self.words = program, words
        self.whole = program.run(words, text)[:2]
        self.requests = lines(text)
        self.replied = [n for n, line in enumerate(self.requests) if not is_blank(line)]
        self.told, self.rests = set(), {}

    def rest(self, place):
        """The replies to the script without the request that has the reply at this place."""
        if place not in self.rests:
            left = b"".join(line for n, line in enumerate(self.requests) if n != self.replied[place])
            self.rests[place] = self.program.run(self.words, left)[0]
        return self.rests[place]

    def is_right(self, stdout, status, stderr):
        if (stdout, status) == self.whole or self.is_unused(stdout, status, stderr):
            return True
        replies = lines(stdout)
        failed = [n for n, reply in enumerate(replies) if reply == MEMORY]
        if not failed:
            if status != 3 or stdout == b"" and stderr in NOT_BEGUN:
                return status == 3
            is_whole = stdout == b"" or stdout.endswith(b"\n")
            return stderr == STOPPED and is_whole and self.whole[0].startswith(stdout)
        self.told.add(failed[0])
        others = b"".join(replies[: failed[0]] + replies[failed[0] + 1 :])
        return status == 3 and stderr == ONE_FAILED and len(failed) == 1 and others == self.rest(failed[0])

    def is_unused(self, stdout, status, stderr):
        """Whether the file of a desk couldn't be opened, or not closed after all was replied."""
        return "--db" in self.words and status == 3 and stdout in (b"", self.whole[0]) and UNUSED.fullmatch(stderr)

    def untold(self):
        """The requests that never got a reply about lack of memory."""
        return [n for n, line in enumerate(self.replied) if n not in self.told and is_text(self.requests[line])]


class Serve:
    """A desk that is served to connections, and what it may print if memory is lacking."""

    def __init__(self, program, requests, first):
        self.program, self.requests, self.first = program, requests, first
        self.whole = program.serve(requests)[0]
        self.told, self.rests = set(), {}

    def rest(self, place):
        """The replies to the others if the connection at this place is left out."""
        if place not in self.rests:
            self.rests[place] = self.program.serve(self.requests[:place] + self.requests[place + 1 :])[0]
        return self.rests[place]

    def is_right(self, replies, status, stderr):
        is_closed = (status, stderr) == (0, b"") or status == 3 and UNUSED.fullmatch(stderr)
        failed = [place for place, reply in enumerate(replies) if reply.startswith(b"HTTP/1.1 503 ")]
        if not failed:
            return is_closed and replies == self.whole
        place = failed[0]
        others = replies[:place] + replies[place + 1 :]
        is_get = self.requests[place].startswith(b"GET ")
        if replies[place] == serving.response(b'{"fault":"memory"}'):
            self.told.add(place)
            return is_closed and others == self.rest(place)
        is_reply = replies[place] == serving.response(b'{"fault":"reply"}', status=503)
        return is_closed and is_reply and not is_get and others == self.whole[:place] + self.whole[place + 1 :]

    def untold(self):
        """The connections from the first one on that never got a reply about lack of memory."""
        return [place for place in range(self.first, len(self.requests)) if place not in self.told]


KINDS = {"script": Script, "check": Check, "alternatives": Check, "propose": Tree, "gather": Tree, "lint": Tree, "convert": Tree}
# What is shown of the desk in a file, and about what in it; also of one with a waiver that ends.
TEXTS = [
    ("notices", "r1"),
    ("duties", "r1"),
    ("totals", "r1"),
    ("changes", "1"),
    ("page", "r1"),
    ("wanting", "r1"),
    ("ready", "r1"),
    ("gaps", "r1"),
    ("choices", "r1"),
    ("propose", "1"),
    ("list", "releases"),
    ("list", "documents"),
    ("list", "duties"),
]
OF_WAIVERS = [
    ("page", "r1"),
    ("changes", "1"),
    ("list", "duties", "--release", "r1", "--code", "include-text", "--past", "2025-06-01"),
    ("list", "duties", "--open"),
]


def kind_of(words):
    """What a run with these words may print."""
    if words[0] == "import":
        return Import
    return Shown if "--db" in words and words[0] != "script" else KINDS[words[0]]


def sweep(program, name, words, text):
    """How many allocations of a run were refused."""
    run = kind_of(words)(program, words, text)
    whole, copies = program.refusals(words, text)
    if whole != run.whole:
        sys.exit(f"{name}: another answer of the run that was copied")
    number = 0
    for number, stdout, status, stderr in copies:
        if not run.is_right(stdout, status, stderr):
            sys.exit(f"{name}: allocation {number}: status {status}, {stdout[-200:]!r}, {stderr[:200]!r}")
    if run.untold():
        sys.exit(f"{name}: the requests {run.untold()} never got a reply about lack of memory")
    return number


def sweep_on_file(program, name, words, text, first=1):
    """How many allocations of a run over a file were refused, from the first one on."""
    run = kind_of(words)(program, words, text)
    refused = first
    while True:
        stdout, status, stderr, was_refused = program.run(words, text, refused)
        if not was_refused:
            break
        if not run.is_right(stdout, status, stderr):
            sys.exit(f"{name}: allocation {refused}: status {status}, {stdout[-200:]!r}, {stderr[:200]!r}")
        refused += 1
    if run.untold():
        sys.exit(f"{name}: the requests {run.untold()} never got a reply about lack of memory")
    return refused - first


def sweep_case(program, name, words, text):
    """How many allocations of the run of a case were refused."""
    if "--db" not in words:
        return sweep(program, name, words, text)
    return sweep_on_file(program, name, words, text, 1 if name.startswith(OVER_A_FILE[0]) else first_of_texts(program, words))


def first_behind(least, is_met):
    """The first number that doesn't meet this, after those from the least one on that do."""
    most = MANY
    while least < most:
        middle = (least + most) // 2
        least, most = (middle + 1, most) if is_met(middle) else (least, middle)
    return least


def is_opening(program, words, number):
    """Whether the file isn't opened if this allocation is refused."""
    return UNUSED.fullmatch(program.run(words, b"", number)[2]) is not None


def first_of_texts(program, words):
    """The first allocation after those that open the desk's file. Scripts over a file make the same ones."""
    first = first_behind(OPENING, lambda number: is_opening(program, words, number))
    if first == OPENING:
        sys.exit(f"{words[0]}: the file is opened by fewer allocations than {OPENING}")
    return first


def sweep_import(program, words):
    """How many allocations of an import were refused; of those that open the file only one is."""
    run, number, count = kind_of(words)(program, words, b""), 0, 0
    while True:
        number += 1
        stdout, status, stderr, was_refused = program.run(words, b"", number)
        if not was_refused:
            return count
        if not run.is_right(stdout, status, stderr):
            sys.exit(f"import: allocation {number}: status {status}, {stdout[-200:]!r}, {stderr[:200]!r}")
        count += 1
        if number < OPENING and UNUSED.fullmatch(stderr):
            number = first_behind(number + OPENING // 2, lambda at: is_opening(program, words, at)) - 1


def is_begun(program, requests, number):
    """Whether a desk makes this allocation before it listens or, if there are requests, before it ends after them."""
    replies, _, _, was_refused = program.serve(requests, number)
    return was_refused if requests else replies is None


def sweep_connections(program, name, before, rows):
    """How many allocations of a served desk were refused, from the first one for the connections on."""
    begun, requests = ([request for _, request, *_ in some] for some in (before, before + rows))
    run = Serve(program, requests, len(before))
    wanted = [serving.response(*reply) for _, _, *reply in before + rows]
    if run.whole != wanted:
        sys.exit(f"{name}: other replies, with memory")
    # (the last ones close the file)
    refused = first = first_behind(1, lambda number: is_begun(program, begun, number)) - (REFUSING if before else 0)
    while True:
        replies, status, stderr, was_refused = program.serve(requests, refused)
        if not was_refused:
            break
        if not run.is_right(replies, status, stderr):
            sys.exit(f"{name}: allocation {refused}: status {status}, {replies!r:.400}, {stderr[:200]!r}")
        refused += 1
    if run.untold():
        sys.exit(f"{name}: the requests {run.untold()} never got a reply about lack of memory")
    return refused - first


class OnFile:
    """A run over a file that is audited or migrated, and what it may print and leave if memory is lacking."""

    def __init__(self, program, word, data):
        self.program, self.words, self.data = program, [word, "--db", "file"], data
        self.path = os.path.join(program.folder, "file")
        self.whole = self.run()[:2]
        self.rows = self.tables()

    def run(self, refused=0):
        for path in (self.path, self.path + "-wal"):
            if os.path.exists(path):
                os.remove(path)
        with open(self.path, "wb") as file:
            file.write(self.data)
        return self.program.run(self.words, b"", refused)

    def tables(self):
        """The rows of all tables, as SQLite reads a copy of the file and of its log."""
        for end in ("", "-wal"):
            if os.path.exists(self.path + end):
                shutil.copy(self.path + end, self.path + ".copy" + end)
        connection = sqlite3.connect(self.path + ".copy")
        names = [name for (name,) in connection.execute("SELECT name FROM sqlite_schema WHERE type = 'table' ORDER BY rowid")]
        found = {name: connection.execute(f"SELECT * FROM {name} ORDER BY rowid").fetchall() for name in names}
        connection.close()
        for end in ("", "-wal", "-shm"):
            if os.path.exists(self.path + ".copy" + end):
                os.remove(self.path + ".copy" + end)
        return found

    def is_kept(self):
        with open(self.path, "rb") as file:
            return file.read() == self.data

    def is_right(self, stdout, status, stderr):
        is_whole = (stdout, status, stderr) == (*self.whole, b"")
        is_told = status == 3 and stdout in (b"", self.whole[0]) and (stderr in NOT_BEGUN or UNUSED.fullmatch(stderr) is not None)
        if self.words[0] == "audit":
            return (is_whole or is_told) and self.is_kept()
        return is_whole and self.tables() == self.rows or is_told and (self.is_kept() or self.tables() == self.rows)

    def allocations(self):
        """How many allocations the run makes."""
        return first_behind(1, lambda number: self.run(number)[3]) - 1


def executed(program, data, text):
    """The bytes of a file with other rows."""
    path = os.path.join(program.folder, "made")
    if os.path.exists(path):
        os.remove(path)
    with open(path, "wb") as file:
        file.write(data)
    connection = sqlite3.connect(path)
    connection.executescript(text)
    connection.close()
    with open(path, "rb") as file:
        return file.read()


def sweep_file(program, word, data, answer):
    """How many allocations of an audit or a migration were refused, after those that open the file, and one of these."""
    run = OnFile(program, word, data)
    if run.whole != (answer, 0):
        sys.exit(f"{word} of a file: {run.whole}, with memory")
    # a file of an unknown version is refused as soon as it is opened
    unknown = OnFile(program, "migrate", executed(program, data, "UPDATE meta SET version = 9"))
    first = unknown.allocations() - REFUSING
    if first <= OPENING:
        sys.exit(f"{word} of a file: it is opened by fewer allocations than {OPENING + REFUSING}")
    refused = OPENING
    while True:
        stdout, status, stderr, was_refused = run.run(refused)
        if not was_refused:
            break
        if not run.is_right(stdout, status, stderr):
            sys.exit(f"{word} of a file: allocation {refused}: status {status}, {stdout!r}, {stderr[:200]!r}")
        refused = refused + 1 if refused >= first else first
    if refused <= first + REFUSING:
        sys.exit(f"{word} of a file: no allocation behind its opening was refused")
    return refused - first + 1


def sweep_files(program):
    """How many allocations of each run over a file that is audited or migrated were refused."""
    with open(os.path.join(program.folder, "office"), "rb") as file:
        yield sweep_file(program, "audit", file.read(), b"sound\n")
    with open(os.path.join(HERE, OLDER), encoding="utf-8") as file:
        older = executed(program, b"", file.read())
    yield sweep_file(program, "migrate", older, b"migrated 1 to 3\n")


def texts(program):
    """The words of each text of the first release, which is made in a file, and of a release with a waiver."""
    with open(os.path.join(HERE, "../../examples/first-release/script.jsonl"), "rb") as file:
        program.run(["script", "--db", "office"], file.read())
    requests = dialogue.read(os.path.join(CASES, OVER_A_FILE[1]))[0]
    program.run(["script", "--db", "waivers"], requests.partition(b'{"do":"withdraw"')[0])
    for office, asked in (("office", TEXTS), ("waivers", OF_WAIVERS)):
        for word, *of in asked:
            yield [word, "--db", office, *of]


def words_of(path):
    """The words of a file, one a line."""
    with open(path, "rb") as file:
        words = file.read().decode().split("\n")
    return words[:-1] if words[-1] == "" else words


def is_of_tree(path):
    """Whether a script ends with one run of `gather` or `lint`, and doesn't run the program anywhere else."""
    with open(path, encoding="utf-8") as file:
        text = file.read()
    return text.count("$1") == 1 and re.search(r'^exec "\$1" (gather|lint) [^|<>;&]*\n\Z', text, re.M) is not None


def cases():
    """The name, the words, the standard input, the files and the script that makes some, if any, of each case that is swept."""
    for name in sorted(os.listdir(CASES)):
        path = os.path.join(CASES, name)
        if name.endswith(".dialogue"):
            requests = dialogue.read(path)[0]
            if len(requests) <= BYTES:
                yield name, ["script"], requests, None, None
            if name in OVER_A_FILE:
                yield name + " over a file", ["script", "--db", "desk.db"], requests, None, None
            continue
        listed, script = os.path.join(path, "args"), os.path.join(path, "run")
        data = os.path.join(path, "data") if os.path.isdir(os.path.join(path, "data")) else None
        words = words_of(listed) if os.path.isfile(listed) and os.path.getsize(listed) <= BYTES else []
        if words[:1] in (["check"], ["alternatives"]):
            yield name, words, b"", None, None
        elif words[:1] in (["propose"], ["gather"], ["lint"]) and "--db" not in words:
            yield name, words, b"", data, None
        elif os.path.isfile(script) and is_of_tree(script):
            yield name, [], b"", data, script
    for name in sorted(os.listdir(CONVERTED)):
        if name.endswith(".json") and os.path.getsize(os.path.join(CONVERTED, name)) <= BYTES:
            yield name, ["convert", name], b"", CONVERTED, None


def main():
    with tempfile.TemporaryDirectory(dir=SHARED if os.path.isdir(SHARED) else None) as room:
        library = os.path.join(room, "refuse.so")
        subprocess.run(["cc", "-O2", "-shared", "-fPIC", "-o", library, os.path.join(HERE, "refuse.c"), "-ldl"], check=True)
        program = Program(os.path.abspath(sys.argv[1]), library, room)
        swept, runs = 0, 0
        for name, words, text, data, script in cases():
            words = program.stand_in(data, script) or words
            if program.files() > FILES:
                continue
            swept, runs = swept + 1, runs + sweep_case(program, name, words, text)
        program.stand_in(CONVERTED, None)
        swept, runs = swept + 1, runs + sweep_import(program, ["import", "--db", "desk.db", IMPORTED])
        program.stand_in(None, None)
        for words in texts(program):
            swept, runs = swept + 1, runs + sweep_on_file(program, words[0], words, b"", first_of_texts(program, words))
        for count in sweep_files(program):
            swept, runs = swept + 1, runs + count
        for name, before, rows in (("connections", [], serving.RELEASE), ("connections of a withdrawal", serving.FROZEN, serving.MOVED)):
            swept, runs = swept + 1, runs + sweep_connections(program, name, before, rows)
        if swept == 0 or runs == 0:
            sys.exit("nothing was swept")
        print(f"{swept} runs of the program, each of their {runs} allocations refused in turn: passed")


if __name__ == "__main__":
    main()
