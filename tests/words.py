"""Gives the requests of dialogues in words, one run each: python3 tests/words.py PROGRAM

The requests of the pages, of the examples and of short dialogues go to `do` or `ask` on one file, each as its word and KEY=VALUE for each
other key. Each reply must be the line of the dialogue, with the status that follows from it: 0, or 1 for a refusal. A request that can't be
given in words (a text with a NUL, a list whose texts have commas, a value of another kind) goes to `script`. Requests that
docs/REQUESTS.md shows in words are run. Words that aren't a request are a usage error, and leave the file unchanged. Today's day is
compared with Python's clock in the same zones. Ends with the line 'N passed, M failed'.
"""

import datetime
import glob
import hashlib
import json
import os
import re
import shlex
import struct
import subprocess
import sys
import tempfile

HERE = os.path.dirname(os.path.abspath(__file__))
CASES = os.path.join(HERE, "acceptance")
sys.path[:0] = [CASES, HERE]
sys.dont_write_bytecode = True

import dialogue
from database import lines

DIALOGUES = ("../docs/*.md", "acceptance/*.dialogue")
# The most requests of a dialogue that is given in words, and the most bytes of each.
REQUESTS, BYTES = 50, 60_000
SECONDS = 60
NO_REQUEST = b'{"fault":"command"}\n'
ROOM = "/dev/shm" if os.path.isdir("/dev/shm") else None
PAGE = os.path.join(HERE, "../docs/REQUESTS.md")
# Zones by rules of POSIX and how far each is before UTC, in hours. The day in the last is always another one than in the first.
ZONES = {"EAST-14": 14, "UTC0": 0, "WEST+12": -12}
FIRST = [b'{"do":"catalogue","text":"forms = [\\"binary\\"]"}', b'{"do":"open","form":"binary","release":"r1"}']
# Words that spell no request, and the words of the error.
SLIPS = [
    (["do", "met", "duty=1"], 'the command "met" is not known; the commands are catalogue, import, open, attach, choose, freeze, unchoose, conclude, '
     "adopt, meet, waive, reopen, withdraw, close"),
    (["ask", "close"], 'the question "close" is not known; the questions are duties, totals, changes, findings, release, alternatives, cheapest, '
     "releases, documents, open, wanting, ready, gaps"),
    (["do", "meet", "duty=1", "day=2025-03-04"], "the key text is missing; meet has the keys duty, day, text"),
    (["do", "meet", "duty=1", "day=2025-03-04", "text=x", "until=2025-03-05"], 'the key "until" is not known here; meet has the keys duty, day, text'),
    (["do", "waive", "duty=1", "day=2025-03-04", "text=x", "untill=2025-03-05"],
     'the key "untill" is not known here; waive has the keys duty, day, text, [until]'),
    (["do", "meet", "duty=one", "day=2025-03-04", "text=x"], "the value of duty is not a whole number; meet has the keys duty, day, text"),
    (["do", "meet", "duty=9223372036854775808", "day=2025-03-04", "text=x"], "the value of duty is not a whole number; meet has the keys duty, day, text"),
    (["do", "import", "text=x", "profile=3"], "the value of profile is not 1 or 2; import has the keys text, [profile]"),
    (["do", "meet", "duty"], '"duty" is not KEY=VALUE; meet has the keys duty, day, text'),
    (["do", "meet", "duty=1", "day=2025-03-04", "duty=2", "text=x"], 'the key of "duty=2" appears twice; meet has the keys duty, day, text'),
    (["do", "close", "do=open"], 'the key of "do=open" appears twice; close has the keys day'),
    (["do", "close", "ask=open", "day=2025-03-04"], 'the key "ask" is not known here; close has the keys day'),
    (["ask", "releases", "release=r1"], 'the key "release" is not known here; releases has no keys'),
    (["ask", "totals", "=r1"], 'the key "" is not known here; totals has the keys release'),
]


class Words:
    def __init__(self, program, room):
        self.program, self.room = os.path.abspath(program), room
        self.file = os.path.join(room, "desk.db")
        self.passed, self.failed = 0, 0
        # The requests that a dialogue had, by their verb and word.
        self.given = set()

    def run(self, words, text=b"", zone=None):
        paths = os.environ if zone is None else {**os.environ, "TZ": zone}
        given = [self.program, words[0], "--db", self.file, *words[1:]]
        done = subprocess.run(given, input=text, capture_output=True, timeout=SECONDS, check=False, cwd=self.room, env=paths)
        return done.stdout, done.stderr, done.returncode

    def sum(self):
        try:
            with open(self.file, "rb") as file:
                return hashlib.sha256(file.read()).hexdigest()
        except FileNotFoundError:
            return None

    def clear(self):
        for path in (self.file, self.file + "-wal"):
            if os.path.exists(path):
                os.remove(path)

    def see(self, what, found, wanted):
        """Counts a comparison, and prints one that fails."""
        if found == wanted:
            self.passed += 1
        else:
            self.failed += 1
            print(f"{what}: {found!r} instead of {wanted!r}", flush=True)

    def told(self, name, requests, replies):
        """Gives the requests of a dialogue, and compares each reply."""
        self.clear()
        # (a question makes no file)
        self.run(["script"])
        of_page = dict(words_of_page()) if name == os.path.basename(PAGE) else {}
        for request, reply in zip(requests, replies):
            words = words_of(request)
            if words and tuple(sorted(words)) in of_page:
                self.given.add((words[0], words[1]))
                self.see(f"{name}: {words}", self.run(of_page.pop(tuple(sorted(words)))), (reply, b"", 0))
                continue
            if words is None:
                self.see(name, self.run(["script"], request)[0], reply)
                continue
            found = self.run(words)
            if reply == NO_REQUEST:
                self.see(f"{name}: {words}", (found[0], found[1].startswith(b"error: "), found[2]), (b"", True, 2))
                continue
            self.given.add((words[0], words[1]))
            status = 1 if b'"refused":' in reply and not reply.startswith(b'{"rows":') else 0
            self.see(f"{name}: {words}", found, (reply, b"", status))
        self.see(f"{name}: words that are no request of it", list(of_page), [])

    def slips(self):
        """Words that spell no request change nothing."""
        self.clear()
        for words, why in SLIPS:
            self.see(words, self.run(words), (b"", f"error: {why}\n".encode(), 2))
        self.see("no file is made", self.sum(), None)
        for line in FIRST:
            self.run(["script"], line)
        before = self.sum()
        for words, why in SLIPS:
            self.see(words, self.run(words), (b"", f"error: {why}\n".encode(), 2))
        self.see("the file is as it was", self.sum(), before)

    def page(self):
        """docs/REQUESTS.md shows each request in words, by the heading of its section."""
        shown = {words[0] + " " + words[1] for words in lines_of_page()}
        known = {f"{verb} {word}" for verb, word in headings()}
        self.see("requests in words", sorted(shown), sorted(known))
        self.clear()
        with open(PAGE, encoding="utf-8") as file:
            texts = dict(re.findall(r'^> \{"do":"(catalogue|import)","text":("(?:[^"\\]|\\.)*")\}$', file.read(), flags=re.M)[:2])
        for words in lines_of_page():
            if "text=@" not in " ".join(words):
                continue
            path = next(word.partition("=@")[2] for word in words if word.startswith("text=@"))
            with open(os.path.join(self.room, path), "w", encoding="utf-8", newline="") as file:
                file.write(json.loads(texts[words[1]]))
            found, _, status = self.run(words)
            wanted = b'{"revision":1}\n' if words[1] == "catalogue" else b'{"document":1,"new":true}\n'
            self.see(words, (found, status), (wanted, 0))

    def today(self):
        """day=today and until=today are the day of the clock in the zone that TZ names, by a rule, a file or a name."""
        self.clear()
        with open(os.path.join(self.room, "zone"), "wb") as file:
            file.write(zone_file(-11 * 3600))
        zones = {**ZONES, f":{self.room}/zone": -11, f"{self.room}/zone": -11, "": 0, "Nowhere/Known": 0}
        for zone, hours in zones.items():
            self.today_in(zone, lambda: day_before_utc(hours))
        for name in ("Pacific/Kiritimati", "America/New_York"):
            if os.path.exists(f"/usr/share/zoneinfo/{name}"):
                self.today_in(name, lambda name=name: day_in(name))
        day = day_before_utc(0)
        for words, told in (
            (["do", "withdraw", "release=r0", "day=today", "text=today"], "UnknownRelease"),
            (["do", "withdraw", "release=r0", "day=todays", "text=x"], "BadDay"),
            (["do", "waive", "duty=1", "day=2025-01-01", "text=x", "until=today"], "UnknownDuty"),
            (["do", "waive", "duty=1", "day=today", "text=x", "until=2025-01-01"], "BadEnd"),
        ):
            found, why, status = self.run(words, zone="UTC0")
            is_told = "day=today" in words or "until=today" in words
            days = [f"desk: today is {then}\n".encode() for then in (day, day_before_utc(0))] if is_told else [b""]
            self.see(words, (json.loads(found)["name"], why in days, status), (told, True, 1))
        self.see("day=today twice", self.run(["do", "close", "day=today", "day=today"], zone="UTC0")[2], 2)
        self.see("today in a text", self.run(["do", "meet", "duty=1", "day=2025-01-01", "text=day=today"])[1], b"")

    def today_in(self, zone, day_now):
        """The day that the program takes for today in a zone is the one of this clock before or after it ran."""
        before = day_now()
        found, why, status = self.run(["do", "close", "day=today"], zone=zone)
        days = [f"desk: today is {day}\n".encode() for day in (before, day_now())]
        self.see(f"today in {zone!r}", (found, why in days, why if why not in days else b"", status), (b'{"closed":0}\n', True, b"", 0))

    def help(self):
        """The help has each word, with its keys."""
        for verb, word in (("do", "commands"), ("ask", "questions")):
            told = subprocess.run([self.program, verb, "--help"], capture_output=True, check=True).stdout.decode()
            shown = dict(rows_of(told))
            why = self.run([verb, "=", "="])[1].decode()
            self.see(f"the {word} of the help", f'error: the {word[:-1]} "=" is not known; the {word} are {", ".join(shown)}\n', why)
            for name, keys in shown.items():
                usage = f"{name} has the keys {', '.join(keys)}" if keys else f"{name} has no keys"
                self.see(f"the keys of {name}", self.run([verb, name, "="])[1], f'error: the key "" is not known here; {usage}\n'.encode())
                self.keys(verb, name, keys, usage)

    def keys(self, verb, word, keys, usage):
        """Each key twice, and each required one left out."""
        for key in keys:
            name = key.strip("[]")
            twice = [verb, word, f"{name}=1", f"{name}=2"]
            self.see(twice, self.run(twice), (b"", f'error: the key of "{name}=2" appears twice; {usage}\n'.encode(), 2))
            if key == name:
                without = [verb, word, *(f"{other}=1" for other in keys if "[" not in other and other != key)]
                self.see(without, self.run(without), (b"", f"error: the key {name} is missing; {usage}\n".encode(), 2))

    def files(self):
        """The text of a catalogue and of a document may be in a file, as bytes."""
        self.clear()
        paths = {name: os.path.join(self.room, name) for name in ("c.toml", "latin.toml", "d.spdx", "latin.spdx")}
        top = os.path.join(HERE, "../examples/first-release")
        for name, source, tail in (("c.toml", "catalogue.toml", b""), ("latin.toml", "catalogue.toml", b"# \xe9\n"),
                                   ("d.spdx", "document.spdx", b""), ("latin.spdx", "document.spdx", b"\xe9\n")):
            with open(os.path.join(top, source), "rb") as given, open(paths[name], "wb") as file:
                file.write(given.read() + tail)
        for words, wanted in (
            (["do", "catalogue", "text=@" + paths["c.toml"]], (b'{"revision":1}\n', 0)),
            (["do", "catalogue", "text=@" + paths["latin.toml"]], (b'{"at":[1],"name":"BadCatalogue","refused":1}\n', 1)),
            (["do", "import", "text=@" + paths["d.spdx"]], (b'{"document":1,"new":true}\n', 0)),
            (["do", "import", "profile=2", "text=@" + paths["d.spdx"]], (b'{"document":1,"new":false}\n', 0)),
            (["do", "import", "text=@" + paths["latin.spdx"]], (b'{"at":[1,0],"name":"BadDocument","refused":2}\n', 1)),
            (["do", "import", "text=@" + os.path.join(self.room, "none")], (b"", 3)),
        ):
            out, _, status = self.run(words)
            self.see(words, (out, status), wanted)

    def usual(self):
        """Values are used as they are: with =, commas, blanks, and the sign of a file."""
        self.clear()
        self.run(["script"], b"\n".join(FIRST))
        for body in ("a=b", "a,b", " a ", "@a", "ä", "=", "{}"):
            self.see(body, self.run(["do", "withdraw", "release=r0", "day=2025-03-04", "text=" + body]),
                     (b'{"at":[],"name":"UnknownRelease","refused":12}\n', b"", 1))
        self.see("a plus", self.run(["ask", "findings", "document=+1"]), (b'{"at":[],"name":"UnknownDocument","refused":4}\n', b"", 1))
        for words, wanted in (
            (["conclude", "document=1", "package=SPDXRef-p", "expression=MIT OR Zlib"], b'{"at":[],"name":"UnknownDocument","refused":4}\n'),
            (["choose", "release=r0", "document=1", "package=SPDXRef-p", "terms=GPL-2.0-only WITH Classpath-exception-2.0,MIT"],
             b'{"at":[],"name":"UnknownRelease","refused":12}\n'),
            (["choose", "release=r0", "document=1", "package=SPDXRef-p", "terms=MIT,,Zlib"], b'{"at":[1],"name":"BadTerm","refused":8}\n'),
            (["open", "release=a b", "form=binary"], b'{"at":[],"name":"BadName","refused":9}\n'),
            (["open", "release=a=b", "form=binary"], b'{"at":[],"name":"BadName","refused":9}\n'),
        ):
            self.see(words, self.run(["do", *words]), (wanted, b"", 1))
        for words in ([b"close", b"day=\xff"], [b"close", b"\xff=2025-03-04"], [b"\xff", b"day=2025-03-04"]):
            done = subprocess.run([self.program, "do", "--db", self.file, *words], capture_output=True, check=False)
            self.see(words, (done.stdout, done.stderr, done.returncode), (b"", b"error: a word of the command line is not UTF-8\n", 2))


def day_before_utc(hours):
    return (datetime.datetime.now(datetime.timezone.utc) + datetime.timedelta(hours=hours)).date().isoformat()


def day_in(name):
    import zoneinfo

    return datetime.datetime.now(zoneinfo.ZoneInfo(name)).date().isoformat()


def zone_file(offset):
    """A TZif file of version 2 with one offset at all times (RFC 8536)."""
    kind = struct.pack(">iBB", offset, 0, 0) + b"XXX\0"
    head = lambda: b"TZif2" + bytes(15) + struct.pack(">6I", 0, 0, 0, 0, 1, 4)
    return head() + kind + head() + kind + f"\nXXX{-offset // 3600}\n".encode()


def headings():
    """The requests that have a section of docs/REQUESTS.md: the verb and the word of each."""
    with open(PAGE, encoding="utf-8") as file:
        text = file.read()
    for verb, part in (("do", "Commands"), ("ask", "Questions")):
        body = re.split(r"^## ", text.split(f"\n## {part}\n", 1)[1], maxsplit=1, flags=re.M)[0]
        yield from ((verb, word) for word in re.findall(r"^### (\w+): ", body, flags=re.M))


def lines_of_page():
    """The requests in words that the sections of docs/REQUESTS.md show, without the program and the file."""
    with open(PAGE, encoding="utf-8") as file:
        text = file.read().split("\n## Commands\n", 1)[1]
    for line in re.findall(r"^desk ((?:do|ask) --db desk\.db .*)$", text, flags=re.M):
        verb, _, _, *words = shlex.split(line)
        yield [verb, *words]


def words_of_page():
    """Each of them with its words in order, except those whose text is in a file."""
    for words in lines_of_page():
        if "text=@" not in " ".join(words):
            yield tuple(sorted(words)), words


def rows_of(text):
    """The words that the help of `do` or `ask` lists, each with its keys."""
    for line in text.split("Usage:")[0].split("\n"):
        if line.startswith("  ") and not line.startswith("   "):
            first, *rest = re.split("  +", line.strip())
            names = first.split(", ")
            yield from ((name, rest[0].split() if len(names) == 1 else []) for name in names)


def words_of(line):
    """A request in words, if it has some."""
    try:
        request = json.loads(line, object_pairs_hook=list)
        names = [name for name, _ in request]
        verbs = [name for name in ("do", "ask") if name in names]
        if len(verbs) != 1 or len(set(names)) != len(names):
            return None
        members = dict(request)
        verb = verbs[0]
        word = members.pop(verb)
        words = [verb, word, *(f"{name}={value_of(name, value)}" for name, value in members.items())]
        for given in words:
            given.encode()
    except (ValueError, TypeError, AttributeError):
        return None
    return words if word and not word.startswith("-") and not any("\0" in given or "=@" in given for given in words) else None


def value_of(name, value):
    """The value of a key as one word."""
    if name in ("document", "duty", "profile"):
        if isinstance(value, int) and not isinstance(value, bool) and 0 <= value < 2 ** 63:
            return str(value)
    elif name == "terms":
        if isinstance(value, list) and value and all(isinstance(text, str) and "," not in text for text in value):
            return ",".join(value)
    elif isinstance(value, str):
        return value
    raise ValueError(name)


def dialogues():
    """The name, the requests and the replies of each dialogue that is given in words."""
    for path in sorted(path for pattern in DIALOGUES for path in glob.glob(os.path.join(HERE, pattern))):
        requests, replies, _ = dialogue.read(path)
        given, told = [line for line in lines(requests) if line.strip()], lines(replies)
        if len(given) == len(told) <= REQUESTS and all(len(line) < BYTES for line in given):
            yield os.path.basename(path), given, told


def main():
    (program,) = sys.argv[1:]
    with tempfile.TemporaryDirectory(dir=ROOM) as room:
        words = Words(program, room)
        words.slips()
        words.help()
        words.files()
        words.usual()
        words.page()
        words.today()
        for name, requests, replies in dialogues():
            words.told(name, requests, replies)
        words.see("requests in dialogues", sorted(words.given), sorted(headings()))
    print(f"{words.passed} passed, {words.failed} failed")
    return 1 if words.failed else 0


if __name__ == "__main__":
    sys.exit(main())
