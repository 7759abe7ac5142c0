#!/usr/bin/env python3
"""Inputs that would take gigabytes, with bounded memory: python3 tests/hostile/bounded.py PROGRAM

The kit's TOML reader takes up to 580 times the bytes of a text (docs/HOSTILE.md). Those who read files from strangers limit what a process
may take, for example by `ulimit -v`. Here that limit is 400 MB: for each such input the answer is that no memory is left, what existed
before is unchanged, and the next request is answered. A report on a tree that is larger than the limit, since a long path is in each of its
lines, is written fully."""

import http.client
import os
import resource
import subprocess
import sys
import tempfile

sys.path.insert(0, os.path.dirname(os.path.abspath(__file__)))
sys.dont_write_bytecode = True

from slow_inputs import DEEP, HEAD, NAMING, licensing, line, nested_headers, write

BOUND, SECONDS = 400_000_000, 60
# How near the least bound is found, and how much more than in proportion is allowed.
NEAR, SLACK = 1 << 17, 1.25
# What can't be written has ended within these seconds.
AT_ONCE = 10
FEWEST, FEW, MANY = 50, 100, 400
SMALL = 'forms = ["binary"]\n'
NO_MEMORY = '{"fault":"memory"}'


def bounded():
    resource.setrlimit(resource.RLIMIT_AS, (BOUND, BOUND))


def length_of(stream):
    """How many bytes a stream has, without keeping them."""
    return sum(len(piece) for piece in iter(lambda: stream.read(1 << 20), b""))


class Bounded:
    """The program under that bound, in its own folder."""

    def __init__(self, program, room):
        self.program, self.room = os.path.abspath(program), room

    def run(self, *words, text=""):
        return subprocess.run([self.program, *words], cwd=self.room, input=text, text=True, capture_output=True, preexec_fn=bounded,
                              timeout=SECONDS, check=False)

    def measure(self, *words):
        """How many bytes it writes, and how it ends."""
        process = subprocess.Popen([self.program, *words], cwd=self.room, stdout=subprocess.PIPE, preexec_fn=bounded)
        return length_of(process.stdout), process.wait(timeout=SECONDS)

    def is_whole(self, bound, words, whole):
        """Whether it writes this text if it may take this much memory."""
        limit = lambda: resource.setrlimit(resource.RLIMIT_AS, (bound, bound))
        done = subprocess.run([self.program, *words], cwd=self.room, capture_output=True, preexec_fn=limit, timeout=SECONDS, check=False)
        return (done.stdout, done.returncode) == (whole, 0)

    def least(self, words, whole):
        """The least bound, or a little more, under which it writes this text."""
        least, most = 0, BOUND
        while most - least > NEAR:
            middle = (least + most) // 2
            least, most = (least, middle) if self.is_whole(middle, words, whole) else (middle, most)
        return most

    def fails_at_once(self, words, out):
        """Whether it ends with status 3 if its output can't be written, and soon."""
        try:
            done = subprocess.run([self.program, *words], cwd=self.room, stdout=out, stderr=subprocess.PIPE, timeout=AT_ONCE, check=False)
        except subprocess.TimeoutExpired:
            return False
        return done.returncode == 3

    def serve(self, requests):
        """The statuses and the bodies of requests to a desk that is served, and how it ends."""
        words = [self.program, "serve", "--db", "served.db", "--port", "0", "--limit", str(len(requests))]
        process = subprocess.Popen(words, cwd=self.room, stdout=subprocess.PIPE, stderr=subprocess.PIPE, preexec_fn=bounded)
        port = int(process.stdout.readline().rpartition(b":")[2])
        replies = []
        for body in requests:
            connection = http.client.HTTPConnection("127.0.0.1", port, timeout=SECONDS)
            connection.request("POST", "/catalogue", body)
            reply = connection.getresponse()
            replies.append((reply.status, reply.read().decode()))
            connection.close()
        process.communicate(timeout=SECONDS)
        return replies, process.returncode


def scripts(desk):
    """A script continues after the fault, in memory and in a file."""
    requests = "".join(line(do="catalogue", text=text) for text in (SMALL, nested_headers(), SMALL + "# once more\n"))
    wanted = f'{{"revision":1}}\n{NO_MEMORY}\n{{"revision":2}}\n'
    for words in (["script"], ["script", "--db", "script.db"]):
        done = desk.run(*words, text=requests)
        yield " ".join(words), (done.stdout, done.returncode) == (wanted, 3)
    yield "audit of the file", desk.run("audit", "--db", "script.db").stdout == "sound\n"


def files(desk):
    """A catalogue that is too large for the bound leaves the file as it is."""
    for name, text in (("small.toml", SMALL), ("large.toml", nested_headers())):
        with open(os.path.join(desk.room, name), "w") as file:
            file.write(text)
    first = desk.run("catalogue", "--db", "kept.db", "small.toml")
    yield "a small catalogue", (first.stdout, first.returncode) == ('{"revision":1}\n', 0)
    second = desk.run("catalogue", "--db", "kept.db", "large.toml")
    yield "a large catalogue", NO_MEMORY in second.stdout + second.stderr and second.returncode == 3
    yield "audit behind it", desk.run("audit", "--db", "kept.db").stdout == "sound\n"


def connections(desk):
    replies, status = desk.serve([SMALL, nested_headers(), SMALL + "# once more\n"])
    wanted = [(200, '{"revision":1}'), (503, NO_MEMORY), (200, '{"revision":2}')]
    yield "serve", (replies, status) == (wanted, 0)


def trees(desk):
    """A tree whose REUSE.toml takes too much is reported neither as clean nor in part."""
    os.mkdir(os.path.join(desk.room, "tree"))
    with open(os.path.join(desk.room, "tree", "REUSE.toml"), "w") as file:
        file.write("version = 1\n" + nested_headers())
    with open(os.path.join(desk.room, "tree", "file"), "w") as file:
        file.write("x")
    for words in (["lint", "tree"], ["gather", "tree", *NAMING]):
        done = desk.run(*words)
        yield words[0], (done.stdout, done.returncode) == ("", 3) and "memory" in done.stderr


def reports(desk):
    """200,000 licences, each reported with the path of the file that has it."""
    ids = [f"l{n}" for n in range(200_000)]
    write(desk.room, "deep/REUSE.toml", "version = 1\n" + licensing("**", ids))
    write(desk.room, f"deep/{DEEP}/f", "x")
    told = [f"no text of {it}, which {DEEP}/f names: add it as LICENSES/{it}.txt" for it in sorted(ids)]
    bare = "no SPDX-FileCopyrightText (a notice without it doesn't count): state one in the file, beside it in FILE.license, or in REUSE.toml"
    summary = "problems: 200001, covered files: 1, Missing: 200000, Bare: 1\n"
    lines = sum(len(f"LICENSES/: {it}\n") for it in told) + len(f"{DEEP}/f: {bare}\n{summary}")
    yield "lint of long paths", desk.measure("lint", "deep") == (lines, 1)
    rows = [("Missing", it, "LICENSES/") for it in told] + [("Bare", bare, f"{DEEP}/f")]
    items = sum(len(f'{{"kind":"{kind}","line":null,"message":"{it}","path":"{path}"}},') for kind, it, path in rows) - 1
    yield "the same as JSON", desk.measure("lint", "deep", "--json") == (items + len('{"covered":1,"problems":[]}\n'), 1)


def many_packages(count):
    """A release of this many packages, each with its own text; and its notices."""
    text = "".join(f"A text of {place}.\n" for place in range(250))
    document = HEAD + "".join(
        f"PackageName: p{n}\nSPDXID: SPDXRef-{n:03}\nPackageLicenseConcluded: LicenseRef-{n}\nPackageCopyrightText: <text>(c) {n}</text>\n"
        f"LicenseID: LicenseRef-{n}\nExtractedText: <text>{n}\n{text}</text>\n" for n in range(count))
    requests = line(do="catalogue", text=SMALL + '[[rule]]\nterm = "MIT"\nform = "binary"\nduties = []\n') + line(do="import", text=document)
    requests += line(do="open", release="r1", form="binary") + line(do="attach", release="r1", document=1)
    for n in range(count):
        requests += line(do="adopt", document=1, reference=f"LicenseRef-{n}", licence="MIT")
        requests += line(do="choose", release="r1", document=1, package=f"SPDXRef-{n:03}", terms=[f"LicenseRef-{n}"])
    told = "Notices for r1 (binary)\n" + "".join(f"\np{n}\nLicence: MIT\nCopyright: (c) {n}\n" for n in range(count))
    return requests + line(do="freeze", release="r1", day="2025-03-03"), told + "".join(f"\n---- LicenseRef-{n} ----\n{n}\n{text}" for n in range(count))


def releases(desk):
    """Notices and pages of releases of more and more packages."""
    least = {}
    for count in (FEWEST, FEW, MANY):
        requests, notices = many_packages(count)
        yield f"a release of {count} packages", desk.run("script", "--db", f"{count}.db", text=requests).returncode == 0
        page = subprocess.run([desk.program, "page", "--db", f"{count}.db", "r1"], cwd=desk.room, capture_output=True, check=False).stdout
        yield f"a page of {count} packages", page.count(b"<article>") == count
        for word, whole in (("notices", notices.encode()), ("page", page)):
            words = [word, "--db", f"{count}.db", "r1"]
            if count < MANY:
                least[word, count] = desk.least(words, whole)
                continue
            each = (least[word, FEW] - least[word, FEWEST]) / (FEW - FEWEST)
            yield f"{word} of {count} packages", desk.is_whole(int(least[word, FEW] + SLACK * each * (MANY - FEW)), words, whole)


def outputs(desk):
    """A text that can't be written isn't tried again and again."""
    for words in (["notices", "r1"], ["page", "r1"], ["list", "documents"]):
        words = [words[0], "--db", f"{MANY}.db", *words[1:]]
        with open("/dev/full", "wb") as full:
            yield f"{words[0]} to a full device", desk.fails_at_once(words, full)
        ours, its = os.pipe()
        os.close(ours)
        yield f"{words[0]} to a pipe that nobody reads", desk.fails_at_once(words, its)
        os.close(its)


def main():
    passed, failed = 0, []
    with tempfile.TemporaryDirectory() as room:
        desk = Bounded(sys.argv[1], room)
        for cases in (scripts, files, connections, trees, reports, releases, outputs):
            for name, is_right in cases(desk):
                passed += is_right
                failed += [] if is_right else [name]
    print("".join(f"{name}: another answer\n" for name in failed), end="")
    print(f"{passed} passed, {len(failed)} failed")
    return bool(failed)


if __name__ == "__main__":
    sys.exit(main())
