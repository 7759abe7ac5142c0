"""Times the texts that a desk writes: python3 bench/reports.py PROGRAM

The notices of a release of 10,000 packages in 64 documents, whose catalogue has 4 MiB of licence texts, and which has extracted texts too;
and those of a release with a tenth of all that. Then the table of 100,000 duties, compared with Python's csv writer on the same rows. Each is
timed in a separate process over a file in shared memory; that less the time of a process that asks the same file for hardly anything,
which is what opening takes; and over HTTP from a desk that is already open. Of the same duties also the lists of duties, of releases and
of documents, and the page of the release, each in a separate process. Each time is processor time, the least of several runs.
"""

import csv
import io
import os
import subprocess
import sys
import tempfile
import time

HERE = os.path.dirname(os.path.abspath(__file__))
sys.path.insert(0, HERE)
sys.dont_write_bytecode = True

import rows
import serving
import store

MEMORY = "/dev/shm"
RUNS = 7
# So many credits a file has.
FILLS = (1_000, 10_000)
DOCUMENTS = 64
REFERENCES = 4
PACKAGES = 10_000
LICENCES = 399
TEXT_BYTES = 10_300
EXTRACTED_BYTES = 4_000
DUTIES = 100_000
# At this interval the conclusion of a package is a reference of the document.
REFERRING = 10


def body(name, size):
    """A text of about this many bytes, in lines."""
    line = f"{name} is granted to whoever ships this text with each copy of the work.\n"
    return line * (size // len(line))


def licence(package, licences):
    """What a package's conclusion is."""
    return f"LicenseRef-{package // REFERRING % REFERENCES}" if package % REFERRING == 0 else f"Licence-{package % licences}"


def catalogue(licences):
    parts = ['forms = ["binary"]\n[[duty]]\ncode = "include-text"\ntitle = "Ship the licence text"\n']
    for n in range(licences):
        parts.append(f'[[rule]]\nterm = "Licence-{n}"\nform = "binary"\nduties = ["include-text"]\n')
        parts.append(f'[[text]]\nlicence = "Licence-{n}"\nbody = """\n{body(f"Licence-{n}", TEXT_BYTES)}"""\n')
    return "".join(parts)


def document(number, packages, licences):
    """A document with the packages of these numbers."""
    parts = [
        f"SPDXVersion: SPDX-2.3\nDataLicense: CC0-1.0\nSPDXID: SPDXRef-DOCUMENT\nDocumentName: d{number}\n"
        f"DocumentNamespace: https://example.org/d{number}\nCreator: Tool: bench\nCreated: 2025-01-01T00:00:00Z\n"
    ]
    parts += [
        f"PackageName: package-{n}\nSPDXID: SPDXRef-p{n:05}\nPackageVersion: 1.{n}\nPackageDownloadLocation: NOASSERTION\n"
        f"FilesAnalyzed: false\nPackageLicenseConcluded: {licence(n, licences)}\nPackageCopyrightText: Copyright 2025 The authors of {n}\n"
        for n in packages
    ]
    parts += [
        f"LicenseID: LicenseRef-{n}\nExtractedText: <text>{body(f'LicenseRef-{n} of {number}', EXTRACTED_BYTES)}</text>\nLicenseName: NOASSERTION\n"
        for n in range(REFERENCES)
    ]
    return "".join(parts)


class Release:
    """A release, its requests, and the notices that it has."""

    def __init__(self, parts):
        self.packages, self.licences = PACKAGES // parts, LICENCES // parts
        documents = DOCUMENTS // parts or 1
        self.within = {number: range(number - 1, self.packages, documents) for number in range(1, documents + 1)}

    def steps(self):
        line = rows.line
        numbers = [(number, n) for number, packages in self.within.items() for n in packages]
        return [
            ("catalogue", [line(do="catalogue", text=catalogue(self.licences))]),
            ("import", [line(do="import", text=document(number, packages, self.licences)) for number, packages in self.within.items()]),
            ("adopt", [line(do="adopt", document=number, reference=f"LicenseRef-{n}", licence="Licence-0")
                       for number in self.within for n in range(REFERENCES)]),
            ("open", [line(do="open", release=name, form="binary") for name in ("r", "none")]),
            ("attach", [line(do="attach", release="r", document=number) for number in self.within]),
            ("choose", [line(do="choose", release="r", document=number, package=f"SPDXRef-p{n:05}", terms=[licence(n, self.licences)])
                        for number, n in numbers]),
            ("freeze", [line(do="freeze", release="r", day="2025-03-03")]),
        ]

    def notices(self):
        parts, texts = ["Notices for r (binary)\n"], {}
        for number, packages in self.within.items():
            for n in packages:
                term = licence(n, self.licences)
                is_reference = term.startswith("LicenseRef-")
                rule = "Licence-0" if is_reference else term
                parts.append(f"\npackage-{n} 1.{n}\nLicence: {rule}\nCopyright: Copyright 2025 The authors of {n}\n")
                if is_reference:
                    texts[number, term] = body(f"{term} of {number}", EXTRACTED_BYTES)
                else:
                    texts[term] = body(term, TEXT_BYTES)
        parts += [f"\n---- {key if isinstance(key, str) else key[1]} ----\n{text}" for key, text in texts.items()]
        return "".join(parts).encode()


def filled(program, path, steps):
    """A file whose desk was sent these requests, and none after a freeze."""
    desk = store.Desk(program, path)
    for name, requests in steps:
        desk.step(name, requests)
        if name == "freeze":
            break
    desk.end()


def ran(program, word, path, of, *more):
    """The seconds of a whole process, and what it wrote into a file."""
    with open(path + ".txt", "w+b") as out:
        process = subprocess.Popen([program, word, "--db", path, of, *more], stdout=out)
        _, process.returncode, used = os.wait4(process.pid, 0)
        if process.returncode != 0:
            sys.exit(f"{word}: status {process.returncode}")
        out.seek(0)
        return used.ru_utime + used.ru_stime, out.read()


def asked(server, path):
    """The seconds of a question over HTTP, and the body of the reply."""
    begun = serving.on_processor(server.process)
    reply = server.raw(serving.get(path))
    # (so that the desk waits for the next one)
    time.sleep(0.01)
    return serving.on_processor(server.process) - begun, reply.partition(b"\r\n\r\n")[2]


def by_csv(table):
    """The seconds of the rows of a table by Python's writer, and what it wrote."""
    told = io.StringIO()
    begun = time.process_time()
    csv.writer(told, lineterminator="\n").writerows(table)
    text = told.getvalue().encode()
    return time.process_time() - begun, text


def least(text, *measures):
    """The least seconds of each measure, each of which must give this text, unless that is None."""
    found = [[] for _ in measures]
    for _ in range(RUNS):
        for seconds, (measure, is_whole) in zip(found, measures):
            spent, told = measure()
            if is_whole and told != text:
                sys.exit(f"another text: {told[:200]!r}")
            seconds.append(spent)
    return [min(seconds) for seconds in found]


def row(name, size, seconds):
    print(f"  {name:44} {1000 * seconds:9.1f} ms {size / seconds / 1e6:9.0f} MB/s")


def measured(program, path, word, text, route, *others):
    """Prints how fast a text is written, and returns the seconds over HTTP and the least of each of the others, measured alternately."""
    server = serving.desk(program, path + ".open", RUNS)
    whole, opening, over_http, *rest = least(
        text,
        (lambda: ran(program, word, path, "r"), True),
        (lambda: ran(program, "totals", path, "none"), False),
        (lambda: asked(server, route), True),
        *others,
    )
    server.end()
    row("a process of its own", len(text), whole)
    print(f"  {'one that only opens the file':44} {1000 * opening:9.1f} ms")
    row("what is left without opening", len(text), whole - opening)
    row("over HTTP, from an open desk", len(text), over_http)
    return over_http, rest


def copied(path):
    """Makes a copy of the file, since only one program at a time can use a file."""
    with open(path, "rb") as kept, open(path + ".open", "wb") as other:
        other.write(kept.read())


def fill_of(count):
    """A file of credits, none of which fits."""
    return "".join(f'[[credit]]\npackage = "other-{n}"\nversion = "1.{n}"\ntext = "Copyright 2025 The authors of {n}"\n' for n in range(count)).encode()


def fills(program, room, path, text):
    """Prints what files of credits add to the notices, which they leave as they are."""
    spent = []
    for count in FILLS:
        extra = os.path.join(room, f"fill-{count}.toml")
        with open(extra, "wb") as out:
            out.write(fill_of(count))
        plain, filled = least(text, (lambda: ran(program, "notices", path, "r"), True), (lambda: ran(program, "notices", path, "r", "--fill", extra), True))
        print(f"  {f'with a file of {count:,} credits':44} {1000 * filled:9.1f} ms, {1000 * (filled - plain):.1f} ms of it for the file")
        spent.append(max(filled - plain, 1e-6))
    print(f"  {FILLS[-1] / FILLS[0]:.1f} times the credits take {spent[-1] / spent[0]:.1f} times the time")


def notices(program, room):
    spent = []
    for parts in (10, 1):
        release = Release(parts)
        path = os.path.join(room, f"notices-{parts}.db")
        filled(program, path, release.steps())
        copied(path)
        text = release.notices()
        print(f"notices of {release.packages:,} packages in {len(release.within)} documents: {len(text):,} bytes")
        seconds, _ = measured(program, path, "notices", text, b"/releases/r/notices")
        if parts == 10:
            fills(program, room, path, text)
        spent.append((len(text), seconds))
    (few, short), (many, long) = spent
    print(f"  {many / few:.1f} times the bytes take {long / short:.1f} times the time")


def duties(program, room):
    path = os.path.join(room, "duties.db")
    steps = rows.duties(DUTIES)
    filled(program, path, steps)
    filled(program, path, [("open", [rows.line(do="open", release="none", form="binary")])])
    copied(path)
    _, text = ran(program, "duties", path, "r")
    table = list(csv.reader(io.StringIO(text.decode())))
    if len(table) != DUTIES + 1:
        sys.exit(f"{len(table)} lines")
    print(f"the table of {DUTIES:,} duties: {len(text):,} bytes")
    _, (by_python,) = measured(program, path, "duties", text, b"/releases/r/duties.csv", (lambda: by_csv(table), True))
    row("Python's csv writer on the same rows", len(text), by_python)
    return path


def views(program, path):
    """The lists and the page of the desk with these duties."""
    for word, of in (("list", "duties"), ("list", "releases"), ("list", "documents"), ("page", "r")):
        _, text = ran(program, word, path, of)
        whole, opening = least(text, (lambda: ran(program, word, path, of), True), (lambda: ran(program, "totals", path, "none"), False))
        print(f"{word} of {of}: {len(text):,} bytes")
        row("a process of its own", len(text), whole)
        row("what is left without opening", len(text), whole - opening)


def main():
    program = os.path.abspath(sys.argv[1])
    with tempfile.TemporaryDirectory(dir=MEMORY) as room:
        notices(program, room)
        views(program, duties(program, room))


if __name__ == "__main__":
    main()
