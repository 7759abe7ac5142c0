"""Times `desk script` by the rows that a desk holds: python3 bench/rows.py PROGRAM

Three desks, each once with a tenth of the rows and once with all: one with 4,096 documents and as many releases, each attached, chosen
and frozen, with a conclusion and an adoption for each; one with a single release whose freeze raises 100,000 duties, each of which
is met, reopened and waived up to a day, after which all waivers end at once and the release is withdrawn; and one with a single release
that holds 100,000 choices, of which a thousand are dropped and made again. The requests of a step are sent together, and its time ends
with its last reply. Each time is the least of three runs.
"""

import json
import os
import random
import subprocess
import sys
import threading
import time

RUNS = 3
DUTIES_OF_A_PACKAGE = 10
PACKAGES_OF_A_DOCUMENT = 10_000
DROPPED = 1_000
UNDER_A_CHOICE = "conclude, Chosen"


def line(**request):
    return json.dumps(request, separators=(",", ":")) + "\n"


def catalogue(codes):
    parts = ['forms = ["binary"]\n']
    parts += [f'[[duty]]\ncode = "duty-{n}"\ntitle = "Duty {n}"\n' for n in range(codes)]
    listed = ", ".join(f'"duty-{n}"' for n in range(codes))
    parts.append(f'[[rule]]\nterm = "MIT"\nform = "binary"\nduties = [{listed}]\n')
    parts.append('[[text]]\nlicence = "MIT"\nbody = "MIT text"\n')
    return line(do="catalogue", text="".join(parts))


def document(number, packages):
    parts = [
        f"SPDXVersion: SPDX-2.3\nDataLicense: CC0-1.0\nSPDXID: SPDXRef-DOCUMENT\nDocumentName: d{number}\n"
        f"DocumentNamespace: https://example.org/d{number}\nCreator: Tool: bench\nCreated: 2025-01-01T00:00:00Z\n"
    ]
    parts += [
        f"PackageName: p{n}\nSPDXID: SPDXRef-p{n}\nPackageDownloadLocation: NOASSERTION\nFilesAnalyzed: false\n"
        "PackageLicenseConcluded: MIT\nPackageCopyrightText: NONE\n"
        for n in range(packages)
    ]
    return line(do="import", text="".join(parts))


def choose(release, number, package):
    return line(do="choose", release=release, document=number, package=f"SPDXRef-p{package}", terms=["MIT"])


def unchoose(release, number, package):
    return line(do="unchoose", release=release, document=number, package=f"SPDXRef-p{package}")


def releases(count):
    """Documents and releases, one document attached to each."""
    each = range(1, count + 1)
    return [
        ("catalogue", [catalogue(1)]),
        ("import", [document(n, 1) for n in each]),
        ("open", [line(do="open", release=f"r{n}", form="binary") for n in each]),
        ("attach", [line(do="attach", release=f"r{n}", document=n) for n in each]),
        ("conclude", [line(do="conclude", document=n, package="SPDXRef-p0", expression="MIT OR Zlib") for n in each]),
        ("adopt", [line(do="adopt", document=n, reference="LicenseRef-1", licence="MIT") for n in each]),
        ("choose", [choose(f"r{n}", n, 0) for n in each]),
        (UNDER_A_CHOICE, [line(do="conclude", document=n, package="SPDXRef-p0", expression="MIT") for n in each]),
        ("unchoose", [unchoose(f"r{n}", n, 0) for n in each]),
        ("choose again", [choose(f"r{n}", n, 0) for n in each]),
        ("freeze", [line(do="freeze", release=f"r{n}", day="2025-03-03") for n in each]),
        ("meet", [line(do="meet", duty=n, day="2025-03-04", text="notices.txt") for n in each]),
    ]


def duties(count):
    """One release whose freeze raises this many duties."""
    packages = count // DUTIES_OF_A_PACKAGE
    return [
        ("catalogue", [catalogue(DUTIES_OF_A_PACKAGE)]),
        ("import", [document(1, packages)]),
        ("open", [line(do="open", release="r", form="binary")]),
        ("attach", [line(do="attach", release="r", document=1)]),
        ("choose", [choose("r", 1, n) for n in range(packages)]),
        ("freeze", [line(do="freeze", release="r", day="2025-03-03")]),
        ("release", [line(ask="release", release="r")]),
        ("meet", [line(do="meet", duty=n + 1, day="2025-03-04", text="notices.txt") for n in range(count)]),
        ("reopen", [line(do="reopen", duty=n + 1, day="2025-03-05", text="again") for n in range(count)]),
        ("waive", [line(do="waive", duty=n + 1, day="2025-03-06", text="w", until="2025-03-31") for n in range(count)]),
        ("close", [line(do="close", day="2025-04-01")]),
        ("changes", [line(ask="changes", duty=n + 1) for n in range(count)]),
        ("withdraw", [line(do="withdraw", release="r", day="2025-04-02", text="w")]),
    ]


def choices(count):
    """One release with this many choices, some of which are dropped and made again, in random order."""
    documents = range(1, count // PACKAGES_OF_A_DOCUMENT + 1)
    each = [(number, package) for number in documents for package in range(PACKAGES_OF_A_DOCUMENT)]
    some = random.Random(count).sample(each, DROPPED)
    return [
        ("catalogue", [catalogue(1)]),
        ("import", [document(number, PACKAGES_OF_A_DOCUMENT) for number in documents]),
        ("open", [line(do="open", release="r", form="binary")]),
        ("attach", [line(do="attach", release="r", document=number) for number in documents]),
        ("choose", [choose("r", *place) for place in each]),
        ("unchoose, 1,000", [unchoose("r", *place) for place in some]),
        ("choose again, 1,000", [choose("r", *place) for place in some]),
    ]


def sent(process, name, requests):
    """The seconds until the last reply to requests that are sent together: none may be refused, or each because of a held choice."""
    wanted = b'"name":"Chosen"' if name == UNDER_A_CHOICE else b""
    text = "".join(requests).encode()

    def send():
        process.stdin.write(text)
        process.stdin.flush()

    start = time.perf_counter()
    sender = threading.Thread(target=send)
    sender.start()
    for _ in requests:
        reply = process.stdout.readline()
        is_refused = b'"refused"' in reply or b'"fault"' in reply
        if not reply or is_refused != bool(wanted) or wanted not in reply:
            sys.exit(f"{name}: {reply!r}")
    spent = time.perf_counter() - start
    sender.join()
    return spent


def times(desk, steps):
    """The seconds of each step."""
    process = subprocess.Popen([desk, "script"], stdin=subprocess.PIPE, stdout=subprocess.PIPE)
    spent = [sent(process, name, requests) for name, requests in steps]
    process.stdin.close()
    process.wait()
    return spent


def least(desk, steps):
    return [min(run) for run in zip(*(times(desk, steps) for _ in range(RUNS)))]


def table(desk, title, few, many, steps_of):
    print(f"{title:20} {few:>12,} {many:>12,} {'times':>8}")
    steps = steps_of(many)
    fewer, more = least(desk, steps_of(few)), least(desk, steps)
    for (name, requests), short, long in zip(steps, fewer, more):
        print(f"  {name:18} {short * 1000:9.1f} ms {long * 1000:9.1f} ms {long / short:8.1f}   {len(requests):>7} requests")
    print(f"  {'all':18} {sum(fewer) * 1000:9.1f} ms {sum(more) * 1000:9.1f} ms {sum(more) / sum(fewer):8.1f}")


def main():
    desk = os.path.abspath(sys.argv[1])
    table(desk, "documents, releases", 409, 4_096, releases)
    table(desk, "duties of a freeze", 10_000, 100_000, duties)
    table(desk, "choices of a release", 10_000, 100_000, choices)


if __name__ == "__main__":
    main()
