"""Requests that make the desks on which audits are tested."""

import json
import os
import random
import sys

HERE = os.path.dirname(os.path.abspath(__file__))
sys.path.insert(0, os.path.join(HERE, "../acceptance"))
sys.dont_write_bytecode = True

import dialogue

CATALOGUE = """forms = ["binary", "source"]
[[duty]]
code = "include-text"
title = "Ship the licence text"
[[duty]]
code = "give-notice"
title = "Ship the notice"
[[duty]]
code = "offer-source"
title = "Offer the source"
[[rule]]
term = "MIT"
form = "binary"
duties = ["include-text", "give-notice"]
[[rule]]
term = "MIT"
form = "source"
duties = []
[[rule]]
term = "Zlib"
form = "binary"
duties = ["include-text"]
[[rule]]
term = "Apache-2.0+"
form = "binary"
duties = ["give-notice"]
[[rule]]
term = "GPL-2.0-only WITH Classpath-exception-2.0"
form = "binary"
duties = ["offer-source", "include-text"]
[[text]]
licence = "MIT"
body = "MIT text"
"""

LATER_CATALOGUE = (
    CATALOGUE.replace('term = "MIT"\nform = "binary"\nduties = [', 'term = "mit"\nform = "binary"\nduties = ["offer-source", ')
    .replace('"source"]', '"source", "service"]')
)

# Packages that ship in each way and one that doesn't, references with a text and without one, and a package that concludes nothing.
DOCUMENT = """SPDXVersion: SPDX-2.3
DataLicense: CC0-1.0
SPDXID: SPDXRef-DOCUMENT
DocumentName: office-1
DocumentNamespace: https://example.org/office-1
Creator: Tool: office
Created: 2025-01-01T00:00:00Z
Relationship: SPDXRef-DOCUMENT DESCRIBES SPDXRef-a
PackageName: a
SPDXID: SPDXRef-a
PackageVersion: 1.0
PackageDownloadLocation: NOASSERTION
FilesAnalyzed: false
PackageLicenseConcluded: MIT OR Zlib
PackageCopyrightText: <text>Copyright A
and others</text>
Relationship: SPDXRef-a CONTAINS SPDXRef-b
PackageName: b
SPDXID: SPDXRef-b
PackageVersion: 2.0
PackageDownloadLocation: NOASSERTION
PackageLicenseConcluded: LicenseRef-own OR Zlib
PackageCopyrightText: NONE
PackageName: c
SPDXID: SPDXRef-c
PackageLicenseConcluded: NOASSERTION
Relationship: SPDXRef-c DEPENDENCY_OF SPDXRef-a
PackageName: d
SPDXID: SPDXRef-d
PackageLicenseConcluded: GPL-2.0-only WITH Classpath-exception-2.0
PackageName: tool
SPDXID: SPDXRef-tool
PackageVersion: 3
PackageLicenseConcluded: MIT
PackageCopyrightText: Copyright T
Relationship: SPDXRef-a STATIC_LINK SPDXRef-d
Relationship: SPDXRef-tool DEV_DEPENDENCY_OF SPDXRef-a
LicenseID: LicenseRef-own
ExtractedText: <text>Own
licence</text>
LicenseID: LicenseRef-other
"""

# Operators in small letters, and no relationship, so that each package ships.
SMALL_DOCUMENT = """SPDXVersion: SPDX-2.2
SPDXID: SPDXRef-DOCUMENT
DocumentName: office-2
DocumentNamespace: https://example.org/office-2
PackageName: p
SPDXID: SPDXRef-p
PackageVersion: 1
PackageLicenseConcluded: MIT and (zlib or Apache-2.0+)
PackageName: q
SPDXID: SPDXRef-q
PackageLicenseConcluded: LicenseRef-own with Classpath-exception-2.0 or Zlib
FileName: ./q.c
SPDXID: SPDXRef-File-q
LicenseID: LicenseRef-own
ExtractedText: Own licence
"""

PLAIN_DOCUMENT = """SPDXVersion: SPDX-2.1
SPDXID: SPDXRef-DOCUMENT
DocumentName: office-3
DocumentNamespace: https://example.org/office-3
PackageName: m
SPDXID: SPDXRef-m
PackageLicenseConcluded: MIT
"""


def line(**request):
    return json.dumps(request, separators=(",", ":")) + "\n"


def choose(release, document, **terms):
    """A choice for packages of a document."""
    return "".join(
        line(do="choose", release=release, document=document, package=f"SPDXRef-{name}", terms=chosen)
        for name, chosen in terms.items()
    )


def opened(release, form, *documents):
    return line(do="open", release=release, form=form) + "".join(line(do="attach", release=release, document=n) for n in documents)


def moved(do, duty, day, text, **more):
    return line(do=do, duty=duty, day=day, text=text, **more)


OWN = "LicenseRef-own WITH Classpath-exception-2.0"
GPL = "GPL-2.0-only WITH Classpath-exception-2.0"


def whole_office():
    """Documents of both profiles, two revisions, and releases and duties of each state: duties 1 to 9 are of the release `first`, 10 to 23
    of `gone`. The releases `held` and `bare`, which are open, `source`, which is frozen, and `dropped`, which was withdrawn before a
    freeze, have no duty."""
    return "".join([
        line(do="catalogue", text=CATALOGUE),
        line(do="import", text=DOCUMENT),
        line(do="import", text=SMALL_DOCUMENT, profile=2),
        line(do="import", text=PLAIN_DOCUMENT),
        line(do="conclude", document=1, package="SPDXRef-c", expression="Apache-2.0+ AND MIT"),
        line(do="conclude", document=1, package="SPDXRef-tool", expression="Zlib"),
        line(do="adopt", document=1, reference="LicenseRef-own", licence="MIT"),
        line(do="adopt", document=1, reference="DocumentRef-x:LicenseRef-z", licence="Zlib"),
        line(do="adopt", document=2, reference="LicenseRef-own", licence="GPL-2.0-only"),
        opened("first", "binary", 1),
        choose("first", 1, a=["MIT"], b=["LicenseRef-own"], c=["MIT", "Apache-2.0+"], d=[GPL]),
        line(do="freeze", release="first", day="2025-03-03"),
        line(do="catalogue", text=LATER_CATALOGUE),
        opened("gone", "binary", 1, 2),
        choose("gone", 1, a=["Zlib"], b=["Zlib"], c=["MIT", "Apache-2.0+"], d=[GPL]),
        choose("gone", 2, p=["MIT", "Zlib"], q=[OWN]),
        line(do="freeze", release="gone", day="2025-03-04"),
        opened("held", "binary", 2, 3),
        choose("held", 2, p=["MIT", "Apache-2.0+"], q=["Zlib"]),
        line(do="open", release="bare", form="service"),
        opened("source", "source", 3),
        choose("source", 3, m=["MIT"]),
        line(do="freeze", release="source", day="2025-03-04"),
        opened("dropped", "binary", 2),
        choose("dropped", 2, q=["Zlib"]),
        line(do="withdraw", release="dropped", day="2025-03-04", text="never shipped"),
        moved("meet", 1, "2025-03-05", "notices.txt"),
        moved("waive", 3, "2025-03-05", "no end"),
        moved("waive", 4, "2025-03-05", "for some time", until="2025-06-30"),
        moved("waive", 5, "2025-03-05", "for a month", until="2025-03-31"),
        moved("meet", 6, "2025-03-05", "notices.txt"),
        moved("reopen", 6, "2025-03-06", "it was wrong"),
        moved("meet", 6, "2025-03-07", "others.txt"),
        moved("waive", 7, "2025-03-05", "for a month", until="2025-03-30"),
        moved("waive", 8, "2025-03-05", "no end"),
        moved("reopen", 8, "2025-03-06", "yet one"),
        moved("meet", 10, "2025-03-06", "notices.txt"),
        moved("waive", 11, "2025-03-06", "for a year", until="2026-03-05"),
        moved("waive", 12, "2025-03-06", "for a month", until="2025-03-31"),
        moved("waive", 13, "2025-03-06", "no end"),
        moved("reopen", 13, "2025-03-07", "yet one"),
        line(do="close", day="2025-04-01"),
        moved("waive", 7, "2025-04-02", "one more", until="2025-04-02"),
        line(do="withdraw", release="gone", day="2025-04-03", text="recalled"),
    ])


def later_requests():
    """What may be asked of the whole office, even if its tables are sound and no command made them so."""
    return "".join([
        line(do="freeze", release="first", day="2025-05-01"),
        line(do="freeze", release="source", day="2025-05-01"),
        line(do="choose", release="held", document=3, package="SPDXRef-m", terms=["MIT"]),
        line(do="freeze", release="held", day="2025-05-01"),
        line(do="open", release="new", form="binary"),
        line(do="attach", release="new", document=1),
        moved("meet", 2, "2025-05-01", "y"),
        moved("reopen", 1, "2025-05-01", "y"),
        moved("waive", 2, "2025-05-01", "y", until="2025-05-02"),
        line(do="close", day="2026-05-01"),
        line(do="conclude", document=1, package="SPDXRef-c", expression="MIT"),
        line(do="adopt", document=1, reference="LicenseRef-own", licence="Zlib"),
        line(do="withdraw", release="first", day="2026-05-01", text="y"),
        line(do="withdraw", release="bare", day="2026-05-01", text="y"),
        *(line(ask=what, release=release) for what in ("release", "duties", "totals") for release in ("first", "gone", "held", "source")),
        *(line(ask="changes", duty=number) for number in (1, 2, 23)),
    ])


def busy_office(seed):
    """A frozen release and a withdrawn one, with eleven duties each that move at random."""
    turn = random.Random(seed)
    requests = [line(do="catalogue", text=CATALOGUE), line(do="import", text=DOCUMENT), line(do="import", text=SMALL_DOCUMENT, profile=2)]
    requests += [line(do="adopt", document=1, reference="LicenseRef-own", licence="Zlib")]
    requests += [line(do="conclude", document=1, package="SPDXRef-c", expression="(MIT OR Zlib) AND (MIT OR Apache-2.0+)")]
    for release in ("stays", "goes"):
        requests += [opened(release, "binary", 1, 2), choose(release, 1, a=["MIT"], b=["LicenseRef-own"], c=["MIT"], d=[GPL])]
        requests += [choose(release, 2, p=["MIT", "Zlib"], q=["Zlib"]), line(do="freeze", release=release, day="2025-01-02")]
    states = {number: ("open", None) for number in range(1, 23)}
    for day in (f"2025-{month:02}-{day:02}" for month in range(2, 5) for day in range(1, 29)):
        number = turn.randint(1, 22)
        state, last_day = states[number]
        if state == "waived" and last_day and last_day < day:
            requests.append(line(do="close", day=day))
            states = {n: ("open", None) if end and end < day else (at, end) for n, (at, end) in states.items()}
        elif state != "open":
            requests.append(moved("reopen", number, day, "again"))
            states[number] = ("open", None)
        elif turn.random() < 0.3:
            requests.append(moved("meet", number, day, "notices.txt"))
            states[number] = ("met", None)
        else:
            until = {"until": f"{day[:-2]}{turn.randint(int(day[-2:]), 28):02}"} if turn.random() < 0.7 else {}
            requests.append(moved("waive", number, day, "w", **until))
            states[number] = ("waived", until.get("until"))
    return "".join([*requests, line(do="withdraw", release="goes", day="2025-05-01", text="x")])


def of_dialogue(name):
    """The requests of a dialogue that aren't refused."""
    requests, replies, _ = dialogue.read(os.path.join(HERE, "..", name))
    pairs = zip(requests.decode().splitlines(keepends=True), replies.decode().splitlines(), strict=True)
    return "".join(request for request, reply in pairs if '"refused"' not in reply)


def offices():
    """Each desk's requests by its name."""
    return {
        "first release": of_dialogue("acceptance/script-first-release.dialogue"),
        "withdrawn release": of_dialogue("dialogues/withdraws-all-but-met-duties.dialogue"),
        "whole office": whole_office(),
        "busy office": busy_office(1),
        "another busy office": busy_office(2),
    }
