"""Times `desk script`: python3 bench/script.py PROGRAM FOLDER

Writes scripts into the folder: 200,000 small requests of each of two kinds over a first release, and an import of a document of
about 4 MiB. Each time is the best of three runs of the whole process.
"""

import json
import os
import subprocess
import sys
import time

RUNS = 3
LINES = 200_000
BYTES = 4_194_304


def line(**request):
    return json.dumps(request, separators=(",", ":")) + "\n"


def large_document():
    head = (
        "SPDXVersion: SPDX-2.3\nDataLicense: CC0-1.0\nSPDXID: SPDXRef-DOCUMENT\nDocumentName: large\n"
        "DocumentNamespace: https://example.org/large\nCreator: Tool: bench\nCreated: 2025-01-01T00:00:00Z\n"
    )
    parts = [head]
    size = len(head)
    for n in range(10_000):
        part = (
            f"PackageName: package-{n}\nSPDXID: SPDXRef-p{n}\nPackageDownloadLocation: NOASSERTION\n"
            f"FilesAnalyzed: false\nPackageLicenseConcluded: MIT OR Apache-2.0\n"
            f"PackageCopyrightText: <text>Copyright {'x' * 200} {n}</text>\n"
        )
        if size + len(part) > BYTES:
            break
        parts.append(part)
        size += len(part)
    return "".join(parts)


def main():
    desk, folder = os.path.abspath(sys.argv[1]), sys.argv[2]
    os.makedirs(folder, exist_ok=True)
    here = os.path.dirname(os.path.abspath(__file__))
    with open(os.path.join(here, "../examples/first-release/script.jsonl"), encoding="utf-8") as script:
        first = script.read()
    totals = line(ask="totals", release="r1")
    meet = line(do="meet", duty=1, day="2025-03-04", text="notices.txt")
    cases = [
        ("first-release", first, 10),
        ("200,000 times totals", first + totals * LINES, LINES),
        ("200,000 times meet", first + meet * LINES, LINES),
        ("an import of 4 MiB", line(do="import", text=large_document()), 1),
    ]
    for name, text, lines in cases:
        path = os.path.join(folder, "script.jsonl")
        with open(path, "w", encoding="utf-8") as file:
            file.write(text)
        least = None
        for _ in range(RUNS):
            with open(path, "rb") as file:
                start = time.perf_counter()
                done = subprocess.run([desk, "script"], stdin=file, stdout=subprocess.PIPE, check=False)
                spent = time.perf_counter() - start
            least = spent if least is None else min(least, spent)
        replies = done.stdout.count(b"\n")
        if replies != text.count("\n"):
            sys.exit(f"{name}: {replies} replies")
        print(f"{name:24} {len(text):>11} bytes {least * 1000:9.1f} ms {lines / least:11.0f} lines a second, status {done.returncode}")


if __name__ == "__main__":
    main()
