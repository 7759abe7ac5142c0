"""Times an import, compared with the reading of its document: python3 bench/import.py PROGRAM READER FOLDER

PROGRAM is the desk and READER what bench/programs/build.sh makes of bench/programs/documents. The two alternate, 25 times each. The
import's time is that of the whole process of `desk script`, its start included; the reading's is the least of the three that one run of
READER prints, after it has read the document once.
"""

import os
import statistics
import subprocess
import sys
import time

from script import large_document, line

RUNS = 25


def imported(desk, path):
    with open(path, "rb") as script:
        start = time.perf_counter()
        done = subprocess.run([desk, "script"], stdin=script, stdout=subprocess.PIPE, check=True)
        spent = time.perf_counter() - start
    if done.stdout != b'{"document":1,"new":true}\n':
        sys.exit(f"the import's reply is {done.stdout!r}")
    return spent


def read(reader, path):
    told = subprocess.run([reader, path], stdout=subprocess.PIPE, check=True, text=True).stdout
    return min(int(row.split()[3]) for row in told.splitlines()) / 1e9


def main():
    desk, reader, folder = os.path.abspath(sys.argv[1]), os.path.abspath(sys.argv[2]), sys.argv[3]
    os.makedirs(folder, exist_ok=True)
    document, script = os.path.join(folder, "import.spdx"), os.path.join(folder, "import.jsonl")
    text = large_document()
    with open(document, "w", encoding="utf-8") as file:
        file.write(text)
    with open(script, "w", encoding="utf-8") as file:
        file.write(line(do="import", text=text))
    pairs = [(imported(desk, script), read(reader, document)) for _ in range(RUNS)]
    whole, alone = zip(*pairs)
    for name, pick in (("least", min), ("median", statistics.median)):
        import_time, read_time = pick(whole), pick(alone)
        print(f"{name:7} import {import_time * 1000:6.1f} ms, read {read_time * 1000:6.1f} ms: {import_time / read_time:.2f} times")


if __name__ == "__main__":
    main()
