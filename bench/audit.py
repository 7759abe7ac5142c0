"""Times `desk audit`, compared with SQLite's own check of a file: python3 bench/audit.py PROGRAM

A file of 4,096 documents of 4 KiB and 100,000 duties, each of which was raised, waived up to a day, and opened again after it; and one
with a tenth of all that. `PRAGMA integrity_check` of Python's library checks the same files in another way: pages and indexes, and not
what rows say. Each time is the least of several runs, on a file in shared memory, and the peak of memory is that of the process. The
time of a process that asks for totals is what each other subcommand takes to open the file, which it audits too.
"""

import os
import sqlite3
import subprocess
import sys
import tempfile
import time

HERE = os.path.dirname(os.path.abspath(__file__))
sys.path.insert(0, HERE)
sys.dont_write_bytecode = True

import rows
import store

MEMORY = "/dev/shm"
RUNS = 3
DOCUMENT_BYTES = 4_096
PACKAGES = 5
CODES = 5
DUTIES_OF_A_DOCUMENT = PACKAGES * CODES
DOCUMENTS_OF_A_RELEASE = 64


def document(number):
    """A document of 4 KiB with five packages."""
    text = rows.json.loads(rows.document(number, PACKAGES))["text"]
    line = f"# {'x' * 61}\n"
    text += line * ((DOCUMENT_BYTES - len(text)) // len(line))
    return rows.line(do="import", text=text.ljust(DOCUMENT_BYTES, "\n"))


def steps(documents, duties):
    """The requests that make a desk. The first documents are attached to releases, as many as have that many duties."""
    attached = range(1, duties // DUTIES_OF_A_DOCUMENT + 1)
    release = {number: f"r{(number - 1) // DOCUMENTS_OF_A_RELEASE + 1}" for number in attached}
    names = sorted(set(release.values()))
    each = range(1, duties + 1)
    return [
        ("catalogue", [rows.catalogue(CODES)]),
        ("import", [document(number) for number in range(1, documents + 1)]),
        ("open", [rows.line(do="open", release=name, form="binary") for name in names]),
        ("attach", [rows.line(do="attach", release=release[number], document=number) for number in attached]),
        ("choose", [rows.choose(release[number], number, package) for number in attached for package in range(PACKAGES)]),
        ("freeze", [rows.line(do="freeze", release=name, day="2025-03-03") for name in names]),
        ("waive", [rows.line(do="waive", duty=number, day="2025-03-06", text="w", until="2025-03-31") for number in each]),
        ("close", [rows.line(do="close", day="2025-04-01")]),
    ]


def made(program, path, documents, duties):
    desk = store.Desk(program, path)
    for name, requests in steps(documents, duties):
        desk.step(name, requests)
    desk.end()


# A separate process, since the peak of a process is never below that of the one that starts it: some 10 MiB here.
MEASURE = """import resource, subprocess, sys, time
begun = time.perf_counter()
done = subprocess.run(sys.argv[1:], stdout=subprocess.PIPE)
spent = time.perf_counter() - begun
print(spent, resource.getrusage(resource.RUSAGE_CHILDREN).ru_maxrss, done.returncode, done.stdout.decode())"""


def run(command, wanted):
    """The seconds and the peak of memory in KiB of a process."""
    done = subprocess.run([sys.executable, "-ISc", MEASURE, *command], stdout=subprocess.PIPE, text=True, check=True)
    seconds, peak, status, told = done.stdout.split(" ", 3)
    if status != "0" or not told.startswith(wanted):
        sys.exit(f"{command}: status {status}, {told[:200]!r}")
    return float(seconds), int(peak)


def check(path):
    """The seconds of SQLite's own check."""
    begun = time.perf_counter()
    connection = sqlite3.connect(path)
    told = connection.execute("PRAGMA integrity_check").fetchall()
    connection.close()
    if told != [("ok",)]:
        sys.exit(f"SQLite's own check: {told}")
    return time.perf_counter() - begun


def counted(path):
    connection = sqlite3.connect(path)
    found = [connection.execute(f"SELECT count(*) FROM {table}").fetchone()[0] for table in ("document", "package", "duty", "change")]
    connection.close()
    return found


def timed(program, documents, duties):
    """The least seconds and the peak in KiB of each way to check a file, and what the file has."""
    found = {}

    def note(name, seconds, peak):
        least, most = found.get(name, (seconds, peak))
        found[name] = min(seconds, least), max(peak, most)

    with tempfile.TemporaryDirectory(dir=MEMORY) as room:
        path, empty = os.path.join(room, "desk.db"), os.path.join(room, "empty.db")
        made(program, path, documents, duties)
        for _ in range(RUNS):
            note("desk audit", *run([program, "audit", "--db", path], "sound\n"))
            note("desk totals", *run([program, "totals", "--db", path, "r1"], "raised "))
            note("integrity_check", check(path), 0)
            note("desk audit, no row", *run([program, "audit", "--db", empty], "sound\n"))
        return found, counted(path), os.path.getsize(path)


def main():
    program = os.path.abspath(sys.argv[1])
    few, few_rows, few_bytes = timed(program, 410, 10_000)
    many, many_rows, many_bytes = timed(program, 4_096, 100_000)
    print(f"{'':24} {'a tenth':>14} {'all':>14} {'times':>8}")
    for name, less, more in zip(("documents", "packages", "duties", "changes"), few_rows, many_rows):
        print(f"{name:24} {less:>14,} {more:>14,}")
    print(f"{'bytes of the file':24} {few_bytes:>14,} {many_bytes:>14,}")
    for name, (seconds, peak) in many.items():
        less, less_peak = few[name]
        print(f"{name:24} {less * 1000:11.1f} ms {seconds * 1000:11.1f} ms {seconds / less:8.1f}")
        if peak:
            print(f"{'  its peak of memory':24} {less_peak / 1024:10.1f} MiB {peak / 1024:10.1f} MiB {peak / less_peak:8.1f}")


if __name__ == "__main__":
    main()
