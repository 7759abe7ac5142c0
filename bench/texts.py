"""Times texts alone, without the desk that they are from: python3 bench/texts.py PROGRAM FOLDER

PROGRAM is what bench/programs/build.sh makes of bench/programs/texts. The table of duties is compared with Python's csv writer on the same
rows, in one run, and both must write the same bytes. Each time is the least of several runs.
"""

import csv
import io
import os
import subprocess
import sys
import time

PYTHON_TURNS = 5


def by_csv(rows):
    """The seconds of rows by Python's writer, and what it wrote."""
    told = io.StringIO()
    begun = time.perf_counter()
    csv.writer(told, lineterminator="\n").writerows(rows)
    text = told.getvalue().encode()
    return time.perf_counter() - begun, text


def row(name, size, seconds):
    print(f"  {name:40} {size:9,} bytes {1000 * seconds:7.1f} ms {size / seconds / 1e6:7,.0f} MB/s")


def main():
    program, folder = sys.argv[1:]
    os.makedirs(folder, exist_ok=True)
    path = os.path.join(folder, "table.csv")
    told = subprocess.run([program, path], check=True, capture_output=True, text=True).stdout
    turns = [line.split() for line in told.splitlines()]
    with open(path, "rb") as file:
        table = file.read()
    rows = list(csv.reader(io.StringIO(table.decode())))
    found = [by_csv(rows) for _ in range(PYTHON_TURNS)]
    if any(text != table for _, text in found):
        sys.exit("Python writes another table")
    for word, name in (("table", f"the table of {len(rows) - 1:,} duties"), ("notices", "notices")):
        sizes, times = zip(*((int(size), int(spent) / 1e9) for first, size, spent in turns if first == word))
        row(name, sizes[0], min(times))
    row("the table by Python's csv writer", len(table), min(seconds for seconds, _ in found))


if __name__ == "__main__":
    main()
