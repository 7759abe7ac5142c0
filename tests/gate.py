#!/usr/bin/env python3
"""The merge gate: python3 tests/gate.py

Quick checks of texts come first, then every proof, with the tests of single calls beside them, then the tests of the program that was
proved and built, as many steps at a time as there are processors. The gate prints which step of how many begins or has passed, and during
the proofs how many crates are proved and the minutes so far. What a step prints is shown when it has ended. The first step that fails stops
the others. At the end the gate prints the processor seconds of each step that isn't a quick check, and those of all steps, and writes
build/proved, from which `make dist` knows what was proved and tested (tests/proved.py)."""
import contextlib
import os
import re
import shutil
import signal
import subprocess
import sys
import tempfile
import threading
import time
from concurrent.futures import ThreadPoolExecutor

sys.dont_write_bytecode = True

import proved

TOP = os.path.dirname(os.path.dirname(os.path.abspath(__file__)))
MADE = "crates/desk_program/out/desk_program"
DESK = "build/desk"
# The most processor seconds of a quick check.
QUICK = 10

TEXTS = [
    ("Comparing the tables of the pages with the definitions and the code.", ["python3", "tests/pages.py"]),
    ("Checking the catalogue of the examples, and its texts.", ["python3", "tests/catalogues/check.py"]),
    ("Comparing the picture of the layers with the crates.", ["python3", "docs/layers.py", "--check"]),
    ("Checking the layout of the sources.", ["python3", "tests/format.py"]),
    ("Checking the sources against the measures, and looking for missing comments.", ["python3", "tests/measures.py"]),
    ("Looking for lemmas that are stated twice.", ["python3", "tests/lemmas.py"]),
    ("Checking that the edits that the prover must refuse still have their places.", ["python3", "tests/edits.py", "--texts"]),
    ("Comparing the crates with what their edits were tried on.", ["python3", "tests/edits.py", "--records"]),
]

UNITS = ("Running the tests of single calls, compiled with checks and without proof.", ["sh", "tests/units/run.sh"])
PROOFS = ("Proving everything from nothing, and trying edits: an hour or two.", ["rt", "ci"])

# Those that take longest start first.
PROGRAM = [
    ("Refusing each of its allocations in turn.", ["python3", "tests/allocations/sweep.py", DESK]),
    ("Stopping a desk in a file at each write, and failing each call of its disk.", ["python3", "tests/stops/stops.py", DESK]),
    ("Trying hostile inputs for a minute.", ["python3", "tests/hostile/hostile.py", DESK, "--minutes", "1", "--seed", "1"]),
    ("Sending it requests over HTTP.", ["python3", "tests/serving.py", DESK]),
    ("Auditing files of desks, sound ones and others.", ["python3", "tests/auditing.py", DESK]),
    ("Migrating files of older versions, sound ones and others.", ["python3", "tests/migrating.py", DESK]),
    ("Running the acceptance cases on the program that was proved and built.", ["sh", "tests/acceptance/run.sh", DESK]),
    ("Giving it large inputs and each fault of each reader.", ["python3", "tests/ample/ample.py", DESK]),
    ("Giving it requests in words.", ["python3", "tests/words.py", DESK]),
    ("Running the licence step of a build.", ["python3", "tests/building.py", DESK]),
    ("Running the scripts among them over files.", ["python3", "tests/database.py", DESK]),
    ("Sending it requests as browsers do, for its own pages and for others.", ["python3", "tests/origins.py", DESK]),
    ("Giving it inputs that take more memory than it may use.", ["python3", "tests/hostile/bounded.py", DESK]),
    ("Killing it at random moments while it writes.", ["python3", "tests/hostile/kills.py", DESK, "--times", "20"]),
    ("Changing trees while they are read.", ["python3", "tests/changing.py", DESK]),
    ("Giving it files that are no desk.", ["python3", "tests/stops/places.py", DESK]),
    ("Reading the tables of a desk with SQLite.", ["python3", "tests/tables.py", DESK]),
    ("Comparing the manual page and the completions with its help.", ["python3", "tests/manual.py", DESK]),
    ("Comparing what it explains with the pages.", ["python3", "tests/explain.py", DESK]),
    ("Packing it for installation.", ["python3", "tests/packing.py", DESK]),
    ("Checking that this tree is REUSE-compliant.", ["sh", "tests/lint.sh", DESK]),
]

COUNT = len(TEXTS) + 2 + len(PROGRAM)


def below(process):
    """A process and all that it has started, by process id."""
    yield process
    try:
        with open(f"/proc/{process}/task/{process}/children", encoding="ascii") as file:
            started = file.read().split()
    except OSError:
        started = []
    for number in started:
        yield from below(int(number))


def printed(*words):
    return subprocess.run(words, stdout=subprocess.PIPE, text=True, check=True).stdout.strip()


def crates():
    lines = [line.split("#")[0] for line in open("crates.txt")]
    return sum(":" in line for line in lines)


class Gate:
    """The steps so far: what each took, what runs, and whether one has failed."""

    def __init__(self):
        self.start, self.lock = time.time(), threading.Lock()
        self.count, self.seconds, self.running, self.failed = 0, {}, set(), False
        # the last line of each step, and what `rt ci` reported about the edits and the proofs
        self.said, self.proofs = {}, ""

    def minutes(self):
        return f"{(time.time() - self.start) / 60:.0f} minutes"

    def say(self, text):
        with self.lock:
            print(text, flush=True)

    def begin(self, what, words, output):
        """Starts a step, unless one has failed."""
        with self.lock:
            if self.failed:
                return None
            process = subprocess.Popen(words, stdout=output, stderr=subprocess.STDOUT)
            self.running.add(process.pid)
            self.count += 1
            print(f"Step {self.count} of {COUNT}, {self.minutes()}: {what}", flush=True)
        return process

    def end(self, what, words, process):
        """Waits for a step, and returns whether it passed. If it didn't, those that still run are stopped."""
        _, status, used = os.wait4(process.pid, 0)
        process.returncode = os.waitstatus_to_exitcode(status)
        with self.lock:
            self.running.discard(process.pid)
            self.seconds[what] = used.ru_utime + used.ru_stime
            if not process.returncode:
                return True
            if not self.failed:
                print(f"A step failed: {' '.join(words)}", flush=True)
        self.stop()
        return False

    def stop(self):
        """Ends what still runs, and lets nothing start."""
        with self.lock:
            self.failed = True
            for process in [number for running in self.running for number in below(running)]:
                try:
                    os.kill(process, signal.SIGTERM)
                except ProcessLookupError:
                    pass

    def run(self, step):
        """Runs a step, and shows what it printed once it has ended."""
        what, words = step
        with tempfile.TemporaryFile("w+", errors="replace") as output:
            process = self.begin(what, words, output)
            if process is None:
                return False
            passed = self.end(what, words, process)
            output.seek(0)
            # (the output of a stopped step says nothing)
            if passed or process.returncode > 0:
                said = output.read().rstrip()
                self.said[what] = said.rpartition("\n")[2]
                self.say(f"{what}\n{said}")
        return passed

    def prove(self):
        """Runs `rt ci`, and counts the crates as they are proved."""
        done, count, began = 0, crates(), time.time()
        what, words = PROOFS
        process = self.begin(what, words, subprocess.PIPE)
        if process is None:
            return False
        for line in process.stdout:
            line = line.decode(errors="replace").rstrip()
            if re.match(r"rt: \w+ proved$", line):
                done += 1
                line = f"{line} ({done} of {count} crates, {self.minutes()})"
            elif line.startswith("rt: ok; "):
                self.proofs = line.removeprefix("rt: ok; ")
            self.said[what] = line
            self.say(line)
        passed = self.end(what, words, process)
        if passed:
            os.makedirs("build", exist_ok=True)
            shutil.copy(MADE, DESK)
            # `make` decides by these times whether the program is older than its sources
            os.utime(DESK, (began, began))
        return passed

    def told(self):
        print(f"All {COUNT} steps passed, in {self.minutes()}. Processor seconds:")
        for what, took in self.seconds.items():
            if took >= QUICK:
                print(f"{took:7,.0f}  {what}")
        print(f"{sum(self.seconds.values()):7,.0f}  all steps")

    def record(self):
        """Writes build/proved."""
        fields = {
            "version": printed(DESK, "--version").removeprefix("desk "),
            "kit": printed("rt", "version"),
            "seconds": f"{self.minutes()}, {sum(self.seconds.values()):,.0f} processor seconds",
            "proofs": self.proofs,
        }
        proved.write(fields, {what: self.said[what] for what, _ in (*TEXTS, UNITS, PROOFS, *PROGRAM)})


def carry_out(gate):
    """Runs all steps, and returns whether they passed."""
    with ThreadPoolExecutor(os.cpu_count()) as pool:
        try:
            if not all(gate.run(step) for step in TEXTS):
                return False
            units = pool.submit(gate.run, UNITS)
            if not gate.prove() or not units.result():
                return False
            return all(pool.map(gate.run, PROGRAM))
        except BaseException:
            gate.stop()
            raise


def main():
    if len(sys.argv) > 1:
        sys.exit(__doc__)
    os.chdir(TOP)
    with contextlib.suppress(FileNotFoundError):
        os.remove(proved.RECORD)
    gate, before = Gate(), proved.sources()
    if not carry_out(gate):
        return 1
    if proved.sources() == before:
        gate.record()
    else:
        print("The sources of the crates changed meanwhile, so there is no build/proved.")
    gate.told()
    return 0


sys.exit(main())
