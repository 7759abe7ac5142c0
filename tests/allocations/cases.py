"""Refuses each allocation of a crate's tests in turn: python3 tests/allocations/cases.py PROGRAM...

Each PROGRAM is a crate's tests as `rt test` builds them; `tests/units/run.sh proved` leaves build/unit_tests. Of these it runs the tests
whose names say that they report lack of memory: for each N once with the Nth allocation refused, until a run makes fewer. Such a test
passes if lack of memory is reported to it, or if it gets the right answer.
"""

import os
import subprocess
import sys
import tempfile

HERE = os.path.dirname(os.path.abspath(__file__))
TELLS = "want_of_memory"
MOST = 100_000


def library(room):
    path = os.path.join(room, "refuse.so")
    subprocess.run(["cc", "-shared", "-fPIC", "-O2", "-o", path, os.path.join(HERE, "refuse.c"), "-ldl"], check=True)
    return path


def tests_of(program):
    """The names of the tests that report lack of memory."""
    listed = subprocess.run([program, "--list"], capture_output=True, text=True, check=True).stdout
    names = [line.split(":  ")[0].rsplit(": test", 1)[0] for line in listed.splitlines() if line.endswith(": test")]
    return [name for name in names if TELLS in name]


def sweep(program, test, refuse, told):
    """How many allocations were refused, and the first run that failed, if any."""
    for number in range(1, MOST):
        if os.path.exists(told):
            os.remove(told)
        env = {"LD_PRELOAD": refuse, "REFUSE": str(number), "REFUSED": told}
        done = subprocess.run([program, test], capture_output=True, text=True, env=env, check=False)
        if not os.path.exists(told):
            return number - 1, None if done.returncode == 0 else done.stderr
        if done.returncode != 0:
            return number, f"allocation {number}: {done.stdout}{done.stderr}"
    return MOST, "it makes ever more allocations"


def main():
    failed = 0
    swept = 0
    with tempfile.TemporaryDirectory() as room:
        refuse = library(room)
        for program in sys.argv[1:]:
            for test in tests_of(os.path.abspath(program)):
                number, why = sweep(os.path.abspath(program), test, refuse, os.path.join(room, "refused"))
                swept += 1
                if why or not number:
                    failed += 1
                    print(f"{test}: {why or 'no allocation was refused'}")
                else:
                    print(f"{test}: {number} allocations refused")
    if not swept:
        print("no test reports lack of memory")
    return 1 if failed or not swept else 0


if __name__ == "__main__":
    sys.exit(main())
