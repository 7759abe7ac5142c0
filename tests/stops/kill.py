"""Kills the program again and again while it serves requests: python3 tests/stops/kill.py PROGRAM [TIMES]

Each time a desk in a file is opened, is sent requests as fast as it replies, and is killed by SIGKILL after a random time. Then the rows
that SQLite reads from a copy of the files must be those of all requests that were replied to, and of at most one more.
"""

import json
import os
import random
import shutil
import signal
import sqlite3
import subprocess
import sys
import tempfile
import threading

HERE = os.path.dirname(os.path.abspath(__file__))
CASES = os.path.join(HERE, "../acceptance")
sys.path.insert(0, CASES)
sys.dont_write_bytecode = True

import dialogue

DONE = b'{"done":true}\n'
AT_ONCE = 8
LONGEST = 0.05
MOST = 2_000


def line(request):
    return json.dumps(request, separators=(",", ":")).encode() + b"\n"


def names_in(path, room):
    """The names of the releases, by their place, as SQLite reads a copy of the files."""
    copy = os.path.join(room, "copy.db")
    for end in ("", "-wal"):
        if os.path.exists(copy + end):
            os.remove(copy + end)
        if os.path.exists(path + end):
            shutil.copy(path + end, copy + end)
    connection = sqlite3.connect(copy)
    try:
        if connection.execute("PRAGMA integrity_check").fetchall() != [("ok",)]:
            sys.exit("the file isn't sound")
        return [name for (name,) in connection.execute("SELECT name FROM releases ORDER BY place")]
    finally:
        connection.close()


def served(program, path, first):
    """How many releases were opened, with replies saying so, until the program was killed."""
    process = subprocess.Popen([program, "script", "--db", path], stdin=subprocess.PIPE, stdout=subprocess.PIPE, stderr=subprocess.PIPE)
    killer = threading.Timer(random.uniform(0.001, LONGEST), process.send_signal, [signal.SIGKILL])
    killer.start()
    told, sent = 0, 0
    try:
        while True:
            while sent - told < AT_ONCE:
                process.stdin.write(line({"do": "open", "release": f"r{first + sent}", "form": "binary"}))
                sent += 1
            process.stdin.flush()
            reply = process.stdout.readline()
            if reply != DONE:
                break
            told += 1
        reply += process.stdout.read()
    except BrokenPipeError:
        reply = process.stdout.read()
    killer.join()
    words = process.stderr.read()
    whole = reply.count(DONE)
    if process.wait() != -signal.SIGKILL or words or not DONE.startswith(reply[whole * len(DONE):]):
        sys.exit(f"status {process.returncode}, {reply!r}, {words!r}")
    return told + whole


def main():
    program, times = os.path.abspath(sys.argv[1]), int(sys.argv[2]) if len(sys.argv) > 2 else 1000
    catalogue = dialogue.fixture("small catalogue")
    with tempfile.TemporaryDirectory() as room:
        names, served_in_all, cut, path = [], 0, 0, None
        for time in range(times):
            if path is None or len(names) > MOST:
                path, names = os.path.join(room, f"desk{time}.db"), []
                begun = line({"do": "catalogue", "text": catalogue})
                subprocess.run([program, "script", "--db", path], input=begun, stdout=subprocess.DEVNULL, check=True)
            told = served(program, path, len(names))
            found = names_in(path, room)
            if found != [f"r{place}" for place in range(len(found))] or len(found) - len(names) not in range(told, told + AT_ONCE + 1):
                sys.exit(f"kill {time}: {told} releases were replied to after {len(names)}, and {len(found)} are in the file")
            cut += len(found) - len(names) != told
            served_in_all += len(found) - len(names)
            names = found
        print(f"killed {times} times, {served_in_all} requests served, {cut} times more was recorded than replied: nothing that was replied is lost")


if __name__ == "__main__":
    main()
