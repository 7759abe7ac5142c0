#!/usr/bin/env python3
"""Measures what the slowest known inputs within the limits cost in time and memory: python3 tests/hostile/cost.py PROGRAM [--only WORD]

Prints a row for each: its bytes, the seconds and the peak of the process's memory. The aim is at most 5 seconds, and at most ten times its
bytes plus 32 MB. Each input is made by a separate process, so that the measuring one stays small: a child's peak is never reported as less
than that of the process that started it. Ends with status 1 if a row exceeds the aim."""

import argparse
import json
import os
import socket
import subprocess
import sys
import tempfile
import time

sys.path.insert(0, os.path.dirname(os.path.abspath(__file__)))
sys.dont_write_bytecode = True

SECONDS, TIMES, MORE = 5, 10, 32_000_000
LONGEST = 120


def made(room, name):
    """Makes an input, and prints what is run: this is the separate process."""
    import slow_inputs

    print(json.dumps(slow_inputs.SLOW[name](room)))


def names():
    """The names of the inputs, without keeping what makes them."""
    code = "import slow_inputs, json; print(json.dumps(list(slow_inputs.SLOW)))"
    here = os.path.dirname(os.path.abspath(__file__))
    return json.loads(subprocess.run([sys.executable, "-B", "-c", code], cwd=here, capture_output=True, check=True).stdout)


def office(program, room):
    """A desk with rows of each kind, for the inputs that are databases."""
    code = "import running, offices, sys; sys.stdout.write(offices.whole_office())"
    here = os.path.dirname(os.path.abspath(__file__))
    requests = subprocess.run([sys.executable, "-B", "-c", code], cwd=here, capture_output=True, check=True).stdout
    subprocess.run([program, "script", "--db", "desk.db"], cwd=room, input=requests, capture_output=True, check=True)


def started(program, words, room, source):
    with open(os.path.join(room, source) if source else os.devnull, "rb") as text:
        return subprocess.Popen([program, *words], cwd=room, stdin=text, stdout=subprocess.DEVNULL, stderr=subprocess.DEVNULL)


def ended(process):
    """The status and the peak in bytes; the status is None for a process that takes too long."""
    begun = time.perf_counter()
    while time.perf_counter() - begun < LONGEST:
        pid, status, usage = os.wait4(process.pid, os.WNOHANG)
        if pid:
            process.returncode = os.waitstatus_to_exitcode(status)
            return process.returncode, usage.ru_maxrss << 10
        time.sleep(0.001)
    process.kill()
    os.wait4(process.pid, 0)
    process.returncode = None
    return None, 0


def served(program, room, source, how):
    """Sends the bytes to a desk that serves one connection."""
    words = [program, "serve", "--db", "served.db", "--port", "0", "--limit", "1"]
    process = subprocess.Popen(words, cwd=room, stdout=subprocess.PIPE, stderr=subprocess.DEVNULL)
    port = int(process.stdout.readline().rpartition(b":")[2])
    begun = time.perf_counter()
    with socket.create_connection(("127.0.0.1", port)) as peer, open(os.path.join(room, source), "rb") as file:
        peer.setsockopt(socket.IPPROTO_TCP, socket.TCP_NODELAY, 1)
        while piece := file.read(1 if how == "one by one" else 1 << 16):
            peer.sendall(piece)
        peer.shutdown(socket.SHUT_WR)
        while peer.recv(1 << 16):
            pass
    status, peak = ended(process)
    process.stdout.close()
    return status, time.perf_counter() - begun, peak


def measured(program, name):
    """The bytes of an input, the status, the seconds and the peak."""
    with tempfile.TemporaryDirectory(dir="/dev/shm" if os.path.isdir("/dev/shm") else None) as room:
        if name.startswith("database"):
            office(program, room)
        told = subprocess.run([sys.executable, "-B", __file__, program, "--make", room, name], capture_output=True, check=True).stdout
        words, source, size = json.loads(told)
        if words[0] == "serve":
            return size, *served(program, room, source, words[1])
        begun = time.perf_counter()
        status, peak = ended(started(program, words, room, source))
        seconds = time.perf_counter() - begun
        # (Python's own way would recurse into each folder)
        subprocess.run(["rm", "-rf", os.path.join(room, "tree")], check=True)
        return size, status, seconds, peak


def row(name, size, status, seconds, peak):
    """Prints a row, and returns whether it exceeds the aim."""
    # 3 is the status of a file that can't be used
    is_over = status not in (0, 1, 3) or seconds > SECONDS or peak > TIMES * size + MORE
    mark = " OVER" if is_over else ""
    print(f"| {name} | {size:,} | {seconds:.2f} s | {peak / 1e6:.0f} MB |{mark}", flush=True)
    return is_over


def main():
    parser = argparse.ArgumentParser(description="Measures the slowest known inputs.")
    parser.add_argument("program")
    parser.add_argument("--only", default="")
    parser.add_argument("--make", nargs=2, help="for this program itself")
    words = parser.parse_args()
    if words.make:
        return made(*words.make)
    program = os.path.abspath(words.program)
    print("| Input | Bytes | Time | Peak |\n|---|---|---|---|")
    over = [row(name, *measured(program, name)) for name in names() if words.only in name]
    print(f"{len(over)} inputs, {sum(over)} over {SECONDS} s or {TIMES} times the bytes and {MORE // 1_000_000} MB")
    return any(over)


if __name__ == "__main__":
    sys.exit(main())
