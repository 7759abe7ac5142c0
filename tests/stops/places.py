"""Gives the program files that aren't a desk's, or that it can't use: python3 tests/stops/places.py PROGRAM

Two programs on one file, a file that may not be written, a folder in its place, a disk without space, a file cut short at many places,
files of random bytes, a file with a letter changed at many places: each time there must be a clear error, and nothing of the file may be
lost. What needs another user or another disk is left out if this doesn't run as root, and that is reported.
"""

import os
import random
import shutil
import subprocess
import sys
import tempfile

HERE = os.path.dirname(os.path.abspath(__file__))
CASES = os.path.join(HERE, "../acceptance")
sys.path.insert(0, CASES)
sys.dont_write_bytecode = True

import dialogue

NOBODY = 65534
TOTALS = b'{"ask":"totals","release":"r1"}\n'
ASKED = b'{"rows":[[1,0,1,0,0]]}\n'


def run(program, path, text=TOTALS, **more):
    done = subprocess.run([program, "script", "--db", path], input=text, capture_output=True, timeout=60, check=False, **more)
    return done.stdout, done.returncode, done.stderr


def contents(path):
    """The bytes of the file and of its log."""
    found = {}
    for end in ("", "-wal"):
        if os.path.exists(path + end):
            with open(path + end, "rb") as file:
                found[end] = file.read()
    return found


def put(path, found):
    for end in ("", "-wal"):
        if os.path.exists(path + end):
            os.remove(path + end)
        if end in found:
            with open(path + end, "wb") as file:
                file.write(found[end])


def refused(what, told, path, before):
    """A fault in words, or a desk's refusal of the file; and the file is unchanged."""
    stdout, status, words = told
    is_fault = status == 3 and stdout == b"" and words.startswith(b"error: ") and words.count(b"\n") == 1
    is_refusal = status == 1 and stdout.startswith(b"fault: ") and words == b""
    if not (is_fault or is_refusal):
        sys.exit(f"{what}: status {status}, {stdout!r}, {words!r}")
    if before is not None and contents(path).get("") != before.get(""):
        sys.exit(f"{what}: the file was changed")
    return words or stdout


def two_programs(program, path):
    before = contents(path)
    with subprocess.Popen([program, "script", "--db", path], stdin=subprocess.PIPE, stdout=subprocess.PIPE) as first:
        first.stdin.write(TOTALS)
        first.stdin.flush()
        if first.stdout.readline() != ASKED:
            sys.exit("the first program isn't served")
        words = refused("two programs", run(program, path), path, before)
        first.stdin.write(TOTALS)
        first.stdin.close()
        if first.stdout.read() != ASKED or first.wait() != 0:
            sys.exit("the first program was disturbed")
    if run(program, path) != (ASKED, 0, b""):
        sys.exit("the file isn't served after the first program's end")
    return words


def read_only(program, path, room):
    """A file that may only be read, in a folder that may be written, as another user than root."""
    before = contents(path)
    os.chmod(room, 0o777)
    os.chmod(path, 0o444)
    words = refused("a file that may only be read", run(program, path, user=NOBODY), path, before)
    os.chmod(path, 0o644)
    return words


def folder(program, room):
    path = os.path.join(room, "folder")
    os.mkdir(path)
    words = refused("a folder", run(program, path), path, None)
    if os.listdir(path):
        sys.exit("the folder isn't empty")
    return words


def no_room(program, room, requests):
    """A disk of 1 MiB: what was replied to is in the file once there is room."""
    place = os.path.join(room, "small")
    os.mkdir(place)
    subprocess.run(["mount", "-t", "tmpfs", "-o", "size=1048576", "tmpfs", place], check=True)
    try:
        path = os.path.join(place, "desk.db")
        stdout, status, words = run(program, path, requests)
        if status != 3 or not words.startswith(b"error: "):
            sys.exit(f"a full disk: status {status}, {stdout[-300:]!r}, {words!r}")
        accepted = sum(b"fault" not in reply for reply in stdout.splitlines())
        kept = contents(path)
    finally:
        subprocess.run(["umount", place], check=True)
    path = os.path.join(room, "roomy.db")
    put(path, kept)
    if run(program, path, b"".join(requests.splitlines(keepends=True)))[1] not in (0, 1):
        sys.exit("what was on the full disk isn't served")
    return words, accepted


def cut_short(program, path):
    before = contents(path)
    told = set()
    # a file of one byte is what a stop leaves of a file that was being created, and is created again
    for size in sorted({2, 99, 100, 511, 512, 1024, 4095, *range(4096, len(before[""]), 4096), len(before[""]) - 1}):
        found = {"": before[""][:size]}
        put(path, found)
        told.add(refused(f"a file cut to {size} bytes", run(program, path), path, found))
    put(path, before)
    return told


def of_random_bytes(program, path, turn):
    before, told = contents(path), set()
    for size in (2, 15, 16, 100, 512, 4096, 70_000):
        found = {"": turn.randbytes(size)}
        put(path, found)
        told.add(refused(f"{size} random bytes", run(program, path), path, found))
    put(path, before)
    return told


def with_a_byte_changed(program, path, turn):
    """Each answer is the right one, or a fault: a changed byte is found or isn't read; nothing is reported that was never true, except what
    the byte itself says."""
    before = contents(path)
    for _ in range(200):
        whole = bytearray(before[""])
        place = turn.randrange(len(whole))
        whole[place] ^= 1 << turn.randrange(8)
        put(path, {"": bytes(whole)})
        stdout, status, words = run(program, path)
        if status not in (0, 1, 3) or (status == 3) != words.startswith(b"error: "):
            sys.exit(f"byte {place} changed: status {status}, {stdout!r}, {words!r}")
    put(path, before)


def main():
    program = os.path.abspath(sys.argv[1])
    requests = dialogue.read(os.path.join(CASES, "script-first-release.dialogue"))[0]
    turn = random.Random(1)
    with tempfile.TemporaryDirectory() as room:
        os.chmod(room, 0o755)
        path = os.path.join(room, "desk.db")
        if run(program, path, requests)[1] != 0:
            sys.exit("the first release isn't served")
        print(two_programs(program, path))
        print(folder(program, room))
        print(*sorted(cut_short(program, path)), sep="\n")
        print(*sorted(of_random_bytes(program, path, turn)), sep="\n")
        with_a_byte_changed(program, path, turn)
        if os.geteuid() == 0:
            print(read_only(program, path, room))
            many = requests + b"".join(b'{"do":"open","release":"s%d","form":"binary"}\n' % n for n in range(20_000))
            print(*no_room(program, room, many))
        else:
            print("left out, since this isn't root: a file that may only be read, a disk with no room")
        if run(program, path) != (ASKED, 0, b""):
            sys.exit("the file isn't served at the end")
    print("each file that is no desk's was refused in words: passed")


if __name__ == "__main__":
    main()
