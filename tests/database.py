"""Runs the acceptance cases of `script` on a desk in a file: python3 tests/database.py PROGRAM

The requests of each case go to `script --db FILE`, once in one run, and once divided into three runs on one file, one after the other. Both
times the replies must be those of the case, and the status of each run must follow from its replies. The cases are the dialogues of the
acceptance cases, of tests/dialogues and of the pages of docs/, and the folders whose only word is `script`. Ends with the line 'N passed, M
failed'.
"""

import glob
import json
import os
import subprocess
import sys
import tempfile

HERE = os.path.dirname(os.path.abspath(__file__))
CASES = os.path.join(HERE, "acceptance")
DIALOGUES = [os.path.join(CASES, "*.dialogue"), os.path.join(HERE, "dialogues/*.dialogue"), os.path.join(HERE, "../docs/*.md")]
sys.path.insert(0, CASES)
sys.dont_write_bytecode = True

import dialogue

RUNS = 3
SECONDS = 120
# A file system in memory, if there is one: each change of a desk is synced.
ROOM = "/dev/shm" if os.path.isdir("/dev/shm") else None


def bytes_at(path, otherwise=b""):
    if not os.path.isfile(path):
        return otherwise
    with open(path, "rb") as file:
        return file.read()


def cases():
    """The name, the requests, the replies and the status of each case."""
    for path in sorted(path for pattern in DIALOGUES for path in glob.glob(pattern)):
        if not path.endswith(".md") or b"```dialogue\n" in bytes_at(path):
            yield (os.path.basename(path), *dialogue.read(path))
    for path in sorted(glob.glob(os.path.join(CASES, "*", ""))):
        if bytes_at(os.path.join(path, "args")) == b"script\n":
            told = [bytes_at(os.path.join(path, name)) for name in ("stdin", "stdout")]
            yield os.path.basename(path[:-1]), *told, int(bytes_at(os.path.join(path, "status"), b"0"))


def lines(text):
    """The lines of a text, each with its LF."""
    parts = text.split(b"\n")
    return [part + b"\n" for part in parts[:-1]] + [part for part in parts[-1:] if part]


def is_blank(line):
    end = b"\r\n" if line.endswith(b"\r\n") else b"\n"
    return not line.removesuffix(end).strip(b" \t")


def status_of(replies):
    """The status of a script with these replies: 3 after a fault, otherwise 1 after a refusal or a line that isn't a request."""
    told = [json.loads(reply) for reply in replies]
    if any(reply.get("fault") in ("memory", "store") for reply in told):
        return 3
    return 1 if any("refused" in reply or "fault" in reply for reply in told) else 0


def parts_of(requests, replies):
    """The requests of each run, with the replies to them."""
    requests, replies = lines(requests), lines(replies)
    step = -(-len(requests) // RUNS)
    for start in range(0, RUNS * step, step) if step else ():
        part = requests[start : start + step]
        count = sum(1 for line in part if not is_blank(line))
        yield b"".join(part), replies[:count]
        replies = replies[count:]
    if replies:
        raise ValueError("more replies than requests")


def run(program, database, requests):
    done = subprocess.run(
        [program, "script", "--db", database], input=requests, capture_output=True, timeout=SECONDS, check=False
    )
    return done.stdout, done.returncode, done.stderr


def wrong(told, replies, status):
    """What is wrong with the output of a run, if anything."""
    stdout, returned, stderr = told
    if returned != status:
        return f"status {returned}, and not {status}: {stderr[:200]!r}"
    if stdout != replies:
        pairs = zip(lines(stdout) + [b""], lines(replies) + [b""])
        place, pair = next((place, pair) for place, pair in enumerate(pairs, 1) if pair[0] != pair[1])
        return f"reply {place} is {pair[0][:200]!r}, and not {pair[1][:200]!r}"
    return f"standard error is {stderr[:200]!r}" if stderr else None


def tried(program, room, requests, replies, status):
    """What is wrong with a case, if anything."""
    found = wrong(run(program, os.path.join(room, "one"), requests), replies, status)
    if found:
        return f"in one run: {found}"
    for number, (part, told) in enumerate(parts_of(requests, replies), 1):
        found = wrong(run(program, os.path.join(room, "three"), part), b"".join(told), status_of(told))
        if found:
            return f"in run {number} of {RUNS}: {found}"
    return None


def main():
    program = os.path.abspath(sys.argv[1])
    passed, failed = 0, 0
    for name, requests, replies, status in cases():
        with tempfile.TemporaryDirectory(dir=ROOM) as room:
            found = tried(program, room, requests, replies, status)
        passed, failed = passed + (not found), failed + bool(found)
        if found:
            print(f"{name}: {found}")
    print(f"{passed} passed, {failed} failed")
    sys.exit(failed > 0 or passed == 0)


if __name__ == "__main__":
    main()
