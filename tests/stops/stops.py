"""Stops the program at each write of a desk's file, and makes each read, write and sync fail: python3 tests/stops/stops.py PROGRAM

The scripts are the first release and the withdrawn release, on a desk in a file. The process is ended before, in the middle of and after
each write and each sync. Then SQLite opens the files, finds them sound and reads the tables, and so does the desk: they must be those after
the commands that were replied to, or also after the one that was being carried out.

A disk that is lost at a call refuses all calls from then on, and afterwards has only what was synced before: the same must hold. It must
hold too if each sector that was written since is randomly the old one or the new one, if the file is as long as before, as now or in
between, and if anything lies beyond its old end (`docs/DATABASE.md`).

If a call fails, the script continues or stops: what was replied to is what the script without the other requests gives, the tables are
those after these requests, or also after the failed one if nothing was recorded after it, and a later run serves the desk.

An audit of the file that each script leaves, with each of its reads refused in turn, reports that the file is sound or why it can't be
read, and leaves the file unchanged. A page and lists, with each call refused in turn, are written fully, or not at all with a reason.
"""

import os
import random
import shutil
import sqlite3
import subprocess
import sys
import tempfile

HERE = os.path.dirname(os.path.abspath(__file__))
CASES = os.path.join(HERE, "../acceptance")
sys.path.insert(0, CASES)
sys.dont_write_bytecode = True

import dialogue

SCRIPTS = ("script-first-release", "script-withdrawn-release")
STOPPED = -9
SECTOR = 512
MIXES = 4
MEMORY = "/dev/shm"
STORE = b'{"fault":"store"}\n'
TEXTS = (["page", "r1"], ["list", "releases"], ["list", "documents"], ["list", "duties", "--release", "r1"])


def is_question(request):
    return request.startswith(b'{"ask"')


def read(path):
    with open(path, "rb") as file:
        return file.read()


def mixed(old, new, turn):
    """Each sector below the old end is the old one or the new one; past it are bytes that were written, or any others."""
    end = turn.choice((len(old), len(new), turn.randint(*sorted((len(old), len(new))))))
    written = new[: len(old)] + old[len(new) :]
    below = [turn.choice((old, written))[at : at + SECTOR] for at in range(0, len(old), SECTOR)]
    past = [turn.choice((new[at : at + SECTOR], turn.randbytes(SECTOR), bytes(SECTOR))) for at in range(len(old), end, SECTOR)]
    return b"".join(below + past)[:end]


class Desk:
    """The program, with its file."""

    def __init__(self, program, library, room):
        self.program, self.library, self.room = program, library, room
        self.file, self.told, self.kept = (os.path.join(room, name) for name in ("desk.db", "told", "kept"))

    def files(self):
        return [path for path in (self.file, self.file + "-wal", self.file + "-shm", self.told) if os.path.exists(path)]

    def clear(self):
        for path in self.files():
            os.remove(path)

    def lose(self, turn):
        """Restores each file as it was when it was last synced, or with a turn as a mixture of that and of what was written since."""
        for path in self.files():
            kept = os.path.join(self.kept, str(os.stat(path).st_ino))
            old, new = (read(name) if os.path.exists(name) else b"" for name in (kept, path))
            with open(path, "r+b") as file:
                file.write(mixed(old, new, turn) if turn else old)
                file.truncate()

    def run(self, requests, word="script", of=(), **disk):
        """Standard output, the status, standard error, and whether the call of the disk was met."""
        if os.path.exists(self.told):
            os.remove(self.told)
        env = {"LD_PRELOAD": self.library, "DISK_TOLD": self.told, **{"DISK_" + key.upper(): str(value) for key, value in disk.items()}}
        done = subprocess.run([self.program, word, "--db", self.file, *of], input=b"".join(requests), capture_output=True,
                              env=env if disk else {}, timeout=60, check=False)
        return done.stdout.splitlines(keepends=True), done.returncode, done.stderr, os.path.exists(self.told)

    def tables(self):
        """The rows of each table, as SQLite reads a copy of the files; none for files that aren't a database yet."""
        with tempfile.TemporaryDirectory(dir=self.room) as room:
            copy = os.path.join(room, "copy.db")
            if not os.path.exists(self.file):
                return None
            for end in ("", "-wal"):
                if os.path.exists(self.file + end):
                    shutil.copy(self.file + end, copy + end)
            connection = sqlite3.connect(copy)
            try:
                found = connection.execute("PRAGMA integrity_check").fetchall()
                if found != [("ok",)]:
                    sys.exit(f"the file isn't sound: {found}")
                names = [name for (name,) in connection.execute("SELECT name FROM sqlite_schema WHERE type = 'table' ORDER BY name")]
                return {name: sorted(connection.execute(f"SELECT * FROM {name}"), key=repr) for name in names}
            except sqlite3.DatabaseError:
                return None
            finally:
                connection.close()


class Script:
    """A script, and the tables after each of its requests in a run that nothing stops."""

    def __init__(self, desk, name):
        self.desk, self.name = desk, name
        text, self.replies, _ = dialogue.read(os.path.join(CASES, name + ".dialogue"))
        self.requests, self.replies = text.splitlines(keepends=True), self.replies.splitlines(keepends=True)
        self.after = []
        for count in range(len(self.requests) + 1):
            desk.clear()
            told = desk.run(self.requests[:count])[0]
            if told != self.replies[:count]:
                sys.exit(f"{name}: with {count} requests: {told}")
            self.after.append(desk.tables())

    def fail(self, at, why):
        sys.exit(f"{self.name}: {at}: {why}")

    def stop(self, **disk):
        """Whether there was such a call to stop at."""
        self.desk.clear()
        told, status, _, was_met = self.desk.run(self.requests, **disk)
        if not was_met:
            return False
        if status != STOPPED or told != self.replies[: len(told)]:
            self.fail(disk, f"status {status}, {told}")
        return self.stands(told, **disk)

    def lose(self, mix=0, **disk):
        """Whether there was such a call at which the disk was lost, with the mixture of this number, or none."""
        self.desk.clear()
        shutil.rmtree(self.desk.kept, ignore_errors=True)
        os.mkdir(self.desk.kept)
        told, status, _, was_met = self.desk.run(self.requests, kept=self.desk.kept, **disk)
        if not was_met:
            return False
        told = told[: told.index(STORE)] if STORE in told else told
        if status != 3 and len(told) < len(self.requests) or told != self.replies[: len(told)]:
            self.fail(disk, f"status {status}, {told}")
        self.desk.lose(random.Random(f"{mix} {disk['at']}") if mix else None)
        return self.stands(told, **disk)

    def stands(self, told, **disk):
        """That the tables are those after these replies, or after one more."""
        right = self.after[len(told) : len(told) + 2]
        by_sqlite = self.desk.tables()
        again, status, words, _ = self.desk.run([])
        by_desk = self.desk.tables()
        if (again, status, words) != ([], 0, b""):
            self.fail(disk, f"opened again: status {status}, {again}, {words}")
        is_begun = by_sqlite or told
        if by_desk not in right or is_begun and by_sqlite != by_desk:
            self.fail(disk, f"the tables after {len(told)} replies are other ones")
        return True

    def served(self, places):
        """The replies and the tables of a run of only the requests at these places."""
        self.desk.clear()
        told = self.desk.run([self.requests[place] for place in places])[0]
        return told, self.desk.tables()

    def refuse(self, **disk):
        """Whether there was such a call to refuse."""
        self.desk.clear()
        told, status, words, was_met = self.desk.run(self.requests, **disk)
        if not was_met:
            return False
        tables = self.desk.tables()
        _, status_after, words_after, _ = self.desk.run([])
        if (status_after, words_after) != (0, b"") or self.desk.tables() != (tables or self.after[0]):
            self.fail(disk, f"opened again: status {status_after}, {words_after}")
        failed = [place for place, reply in enumerate(told) if reply == STORE]
        if status == 3 and not words or status != 3 and (failed or len(told) < len(self.requests)):
            self.fail(disk, f"status {status}, {told}, {words}")
        answered = [place for place in range(len(told)) if place not in failed]
        recorded = [place for place in answered if b'"refused"' not in told[place] and not is_question(self.requests[place])]
        right = [self.served(recorded)[1]] if recorded else [self.after[0], {}, None]
        begun = [place for place in failed if not is_question(self.requests[place]) and place > max(recorded, default=-1)]
        if begun:
            right.append(self.served([*recorded, begun[0]])[1])
        if [told[place] for place in answered] != self.served(answered)[0] or tables not in right:
            self.fail(disk, f"status {status}, {told}, {words}, {tables}")
        return True

    def audit(self, **disk):
        """Whether there was such a call to refuse in an audit of what the script leaves."""
        before = read(self.desk.file)
        told, status, words, was_met = self.desk.run([], word="audit", **disk)
        if not was_met:
            return False
        is_answered = (told, status, words) == ([b"sound\n"], 0, b"")
        is_told = told in ([], [b"sound\n"]) and status == 3 and words.startswith(b"error: ")
        if not (is_answered or is_told) or read(self.desk.file) != before:
            self.fail(disk, f"audit: status {status}, {told}, {words}")
        return True

    def audits(self):
        """How many reads of an audit were refused."""
        self.desk.clear()
        self.desk.run(self.requests)
        return self.each(self.audit, calls="read", does="fail")

    def text(self, words, whole, **disk):
        """Whether there was such a call to refuse in a run that writes a text of what the script leaves."""
        before = self.desk.tables()
        told, status, why, was_met = self.desk.run([], word=words[0], of=words[1:], **disk)
        if not was_met:
            return False
        is_told = told in ([], [STORE], whole[0]) and status == 3 and why.startswith(b"error: ")
        if not (is_told or (told, status, why) == whole) or self.desk.tables() != before:
            self.fail(disk, f"{words}: status {status}, {told}, {why}")
        return True

    def texts(self):
        """How many calls were refused in runs that write a text."""
        self.desk.clear()
        self.desk.run(self.requests)
        count = 0
        for words in TEXTS:
            whole = self.desk.run([], word=words[0], of=words[1:])[:3]
            if not whole[0]:
                self.fail(words, f"status {whole[1]}, {whole[2]}")
            for calls in ("read", "write", "sync"):
                count += self.each(lambda **disk: self.text(words, whole, **disk), calls=calls, does="fail")
        return count

    def each(self, run, **disk):
        """How many calls there were."""
        count = 0
        while run(**disk, at=count + 1):
            count += 1
        return count


def main():
    with tempfile.TemporaryDirectory(dir=MEMORY if os.path.isdir(MEMORY) else None) as room:
        library = os.path.join(room, "disk.so")
        subprocess.run(["cc", "-O2", "-shared", "-fPIC", "-o", library, os.path.join(HERE, "disk.c"), "-ldl"], check=True)
        desk = Desk(os.path.abspath(sys.argv[1]), library, room)
        stopped, refused, lost, audits, texts = 0, 0, 0, 0, 0
        for name in SCRIPTS:
            script = Script(desk, name)
            stopped += sum(script.each(script.stop, calls=calls, does=does) for calls in ("write", "sync") for does in ("stop", "half", "after"))
            refused += sum(script.each(script.refuse, calls=calls, does="fail") for calls in ("read", "write", "sync"))
            refused += script.each(script.refuse, calls="write", does="full")
            lost += sum(script.each(script.lose, mix=mix, calls=calls, does="lose") for mix in range(MIXES + 1) for calls in ("write", "sync"))
            audits += script.audits()
            texts += script.texts()
        if 0 in (stopped, refused, lost, audits, texts):
            sys.exit("no call of the disk was met")
        print(f"{len(SCRIPTS)} scripts, stopped {stopped} times, refused a call of the disk {refused} times, its disk lost {lost} times,"
              f" refused {audits} reads of an audit and {texts} calls of texts: passed")


if __name__ == "__main__":
    main()
