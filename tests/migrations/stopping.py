"""Stops migrations, and makes calls of their disk fail, by tests/stops/disk.c. What is left must be the complete older file or the complete
migrated one, by SQLite and by the desk."""

import os
import random
import shutil
import signal
import sqlite3
import subprocess
import sys
import tempfile
import time

HERE = os.path.dirname(os.path.abspath(__file__))
sys.dont_write_bytecode = True

STOPPED = -9
SECONDS = 120
ENDS = ("", "-wal", "-shm", "-journal")


class Stops:
    """The program on a file of an older version, or on one that is audited."""

    def __init__(self, program, library, room):
        self.program, self.library = program, library
        self.path, self.told, self.kept = (os.path.join(room, name) for name in ("stopped.db", "told", "kept"))

    def put(self, data):
        for path in (self.told, *(self.path + end for end in ENDS)):
            if os.path.exists(path):
                os.remove(path)
        with open(self.path, "wb") as file:
            file.write(data)

    def run(self, *words, **disk):
        """Standard output, the status, standard error, and whether the call of the disk was met."""
        if os.path.exists(self.told):
            os.remove(self.told)
        env = {"LD_PRELOAD": self.library, "DISK_TOLD": self.told, **{"DISK_" + key.upper(): str(value) for key, value in disk.items()}}
        done = subprocess.run([self.program, *words, "--db", self.path], stdin=subprocess.DEVNULL, capture_output=True,
                              env=env if disk else {}, timeout=SECONDS, check=False)
        return done.stdout, done.returncode, done.stderr, os.path.exists(self.told)

    def killed(self, while_of):
        """What a migration that is killed after a while printed."""
        process = subprocess.Popen([self.program, "migrate", "--db", self.path], stdout=subprocess.PIPE, stderr=subprocess.PIPE)
        time.sleep(while_of)
        process.send_signal(signal.SIGKILL)
        return process.communicate(timeout=SECONDS)

    def keep(self):
        """The disk has the file as it is."""
        shutil.rmtree(self.kept, ignore_errors=True)
        os.mkdir(self.kept)
        shutil.copy(self.path, os.path.join(self.kept, str(os.stat(self.path).st_ino)))

    def lose(self):
        """Each file holds what it held when it was last synced."""
        for path in (self.path + end for end in ENDS):
            if os.path.exists(path):
                kept = os.path.join(self.kept, str(os.stat(path).st_ino))
                if os.path.exists(kept):
                    shutil.copy(kept, path)
                else:
                    os.truncate(path, 0)

    def tables(self):
        """What SQLite reads of a copy of the files: the texts and the rows of all tables, if it finds them sound."""
        with tempfile.TemporaryDirectory(dir=os.path.dirname(self.path)) as room:
            copy = os.path.join(room, "copy.db")
            for end in ENDS[:2]:
                if os.path.exists(self.path + end):
                    shutil.copy(self.path + end, copy + end)
            connection = sqlite3.connect(copy)
            try:
                if connection.execute("PRAGMA integrity_check").fetchall() != [("ok",)]:
                    return "unsound"
                texts = connection.execute("SELECT name, sql FROM sqlite_schema WHERE type = 'table' ORDER BY rowid").fetchall()
                return texts, [connection.execute(f"SELECT * FROM {name} ORDER BY rowid").fetchall() for name, _ in texts]
            except sqlite3.DatabaseError as error:
                return f"no database: {error}"
            finally:
                connection.close()


class Migration:
    """A migration, the tables before it, and those that an undisturbed one leaves."""

    def __init__(self, stops, name, version, data):
        self.stops, self.name, self.version, self.data = stops, name, version, data
        self.answer = f"migrated {version} to 3\n".encode()
        stops.put(data)
        self.old = stops.tables()
        begun = time.perf_counter()
        told = stops.run("migrate")[:3]
        self.seconds = time.perf_counter() - begun
        self.new = stops.tables()
        if told != (self.answer, 0, b"") or self.new == self.old:
            self.fail("undisturbed", told)
        self.left = {"older": 0, "migrated": 0}

    def fail(self, at, why):
        sys.exit(f"{self.name}: {at}: {why}")

    def stands(self, at, is_told=False):
        """That the file has the older tables or the migrated ones, the latter if that was reported, and that the desk finds the same."""
        found = self.stops.tables()
        if found not in (self.old, self.new) or is_told and found == self.old:
            self.fail(at, f"other tables: {str(found)[:500]}")
        is_old = found == self.old
        self.left["older" if is_old else "migrated"] += 1
        again = self.stops.run("migrate")[:3]
        if again != ((self.answer, 0, b"") if is_old else (b"fault: BadVersion\n", 1, b"")):
            self.fail(at, f"migrated again, {'older' if is_old else 'migrated'} tables: {again}")
        audited = self.stops.run("audit")[:3]
        if audited != (b"sound\n", 0, b"") or self.stops.tables() != self.new:
            self.fail(at, f"afterwards: {audited}")
        return True

    def stop(self, **disk):
        """Whether there was such a call to stop at."""
        self.stops.put(self.data)
        told, status, _, was_met = self.stops.run("migrate", **disk)
        if not was_met:
            return False
        if status != STOPPED or told not in (b"", self.answer):
            self.fail(disk, f"status {status}, {told}")
        return self.stands(disk, bool(told))

    def refuse(self, **disk):
        """Whether there was such a call to refuse."""
        self.stops.put(self.data)
        told, status, words, was_met = self.stops.run("migrate", **disk)
        if not was_met:
            return False
        if (told, status, words) != (self.answer, 0, b"") and (told, status, words.count(b"\n"), words[:7]) != (b"", 3, 1, b"error: "):
            self.fail(disk, f"status {status}, {told}, {words}")
        return self.stands(disk, bool(told))

    def lose(self, **disk):
        """Whether there was such a call at which the disk was lost."""
        self.stops.put(self.data)
        self.stops.keep()
        told, status, words, was_met = self.stops.run("migrate", kept=self.stops.kept, **disk)
        if not was_met:
            return False
        if (told, status) not in ((self.answer, 0), (b"", 3)) or status == 3 and not words.startswith(b"error: "):
            self.fail(disk, f"status {status}, {told}, {words}")
        self.stops.lose()
        return self.stands(disk, bool(told))

    def kill(self, turn):
        """A migration that is killed at any moment up to its end."""
        self.stops.put(self.data)
        while_of = turn.uniform(0, 1.1 * self.seconds)
        told, words = self.stops.killed(while_of)
        if told not in (b"", self.answer) or words:
            self.fail(f"killed after {while_of:.4f} s", f"{told}, {words}")
        return self.stands(f"killed after {while_of:.4f} s", bool(told))


def each(run, **disk):
    """How many calls there were."""
    count = 0
    while run(**disk, at=count + 1):
        count += 1
    return count


def read_by_an_audit(stops, data):
    """How many reads of the disk an audit of a sound file makes, each of which fails in turn: it is sound, or a fault in words."""

    def audit(**disk):
        stops.put(data)
        told, status, words, was_met = stops.run("audit", **disk)
        is_fault = (told, status) == (b"", 3) and words.startswith(b"error: ") and words.count(b"\n") == 1
        if not is_fault and (told, status, words) != (b"sound\n", 0, b""):
            sys.exit(f"audit, {disk}: status {status}, {told}, {words}")
        with open(stops.path, "rb") as file:
            if file.read() != data:
                sys.exit(f"audit, {disk}: the file isn't as it was")
        return was_met

    return each(audit, calls="read", does="fail")


def library_in(room):
    library = os.path.join(room, "disk.so")
    subprocess.run(["cc", "-O2", "-shared", "-fPIC", "-o", library, os.path.join(HERE, "../stops/disk.c"), "-ldl"], check=True)
    return library


def try_all(desk, room, files, kills):
    stops = Stops(desk.program, library_in(room), room)
    stopped, refused, lost, turn = 0, 0, 0, random.Random(1)
    migrations = [Migration(stops, f"{office} of version {version}", version, files[version][office])
                  for office, version in (("first-release", 1), ("withdrawn-release", 2), ("whole-office", 1))]
    for migration in migrations:
        stopped += sum(each(migration.stop, calls=calls, does=does) for calls in ("write", "sync") for does in ("stop", "half", "after"))
        refused += sum(each(migration.refuse, calls=calls, does="fail") for calls in ("read", "write", "sync"))
        refused += each(migration.refuse, calls="write", does="full")
        lost += sum(each(migration.lose, calls=calls, does="lose") for calls in ("write", "sync"))
    left = {name: sum(migration.left[name] for migration in migrations) for name in ("older", "migrated")}
    if 0 in (stopped, refused, lost, *left.values()):
        sys.exit("no call of the disk was met, or all left the same tables")
    told = f"stopped {stopped} times, refused a call of the disk {refused} times, its disk lost {lost} times"
    print(f"{told}: {left['older']} times the older tables were left, {left['migrated']} times the migrated ones", flush=True)
    for migration in migrations:
        migration.left = {"older": 0, "migrated": 0}
    for number in range(kills):
        migrations[number % len(migrations)].kill(turn)
    left = {name: sum(migration.left[name] for migration in migrations) for name in ("older", "migrated")}
    print(f"killed {kills} times: {left['older']} times the older tables were left, {left['migrated']} times the migrated ones", flush=True)
    # a file of this version, as the program leaves it
    reads = read_by_an_audit(stops, desk.first_release())
    print(f"{reads} reads of an audit refused in turn: sound, or a fault in words", flush=True)
