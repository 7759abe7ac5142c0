"""Kills of `desk import`, `desk catalogue` and `desk migrate`, a process for each file: what it replied is in the file, and what is in the
file is complete."""

import json
import os
import re
import shutil
import signal
import sqlite3
import subprocess
import time

import offices
import running

PACKAGES = 300
# After this many kills the desk is a new one.
NEW = 100


class Differs(Exception):
    """What was replied isn't in the file, or something else is."""


def line(**request):
    return json.dumps(request, separators=(",", ":")).encode() + b"\n"


def beside(word, err):
    """What a subcommand may write to standard error besides its reply: an import writes what it imported."""
    told = re.fullmatch(rb"read by profile 1: packages: [^\n]+\nfindings: [^\n]+\n", err)
    return err if word == "import" and told else b""


def killed(program, turn, longest, *words):
    """What a process printed until it was killed, and whether it ended before."""
    process = subprocess.Popen([program.path, *words], stdout=subprocess.PIPE, stderr=subprocess.PIPE)
    time.sleep(turn.uniform(0, longest))
    process.kill()
    out, err = process.communicate()
    if process.returncode not in (0, -signal.SIGKILL) or err != beside(words[0], err):
        raise Differs(f"status {process.returncode}, {out!r}, {err!r}")
    return out


def taken(program, *words):
    """How long a process takes that isn't killed."""
    done = program.run(*words)
    if running.unlike(done, {0}, beside(words[0], done.err)):
        raise Differs(repr(done))
    return 1.3 * done.seconds


def sound(program, path):
    done = program.run("audit", "--db", path)
    if (done.status, done.out, done.err) != (0, b"sound\n", b""):
        raise Differs(f"audit: {done!r}")


def document(number):
    packages = "".join(f"PackageName: p{k}\nSPDXID: SPDXRef-p{k}\nPackageLicenseConcluded: MIT\n" for k in range(PACKAGES))
    return offices.PLAIN_DOCUMENT.replace("office-3", f"office-3/{number}") + packages


def catalogue(number):
    return offices.CATALOGUE.replace('"source"]', f'"source", "form-{number}"]')


def write(path, text):
    with open(path, "w", encoding="utf-8") as file:
        file.write(text)


def replied(out, whole, what):
    """Whether a process printed its reply, which is this one."""
    if out and not whole.startswith(out):
        raise Differs(f"{what} is replied {out!r}, and not {whole!r}")
    return out == whole


def imports(program, room, turn, times):
    """Each document is imported and killed, and then imported again, which shows whether it is in the file."""
    file, count, told, stood = os.path.join(room, "document"), 0, 0, 0
    write(file, document("first"))
    longest = taken(program, "import", "--db", os.path.join(room, "first.db"), file)
    for number in range(times):
        count = 0 if number % NEW == 0 else count
        path = os.path.join(room, f"desk{number // NEW}.db")
        write(file, document(number))
        out = killed(program, turn, longest, "import", "--db", path, file)
        is_told = replied(out, b'{"document":%d,"new":true}\n' % (count + 1), f"import {number}")
        sound(program, path)
        again = program.run("import", "--db", path, file)
        found = json.loads(again.out)
        if found.get("document") != count + 1 or is_told and found["new"]:
            raise Differs(f"import {number}: {out!r}, and then {again!r}")
        count, told, stood = count + 1, told + is_told, stood + (not found["new"])
    return f"{told:,} imports were replied and are in the file, and {stood - told} that weren't replied"


def catalogues(program, room, turn, times):
    """Each catalogue is loaded and killed, and then asked for its form."""
    file, told, stood, revision = os.path.join(room, "catalogue"), 0, 0, 0
    write(file, catalogue("first") + '[[text]]\nlicence = "x"\nbody = "' + "x" * 100_000 + '"\n')
    longest = taken(program, "catalogue", "--db", os.path.join(room, "first.db"), file)
    for number in range(times):
        path = os.path.join(room, f"desk{number // NEW}.db")
        if number % NEW == 0:
            program.run("script", "--db", path, text=line(do="import", text=offices.PLAIN_DOCUMENT))
            revision = 0
        write(file, catalogue(number) + '[[text]]\nlicence = "x"\nbody = "' + "x" * 100_000 + '"\n')
        out = killed(program, turn, longest, "catalogue", "--db", path, file)
        is_told = replied(out, b'{"revision":%d}\n' % (revision + 1), f"catalogue {number}")
        sound(program, path)
        asked = program.run("script", "--db", path, text=line(ask="cheapest", document=1, package="SPDXRef-m", form=f"form-{number}"))
        stands = asked.out == b'{"rows":[]}\n'
        if not stands and (is_told or asked.out != b'{"at":[],"name":"UnknownForm","refused":11}\n'):
            raise Differs(f"catalogue {number}: {out!r}, and then {asked!r}")
        revision, told, stood = revision + stands, told + is_told, stood + stands
    return f"{told:,} catalogues were replied and are in the file, and {stood - told} that weren't replied"


def older(program, path, version):
    """A desk's file as an older version has it: without the tables that came later."""
    requests = offices.line(do="catalogue", text=offices.CATALOGUE) + offices.line(do="import", text=offices.DOCUMENT) + offices.opened("r", "binary", 1)
    program.run("script", "--db", path, text=requests.encode())
    connection = sqlite3.connect(path, isolation_level=None)
    connection.execute("DROP TABLE waiver")
    if version == 1:
        connection.execute("DROP TABLE reading")
    connection.execute("UPDATE meta SET version = ?", (version,))
    connection.execute("VACUUM")
    connection.close()
    for end in ("-wal", "-shm"):
        if os.path.exists(path + end):
            os.remove(path + end)


def migrations(program, room, turn, times):
    """An older file is migrated and killed: it still has the older version, or the new one and is sound."""
    if program.run("migrate", "--help").status != 0:
        return "this program has no migrate"
    told, stood, path = 0, 0, os.path.join(room, "desk.db")
    files = {version: os.path.join(room, f"older{version}.db") for version in (1, 2)}
    for version, file in files.items():
        older(program, file, version)
    shutil.copy(files[1], path)
    longest = taken(program, "migrate", "--db", path)
    for number in range(times):
        version = turn.choice([1, 2])
        for end in ("", "-wal", "-shm"):
            if os.path.exists(path + end):
                os.remove(path + end)
        shutil.copy(files[version], path)
        out = killed(program, turn, longest, "migrate", "--db", path)
        is_told = replied(out, b"migrated %d to 3\n" % version, f"migration {number}")
        again = program.run("migrate", "--db", path)
        stands = again.out.startswith(b"fault: BadVersion")
        if not stands and (is_told or again.out != b"migrated %d to 3\n" % version):
            raise Differs(f"migration {number}: {out!r}, and then {again!r}")
        sound(program, path)
        told, stood = told + is_told, stood + stands
    return f"{told:,} migrations were replied and are in the file, and {stood - told} that weren't replied"


KINDS = {"import": imports, "catalogue": catalogues, "migrate": migrations}
