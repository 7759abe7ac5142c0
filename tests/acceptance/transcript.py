"""Runs the sessions that the pages show: python3 transcript.py PROGRAM

A session is a block of README.md or of docs/ that has lines `$ COMMAND`, each followed by what the command prints: on a terminal, unless its
output goes to a file. The commands run in the top folder, one after the other, with `desk` as the program; what a page keeps in /tmp is kept
in the folder where this is run. Each command with another output is printed, with that output. README.md shows no line of JSON.
"""

import glob
import os
import re
import shlex
import subprocess
import sys

HERE = os.path.dirname(os.path.abspath(__file__))
TOP = os.path.join(HERE, "../..")
README = os.path.join(TOP, "README.md")
TERMINAL = os.path.join(HERE, "terminal.py")


def sessions(path):
    """The blocks with commands, each as a list of commands with what they print."""
    with open(path, encoding="utf-8") as file:
        blocks = re.findall(r"^```(\w*)\n(.*?)^```$", file.read(), flags=re.M | re.S)
    for language, block in blocks:
        if not language and block.startswith("$ "):
            yield re.findall(r"^\$ (.*)\n((?:(?!\$ ).*\n)*)", block, flags=re.M)


def program_folders(program, room):
    """Two folders with the program as `desk`: as it is, and with a terminal as its output."""
    plain, shown = (os.path.join(room, name) for name in ("plain", "shown"))
    for folder in (plain, shown):
        os.mkdir(folder)
    os.symlink(program, os.path.join(plain, "desk"))
    with open(os.path.join(shown, "desk"), "w", encoding="utf-8") as file:
        file.write(f'#!/bin/sh\nexec {shlex.join([sys.executable, "-B", TERMINAL, program])} "$@"\n')
    os.chmod(os.path.join(shown, "desk"), 0o755)
    return plain, shown


def printed(command, room, folder):
    """What a command prints, with `desk` from this folder."""
    known = {**os.environ, "PATH": folder + os.pathsep + os.environ["PATH"]}
    words = ["sh", "-c", command.replace("/tmp/", room + "/")]
    how = {"stdin": subprocess.DEVNULL, "stdout": subprocess.PIPE, "stderr": subprocess.STDOUT}
    return subprocess.run(words, cwd=TOP, env=known, check=False, **how).stdout.decode()


def main():
    room = os.getcwd()
    plain, shown = program_folders(os.path.abspath(sys.argv[1]), room)
    count = 0
    for path in [README, *sorted(glob.glob(os.path.join(TOP, "docs/*.md")))]:
        for command, wanted in (pair for session in sessions(path) for pair in session):
            found = printed(command, room, plain if set("<>") & set(command) else shown)
            count += 1
            if found != wanted:
                print(f"{os.path.basename(path)}: {command}: {found}")
            if path == README and re.search(r"^[\[{]", wanted, flags=re.M):
                print(f"{os.path.basename(path)}: {command}: shows JSON")
    if not count:
        print("the pages show no session")


if __name__ == "__main__":
    main()
