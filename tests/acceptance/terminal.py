"""Runs a command whose standard output is a terminal, and prints what it writes there, then what it writes to standard error:
python3 terminal.py PROGRAM WORD..

Standard error is a pipe, so that no progress is reported. The status is that of the command."""
import os
import pty
import subprocess
import sys


def main():
    ours, theirs = pty.openpty()
    with subprocess.Popen(sys.argv[1:], stdin=subprocess.DEVNULL, stdout=theirs, stderr=subprocess.PIPE) as run:
        os.close(theirs)
        shown = b""
        try:
            while piece := os.read(ours, 4096):
                shown += piece
        except OSError:
            pass  # (its end is closed)
        told = run.stderr.read()
    sys.stdout.buffer.write(shown.replace(b"\r\n", b"\n") + told)
    return run.returncode


if __name__ == "__main__":
    sys.exit(main())
