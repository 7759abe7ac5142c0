"""Gives `script` its input by so many reads: python3 reads.py PROGRAM

Standard input is a socket that keeps packets apart, so each read brings one packet."""

import socket
import subprocess
import sys

READS = 1_048_576
REQUEST = b'{"ask":"totals","release":"r"}\n'


def run(program, packets):
    """What the program tells of a request, of so many packets in all, the others being blanks, and of the end of the input."""
    ours, theirs = socket.socketpair(socket.AF_UNIX, socket.SOCK_SEQPACKET)
    desk = subprocess.Popen([program, "script"], stdin=theirs, stdout=subprocess.PIPE, stderr=subprocess.PIPE)
    theirs.close()
    try:
        ours.send(REQUEST)
        for _ in range(packets - 1):
            ours.send(b" ")
    except BrokenPipeError:
        print("the desk went away")
    ours.close()
    stdout, stderr = desk.communicate()
    print(desk.returncode, stdout.decode().strip(), stderr.decode().strip())


run(sys.argv[1], READS - 1)
run(sys.argv[1], READS)
