"""Times a desk over HTTP: python3 bench/serving.py PROGRAM

- Questions for totals, each on a separate connection, compared with a loop in C that accepts, reads, writes the same bytes and closes
  (bench/accept.c). The client is the same for both, and asks alone or four at a time. It needs a C compiler.
- An import of about 4 MiB, compared with the same import by `desk script --db`, each into a new file: from the first byte sent to the reply.
- A request that comes in pieces of a byte, the next one sent when the desk waits for it: the desk's processor time.
- The memory of the process after 10,000 connections and after 100,000.

The files are in shared memory. Each time is the least of several runs, which alternate with those they are compared with.
"""

import os
import shutil
import socket
import subprocess
import sys
import tempfile
import time

HERE = os.path.dirname(os.path.abspath(__file__))
sys.path.insert(0, HERE)
sys.dont_write_bytecode = True

import rows
import script
import store

MEMORY = "/dev/shm"
RUNS = 5
CONNECTIONS = 20_000
CLIENTS = (1, 4)
IMPORTS = 15
PIECES = (4_096, 8_192, 16_384)
FIELDS = (1, 60)
FEWER, MORE = 10_000, 100_000

READY = rows.catalogue(1)
UNKNOWN = b'{"at":[],"name":"UnknownDuty","refused":23}'


class Served:
    """A program that prints where it listens, and serves a number of connections."""

    def __init__(self, *words):
        self.process = subprocess.Popen([str(word) for word in words], stdout=subprocess.PIPE)
        self.port = int(self.process.stdout.readline().rpartition(b":")[2])

    def raw(self, request):
        """The bytes of the reply."""
        with socket.create_connection(("127.0.0.1", self.port)) as peer:
            peer.sendall(request)
            told = bytearray()
            while piece := peer.recv(1 << 20):
                told += piece
        return bytes(told)

    def end(self):
        self.process.stdout.close()
        if self.process.wait() != 0:
            sys.exit("the server failed")


def desk(program, path, limit):
    return Served(program, "serve", "--db", path, "--port", 0, "--limit", limit)


def get(path):
    return b"GET %s HTTP/1.1\r\nHost: localhost\r\n\r\n" % path


def post(path, body):
    return b"POST %s HTTP/1.1\r\nHost: localhost\r\nContent-Length: %d\r\n\r\n" % (path, len(body)) + body


def response(body, status=b"200 OK"):
    head = b"HTTP/1.1 %s\r\nContent-Type: application/json\r\nContent-Length: %d\r\nConnection: close\r\n\r\n"
    return head % (status, len(body)) + body


def written(room, name, text):
    path = os.path.join(room, name)
    with open(path, "wb") as file:
        file.write(text)
    return path


def first_release(program, path):
    """A file whose desk has the first release."""
    with open(os.path.join(HERE, "../examples/first-release/script.jsonl"), "rb") as requests:
        subprocess.run([program, "script", "--db", path], stdin=requests, stdout=subprocess.DEVNULL, check=True)


def asked(accept, port, clients, count, texts):
    words = [accept, "ask", port, clients, count, *texts]
    return float(subprocess.run([str(word) for word in words], stdout=subprocess.PIPE, check=True).stdout)


def connections(program, accept, room):
    path = os.path.join(room, "first.db")
    first_release(program, path)
    reply = response(b'{"rows":[[1,0,1,0,0]]}')
    texts = [written(room, "request", get(b"/releases/r1/totals")), written(room, "reply", reply)]
    servers = (("the desk", lambda: desk(program, path, CONNECTIONS)), ("the loop in C", lambda: Served(accept, "serve", CONNECTIONS, texts[1])))
    print(f"{CONNECTIONS:,} connections, a question for totals each")
    for clients in CLIENTS:
        least = {}
        for _ in range(RUNS):
            for name, start in servers:
                server = start()
                seconds = asked(accept, server.port, clients, CONNECTIONS, texts)
                server.end()
                least[name] = min(seconds, least.get(name, seconds))
        told = ", ".join(f"{name} {CONNECTIONS / seconds:,.0f} a second" for name, seconds in least.items())
        print(f"  {clients} at a time: {told}, times {least['the loop in C'] / least['the desk']:.2f}")


def posted(program, path, document):
    """The seconds of an import over HTTP."""
    server = desk(program, path, 2)
    server.raw(post(b"/commands", READY.encode()))
    begun = time.perf_counter()
    reply = server.raw(post(b"/documents", document))
    spent = time.perf_counter() - begun
    server.end()
    if reply != response(b'{"document":1,"new":true}'):
        sys.exit(f"the import's reply is {reply!r}")
    return spent


def scripted(program, path, request):
    """The seconds of the same import as a line of a script."""
    run = store.Desk(program, path)
    run.step("catalogue", [READY])
    spent = run.step("import", [request])
    run.end()
    return spent


def imports(program, room):
    text = script.large_document()
    document, request = text.encode(), rows.line(do="import", text=text)
    http, line = [], []
    for _ in range(IMPORTS):
        for found, measure, what in ((http, posted, document), (line, scripted, request)):
            inner = tempfile.mkdtemp(dir=room)
            found.append(measure(program, os.path.join(inner, "desk.db"), what))
            shutil.rmtree(inner)
    least = min(http), min(line)
    print(f"an import of {len(document):,} bytes: posted {1000 * least[0]:.1f} ms, by a script {1000 * least[1]:.1f} ms, times {least[0] / least[1]:.2f}")


def switches(process):
    """How often a process has waited."""
    with open(f"/proc/{process.pid}/status", encoding="ascii") as file:
        return int(file.read().partition("\nvoluntary_ctxt_switches:")[2].split()[0])


def on_processor(process):
    """The seconds that a process has run."""
    with open(f"/proc/{process.pid}/schedstat", encoding="ascii") as file:
        return int(file.read().split()[0]) / 1e9


def padded(size, fields):
    """A request of this many bytes, all of them in the fields of its head."""
    head, end = b"GET /duties/1/changes HTTP/1.1\r\n", b"\r\n"
    left = size - len(head) - len(end)
    lengths = [left // fields + (place < left % fields) for place in range(fields)]
    return head + b"".join(b"A: %s\r\n" % (b"b" * (length - 5)) for length in lengths) + end


def crumbs(server, request):
    """The desk's processor seconds for a request that comes byte by byte."""
    with socket.create_connection(("127.0.0.1", server.port)) as peer:
        peer.setsockopt(socket.IPPROTO_TCP, socket.TCP_NODELAY, 1)
        time.sleep(0.05)
        waits, begun = switches(server.process), on_processor(server.process)
        for place in range(len(request)):
            peer.sendall(request[place : place + 1])
            while switches(server.process) <= waits + place:
                pass
        spent = on_processor(server.process) - begun
        if peer.recv(1 << 16) != response(UNKNOWN, b"404 Not Found"):
            sys.exit("another reply to a request in pieces")
    return spent


def pieces(program, room):
    print("a request in pieces of a byte, on a processor")
    for fields in FIELDS:
        server = desk(program, os.path.join(room, f"pieces-{fields}.db"), RUNS * len(PIECES))
        least = {}
        for _ in range(RUNS):
            for count in PIECES:
                seconds = crumbs(server, padded(count, fields))
                least[count] = min(seconds, least.get(count, seconds))
        server.end()
        told = ", ".join(f"{count:,} {1000 * seconds:.1f} ms ({1e6 * seconds / count:.2f} µs each)" for count, seconds in least.items())
        print(f"  {fields} fields: {told}")


def held(process):
    """The KiB in memory, and the descriptors, of a process."""
    with open(f"/proc/{process.pid}/status", encoding="ascii") as file:
        memory = int(file.read().partition("\nVmRSS:")[2].split()[0])
    return memory, len(os.listdir(f"/proc/{process.pid}/fd"))


def leaks(program, accept, room):
    path = os.path.join(room, "leaks.db")
    first_release(program, path)
    bad, command = b'{"fault":"request"}', b'{"fault":"command"}'
    pairs = [
        (get(b"/releases/r1/totals"), response(b'{"rows":[[1,0,1,0,0]]}')),
        (get(b"/duties/9/changes"), response(UNKNOWN, b"404 Not Found")),
        (post(b"/commands", b'{"do":"open"}'), response(command, b"400 Bad Request")),
        (b"no request\r\n\r\n", response(bad, b"400 Bad Request")),
    ]
    texts = [written(room, f"{name}-{place}", text) for place, pair in enumerate(pairs) for name, text in zip(("request", "reply"), pair)]
    server = desk(program, path, MORE + 1)
    print("connections one after the other, in turn with an answer, a refusal, a line that is no command and bytes that are no request")
    for count, more in ((FEWER, FEWER), (MORE, MORE - FEWER)):
        asked(accept, server.port, 1, more, texts)
        memory, descriptors = held(server.process)
        print(f"  after {count:>7,} the process holds {memory:,} KiB and {descriptors} descriptors")
    server.raw(get(b"/releases/r1/totals"))
    server.end()


def main():
    program = os.path.abspath(sys.argv[1])
    with tempfile.TemporaryDirectory(dir=MEMORY) as room:
        accept = os.path.join(room, "accept")
        subprocess.run(["cc", "-O2", "-o", accept, os.path.join(HERE, "accept.c")], check=True)
        connections(program, accept, room)
        imports(program, room)
        pieces(program, room)
        leaks(program, accept, room)


if __name__ == "__main__":
    main()
