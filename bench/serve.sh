#!/bin/sh
# bench/serve.sh [PROGRAM] [REQUESTS] [ROUNDS]: the cost of requests over HTTP, 2,000 of a kind or
# the given (even) number, in one run. One client on loopback makes one after another, with a
# connection each. A line has the subject, the desk's figure, its peer's and the ratio of the two,
# by medians over the rounds (9), in which the processes take turns:
#   GET /level          beside python3's own http.server, which answers the same client with the
#                       same bytes
#   POST a revocation   of one officer to /dbx/digests, a new digest each, and of another officer
#                       its Confirm, in turn, a key and a commit each, beside sqlite3's shell, which
#                       puts the same rows as text into a file of the same tables, one transaction a
#                       call, with WAL and synchronous=FULL
#   memory              the most that a server had (VmHWM) after 1,000 GET /level, beside
#                       http.server's; and what an image of 128 MiB by POST /verdict then adds,
#                       beside the image's length
# Times are those of whole processes, and then the same less an idle one of the same round: a server
# whose one connection has no request, a shell that counts one table. Processor time doesn't include
# the client's; the clock does. Fails if a response isn't the expected one, or if the desk and the
# shell hold different rows. The desks are in TMPDIR or /tmp, whose disk is measured. It ends after
# half an hour at most. Not part of the gate: it needs python3, sqlite3 and xxd.
set -eu
. "$(dirname -- "$(readlink -f -- "$0")")/../checks/common.sh"
needs python3 sqlite3 xxd
find_program "$@"
enter_room
# The process that is being timed ends with this script.
leave_serving() {
    if [ -s "$room/live" ]; then kill "$(cat "$room/live")" 2> /dev/null || :; fi
    leave
}
trap leave_serving EXIT

# ---- a desk of two officers, and an image of 128 MiB: one section as long as the file allows

"$program" init "$room/desk.db" 00112233-4455-6677-8899-aabbccddeeff
echo olga-token-000006 | "$program" person "$room/desk.db" olga officer k1 > "$room/person"
echo otto-token-000007 | "$program" person "$room/desk.db" otto officer k2 > "$room/person"
"$program" level "$room/desk.db" > "$room/level"
cp "$root/examples/tiny.efi" "$room/image.efi"
printf 00feff07 | xxd -r -p | dd of="$room/image.efi" bs=1 seek=344 conv=notrunc 2> "$room/dd.err"
truncate -s 134217728 "$room/image.efi"

# ---- the plain server: plain.py ANSWER PORT COUNT

cat > "$room/plain.py" << 'PYTHON'
import http.server
import sys

with open(sys.argv[1], "rb") as file:
    ANSWER = file.read()
PORT, COUNT = map(int, sys.argv[2:])


class Handler(http.server.BaseHTTPRequestHandler):
    def do_GET(self):
        self.wfile.write(ANSWER)


with http.server.HTTPServer(("127.0.0.1", PORT), Handler) as server:
    for _ in range(COUNT):
        server.handle_request()
PYTHON

# ---- the client

PYTHONPATH=$root python3 -B - "$program" "$room" "${2:-2000}" "${3:-9}" << 'PYTHON'
import hashlib
import os
import shutil
import signal
import socket
import statistics
import subprocess
import sys
import time

from checks.support.ports import Held, listens

PROGRAM, ROOM = sys.argv[1:3]
COUNT, ROUNDS = map(int, sys.argv[3:])
GETS = 1_000
SECONDS = 60

signal.alarm(1_800)
sys.stdout.reconfigure(line_buffering=True)


def content(name):
    with open(f"{ROOM}/{name}", "rb") as file:
        return file.read()


def write(name, data):
    with open(f"{ROOM}/{name}", "wb") as file:
        file.write(data)


class Child:
    """A process, timed from its start to its end. Until then its number stands in the file
    `live`."""

    def __init__(self, words, given=subprocess.DEVNULL):
        self.words = words
        self.start = time.perf_counter()
        self.child = subprocess.Popen(words, stdin=given, stdout=subprocess.DEVNULL)
        write("live", b"%d" % self.child.pid)

    def end(self):
        """Waits for its end, and gives the seconds of clock and processor."""
        _, status, used = os.wait4(self.child.pid, 0)
        clock = time.perf_counter() - self.start
        self.child.returncode = os.waitstatus_to_exitcode(status)
        os.remove(f"{ROOM}/live")
        if self.child.returncode:
            sys.exit(f"{self.words} ended with {self.child.returncode}")
        return clock, used.ru_utime + used.ru_stime

    def most_memory(self):
        """The most bytes that it had."""
        with open(f"/proc/{self.child.pid}/status") as lines:
            return next(int(line.split()[1]) for line in lines if line.startswith("VmHWM:")) * 1024


class Server(Child):
    """A process that takes so many connections at a port of its own."""

    def __init__(self, words, count):
        self.held, self.is_there = Held(), False
        self.port = self.held.port
        super().__init__([*words, str(self.port), str(count)])

    def connect(self):
        """A connection, once it listens itself."""
        last = time.monotonic() + SECONDS
        while self.child.poll() is None and time.monotonic() < last:
            self.is_there = self.is_there or listens(self.child.pid, self.port)
            if not self.is_there:
                time.sleep(0.001)
                continue
            peer = socket.socket()
            peer.settimeout(SECONDS)
            try:
                peer.connect(("127.0.0.1", self.port))
                return peer
            except ConnectionRefusedError:
                peer.close()
            time.sleep(0.001)
        sys.exit(f"{self.words}: nobody listens")

    def ask(self, request, wanted):
        """Sends the request, or none, and reads to the connection's end."""
        with self.connect() as peer:
            peer.sendall(request)
            if not request:
                peer.shutdown(socket.SHUT_WR)
            found = b"".join(iter(lambda: peer.recv(65_536), b""))
        if found != wanted:
            sys.exit(f"{self.words}: {found[:300]} in place of {wanted[:300]}")


# ---- requests and their responses


OLGA, OTTO = "olga-token-000006", "otto-token-000007"


def head(token, line, *fields):
    lines = [f"{line} HTTP/1.1", "Host: 127.0.0.1", f"Desk-Token: {token}", *fields, ""]
    return "".join(f"{text}\r\n" for text in lines).encode()


def post(token, path, body, *fields):
    return head(token, f"POST {path}", f"Content-Length: {len(body)}", *fields) + body


def ok(kind, body):
    head = f"HTTP/1.1 200 OK\r\nContent-Type: {kind}\r\nContent-Length: {len(body)}\r\n"
    return f"{head}Connection: close\r\n\r\n".encode() + body


def revocation(number, digest):
    """The two requests of a revocation, each with the response that is due to it."""
    proposed = post(
        OLGA, "/dbx/digests", b'{"digest":"%s"}' % digest.encode(), f"Desk-Key: k{number}"
    )
    yield proposed, ok("application/json", b'{"proposal":%d,"reply":"proposed"}' % number)
    confirmed = post(OTTO, f"/proposals/{number}/confirm", b"", f"Desk-Key: k{number}")
    counts = b'"certificates":0,"components":0,"digests":1,"passed":0'
    yield confirmed, ok(
        "application/json", b'{%s,"proposal":%d,"reply":"confirmed"}' % (counts, number)
    )


GET = head(OLGA, "GET /level")
LEVEL = ok("text/plain", content("level"))
GET_LEVEL = [(GET, LEVEL)] * COUNT
DIGESTS = [hashlib.sha256(b"%d" % n).hexdigest() for n in range(COUNT // 2)]
REVOCATIONS = [
    each for number, digest in enumerate(DIGESTS, 1) for each in revocation(number, digest)
]
VERDICT = ok("application/json", b'{"verdict":"not-listed"}')

# ---- the processes that are timed


def fresh(name):
    """A copy of the desk's file, without a log beside it."""
    path = f"{ROOM}/{name}.db"
    for end in ("-wal", "-shm"):
        if os.path.exists(path + end):
            os.remove(path + end)
    return shutil.copyfile(f"{ROOM}/desk.db", path)


def desk(name):
    return [PROGRAM, "serve", fresh(name)]


def plain():
    return [sys.executable, f"{ROOM}/plain.py", f"{ROOM}/answer"]


def served(words, exchanges):
    """What a server takes for these requests, each with its response."""
    server = Server(words, len(exchanges))
    for request, response in exchanges:
        server.ask(request, response)
    return server.end()


def idle(words):
    return served(words, [(b"", b"")])


def shell(script):
    """What sqlite3's shell takes for a script, on a desk's file of its own."""
    path = fresh("shell")
    with open(f"{ROOM}/{script}", "rb") as given:
        return Child(["sqlite3", "-batch", path], given).end()


def transactions(number, digest):
    """What the two requests of a revocation change; the desk's first calls are those of its
    officers."""
    item = f"INSERT INTO proposal_items VALUES ({number}, 0, 'digest', X'{digest}', '', 0);"
    row = f"INSERT INTO proposals VALUES ({number}, 'olga', 'digest', 0, 0, 'open');"
    call = (
        f"INSERT INTO calls VALUES ({2 * number + 1}, 'olga', 'k{number}',"
        f" 'revoke-digest {digest}', 'proposed {number}');"
    )
    proposed = f"BEGIN;\n{item}\n{row}\n{call}\nCOMMIT;\n"
    revoked = f"INSERT INTO revoked_digests VALUES (X'{digest}');"
    closed = f"UPDATE proposals SET state = 'confirmed' WHERE no = {number};"
    call = (
        f"INSERT INTO calls VALUES ({2 * number + 2}, 'otto', 'k{number}', 'confirm {number}',"
        f" 'confirmed {number} 1 0 0 0');"
    )
    return f"{proposed}BEGIN;\n{revoked}\n{closed}\n{call}\nCOMMIT;\n"


PRAGMAS = "PRAGMA journal_mode=WAL;\nPRAGMA synchronous=FULL;\n"
write("answer", LEVEL)
write("idle.sql", f"{PRAGMAS}SELECT count(*) FROM desk;\n".encode())
write("rows.sql", (
    PRAGMAS + "".join(transactions(number, digest) for number, digest in enumerate(DIGESTS, 1))
).encode())
RUNS = {
    "desk idle": lambda: idle(desk("read")),
    "desk GET": lambda: served(desk("read"), GET_LEVEL),
    "plain idle": lambda: idle(plain()),
    "plain GET": lambda: served(plain(), GET_LEVEL),
    "desk POST": lambda: served(desk("ours"), REVOCATIONS),
    "shell idle": lambda: shell("idle.sql"),
    "shell POST": lambda: shell("rows.sql"),
}


def same_rows():
    """After the last round the desk's file is sound, and holds the shell's rows."""
    dumps = []
    for name in ("ours", "shell"):
        words = ["sqlite3", "-batch", f"{ROOM}/{name}.db"]
        found = subprocess.run(
            words, input=b"PRAGMA integrity_check;\n.dump\n", capture_output=True, check=True,
            timeout=SECONDS
        )
        dumps.append(found.stdout)
    ours, theirs = dumps
    count = ours.count(b"'confirmed ")
    return ours == theirs and ours.startswith(b"ok\n") and count == len(DIGESTS)


# ---- the results


def tell(what, ours, theirs, places=3):
    print(f"{what:56} {ours:>15,.{places}f} {theirs:>15,.{places}f} {ours / theirs:>7.2f}")


def middle(costs, name, is_less):
    """The medians of clock and processor, whole or less the idle run of the same round."""
    pairs = costs[name]
    if is_less:
        empty = costs[f"{name.split()[0]} idle"]
        pairs = [(a - c, b - d) for (a, b), (c, d) in zip(pairs, empty)]
    return [statistics.median(column) for column in zip(*pairs)]


def tell_times(costs, what, ours, theirs):
    for is_less in (False, True):
        how = f"{what}, less idle" if is_less else what
        clock, processor = middle(costs, ours, is_less)
        other_clock, other_processor = middle(costs, theirs, is_less)
        tell(f"{how}: requests a second", COUNT / clock, COUNT / other_clock, 0)
        tell(f"{how}: clock, s", clock, other_clock)
        tell(f"{how}: processor, s", processor, other_processor)


def asked_often(words, more):
    """A server that was asked for the level a thousand times, and takes so many connections
    more."""
    server = Server(words, GETS + more)
    for _ in range(GETS):
        server.ask(GET, LEVEL)
    return server


def leave(server):
    """Gives a server its last connection, which has no request."""
    server.ask(b"", b"")
    server.end()


def tell_memory():
    other = asked_often(plain(), 1)
    theirs = other.most_memory()
    leave(other)
    server = asked_often(desk("read"), 2)
    before = server.most_memory()
    image = content("image.efi")
    server.ask(post(OLGA, "/verdict", image), VERDICT)
    after = server.most_memory()
    leave(server)
    tell(f"{GETS:,} GET /level, http.server: memory, bytes", before, theirs, 0)
    tell("an image, its length: more memory, bytes", after - before, len(image), 0)


print(
    f"{COUNT:,} requests, {ROUNDS} rounds; load {os.getloadavg()[0]:.1f} on {os.cpu_count()}"
    " processors"
)
COSTS = {name: [] for name in RUNS}
for _ in range(ROUNDS):
    for name, run in RUNS.items():
        COSTS[name].append(run())
if not same_rows():
    sys.exit("the desk and the shell hold other rows")
print(f"{'what, beside its peer':56} {'desk':>15} {'peer':>15} {'ratio':>7}")
tell_times(COSTS, "GET /level, http.server", "desk GET", "plain GET")
tell_times(COSTS, "POST a revocation, sqlite3", "desk POST", "shell POST")
tell_memory()
print(f"load {os.getloadavg()[0]:.1f}")
PYTHON
