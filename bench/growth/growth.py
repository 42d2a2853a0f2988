"""Measures what requests and proposals make grow: see ../growth.sh."""
import os
import re
import statistics
import subprocess
import sys
import time

from checks.support.images import PLAIN, sha256, with_text
from checks.support.messages import got
from checks.support.program import alone
from checks.support.says import expect, fail
from checks.support.server import Server
from checks.support.steps import named, proposes, submits

sys.stdout.reconfigure(line_buffering=True)
REQUESTS = int(sys.argv[2]) if len(sys.argv) > 2 else 10_000
ROUNDS = 5
# The most memory that a list may take, of its length, and an opening, of the file's.
MOST_MEMORY = 1.5
# The bytes of the file that each takes, as the administrator is told; a measured one may be a
# twentieth above.
TABLE = f"{os.path.dirname(os.path.realpath(__file__))}/../../packaging/README.md"
SLACK = 1.05
HEAD = "sbat,1,SBAT Version,sbat,1,https://github.com/rhboot/shim/blob/main/SBAT.md\n"
# As many components as a request may have, with names as long as they may be.
LARGE = with_text(
    PLAIN, (HEAD + "".join(f"c{it:03}{'n' * 60},1,a,b,1,u\n" for it in range(255))).encode()
)


def documented():
    """The bytes of a request of a plain image, of one of 256 components, and of a proposal of a
    digest."""
    with open(TABLE, encoding="utf-8") as page:
        said = re.search(
            r"(\d+) bytes for an image without SBAT, (\d+) KB for one of 256 components.*?(\d+)"
            r" bytes for a proposal of a digest",
            page.read(), re.S
        )
    if not said:
        fail("packaging/README.md doesn't say what a request takes")
    return int(said[1]), 1000 * int(said[2]), int(said[3])


def timed(run):
    """The median of the clock, in seconds."""
    found = []
    for _ in range(ROUNDS):
        begun = time.monotonic()
        run()
        found.append(time.monotonic() - begun)
    return statistics.median(found)


def most_memory(*words):
    """The most memory of a process that runs these words, in bytes."""
    pid = os.posix_spawn(
        words[0], words, os.environ,
        file_actions=[(os.POSIX_SPAWN_OPEN, 1, "/dev/null", os.O_WRONLY, 0)]
    )
    _, status, used = os.wait4(pid, 0)
    if status:
        fail(f"{' '.join(words)}: status {status}")
    return used.ru_maxrss * 1024


def checked(desk):
    ran = subprocess.run(
        ["sqlite3", desk, "PRAGMA integrity_check"], capture_output=True, check=False
    )
    if ran.stdout != b"ok\n":
        fail(f"sqlite3 {desk}: {ran.stdout!r} {ran.stderr!r}")


def listing(program, desk, name, path):
    """The length of the response, its time, and the memory that it takes beyond an idle
    server's."""
    with Server(program, desk) as server:
        server.ask(got(name, "/level"))
        idle = server.memory()
        begun = time.monotonic()
        answer = server.ask(got(name, path), ends=False)
        took = time.monotonic() - begun
        if not answer.startswith(b"HTTP/1.1 200 "):
            fail(f"GET {path}: {answer[:200]!r}")
        return len(answer), took, server.memory() - idle


def told(program, empty, desk, count, what, most):
    size, first = os.path.getsize(desk), os.path.getsize(empty)
    opening = timed(lambda: program.gives("level", desk))
    beside = timed(lambda: checked(desk))
    memory = most_memory(program.path, "level", desk) - most_memory(program.path, "level", empty)
    print(
        f"{what}: {count:,}, a file of {size / 1e6:.1f} MB,"
        f" {(size - first) / count:,.0f} bytes each"
    )
    print(
        f"  opening {opening:.3f} s, sqlite3's integrity_check {beside:.3f} s, ratio"
        f" {opening / beside:.2f}; {memory / 1e6:.1f} MB of memory"
    )
    if size - first > SLACK * most * count:
        fail(f"{what} take more than {most:,} bytes each, as packaging/README.md has it")
    if memory > MOST_MEMORY * size:
        fail(f"an opening takes more than {MOST_MEMORY} of the file's length in memory")


def filled(program, name, steps):
    desk = program.founded(name)
    with Server(program, desk) as server:
        for step in steps:
            expect(server.ask(step.given, ends=False), step.due, "a call of the filling")
    program.gives("level", desk)
    return desk


def lists(program, desk, name, path):
    # (an idle server has a huge page of two megabytes more or less)
    lengths, times, memories = zip(*(listing(program, desk, name, path) for _ in range(ROUNDS)))
    length, took, memory = lengths[0], statistics.median(times), statistics.median(memories)
    print(
        f"  GET {path}: {length / 1e6:.2f} MB in {took:.3f} s, {memory / 1e6:.1f} MB of memory,"
        f" {memory / length:.2f} of its length"
    )
    if memory > MOST_MEMORY * length:
        fail(f"GET {path} takes more than {MOST_MEMORY} of its length in memory")


def minutes(program, desk):
    """The length of the minutes, and the memory that `desk minutes` takes beyond an opening and the
    level."""
    length = len(
        subprocess.run([program.path, "minutes", desk], capture_output=True, check=True).stdout
    )
    memory = statistics.median(
        most_memory(program.path, "minutes", desk) - most_memory(program.path, "level", desk)
        for _ in range(ROUNDS)
    )
    print(
        f"  desk minutes: {length / 1e6:.2f} MB, {memory / 1e6:.1f} MB of memory,"
        f" {memory / length:.2f} of its length"
    )
    if memory > MOST_MEMORY * length:
        fail(f"desk minutes takes more than {MOST_MEMORY} of its length in memory")


PLAIN_REQUEST, LARGE_REQUEST, PROPOSAL = documented()
with alone(sys.argv[1]) as program:
    empty = program.founded("empty.db")
    program.gives("level", empty)
    small = filled(
        program, "small.db",
        (submits("ann", f"k{it}", PLAIN, "a loader", it) for it in range(1, REQUESTS + 1))
    )
    told(program, empty, small, REQUESTS, "requests of a plain image", PLAIN_REQUEST)
    lists(program, small, "rita", "/requests")
    minutes(program, small)
    # (some 22 MB where there are 10,000 of the others)
    count = max(1, REQUESTS * 52 // 1_000)
    large = filled(
        program, "large.db",
        (submits("ann", f"k{it}", LARGE, "a loader", it) for it in range(1, count + 1))
    )
    told(program, empty, large, count, "requests of 256 components", LARGE_REQUEST)
    lists(program, large, "rita", "/requests")
    count = max(1, REQUESTS // 10)
    digests = filled(
        program, "proposals.db",
        (
            proposes("olga", f"k{it}", "/dbx/digests", named(sha256(str(it).encode())), it)
            for it in range(1, count + 1)
        ),
    )
    told(program, empty, digests, count, "proposals of a digest", PROPOSAL)
    lists(program, digests, "olga", "/proposals")
