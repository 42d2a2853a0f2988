#!/usr/bin/env -S python3 -B
"""checks/soak.py SECONDS [PROGRAM]: a desk that serves for SECONDS while clients are slow, silent,
broken, huge and many, and two officers go on working. It prints how many answers the officers had,
their longest wait and the most memory. It fails if an officer has another answer or waits longer
than the two clients before one may hold the desk (30 seconds each, and 15 more), if the desk takes
more memory than an image's limit and 64 MiB or ends, or if its file then lacks an acknowledged
command or isn't sound. The clients let go when SECONDS end, so only a soak of some 90 or more can
find too long a wait. It needs sqlite3."""
from __future__ import annotations

import random
import socket
import struct
import subprocess
import sys
import tempfile
import threading
import time
from pathlib import Path
from typing import Callable, Iterable

ROOT = Path(__file__).resolve().parents[1]
sys.path.insert(0, str(ROOT))
from checks.support.messages import got, posted, request, token  # noqa: E402
from checks.support.program import Program  # noqa: E402
from checks.support.server import Server  # noqa: E402
from checks.support.steps import named  # noqa: E402
from checks.support.tools import ran  # noqa: E402

HOLDS, SLACK = 2 * 30, 15
IMAGE = 134_217_728
MOST_MEMORY = IMAGE + 64 * 1024 * 1024


class Soak:
    """The served desk, and what its officers saw."""

    def __init__(self, server: Server) -> None:
        self.server = server
        self.ended = threading.Event()
        self.acknowledged: list[tuple[str, str]] = []
        self.waits: list[float] = []
        self.faults: list[str] = []

    def connect(self) -> socket.socket:
        return socket.create_connection(("127.0.0.1", self.server.port), HOLDS + SLACK + 60)

    def ask(self, given: bytes) -> bytes:
        with self.connect() as peer:
            peer.sendall(given)
            return b"".join(iter(lambda: peer.recv(65536), b""))

    # ---- the officers

    def works(self, given: bytes, wanted: bytes, kept: tuple[str, str] | None = None) -> None:
        """One answer for an officer: its wait is taken, and what it acknowledges is kept."""
        began = time.monotonic()
        try:
            answer = self.ask(given)
        except OSError as fault:
            answer = repr(fault).encode()
        self.waits.append(time.monotonic() - began)
        head, _, body = answer.partition(b"\r\n\r\n")
        if b" 200 " not in head.split(b"\r\n")[0] or not body.startswith(wanted):
            self.faults.append(f"{given[:60]!r}: {answer[:200]!r}")
        elif kept:
            self.acknowledged.append(kept)

    def officers(self) -> None:
        """They go on working up to the first fault."""
        number = 0
        while not self.ended.is_set() and not self.faults:
            number += 1
            revoked, path = named(f"{number:064x}"), f"/proposals/{number}/confirm"
            key, other = f"p{number}", f"c{number}"
            given = posted("olga", key, "/dbx/digests", revoked)
            self.works(given, b'{"proposal":', ("olga", key))
            confirm = posted("otto", other, path, b"")
            self.works(confirm, b'{"certificates":0', ("otto", other))
            self.works(got("otto", "/level"), b"sbat,1,")

    # ---- the others

    def until_let_go(self, pieces: Iterable[bytes]) -> None:
        """Sends the pieces, one a second, until the desk lets go or the soak ends."""
        with self.connect() as peer:
            peer.settimeout(1)
            for piece in pieces:
                peer.sendall(piece)
                try:
                    if self.ended.is_set() or not peer.recv(4096):
                        return
                except socket.timeout:
                    pass

    def slow(self) -> None:
        filled = [("X-Filler", "a" * 4000), ("Desk-Token", token("ann"))]
        self.until_let_go(bytes([one]) for one in request("GET", "/level", filled))

    def silent(self) -> None:
        self.until_let_go(b"" for _ in range(300))

    def broken(self) -> None:
        time.sleep(0.2)
        with self.connect() as peer:
            peer.sendall(random.randbytes(random.randrange(1, 400)))
            if random.random() < 0.5:
                peer.setsockopt(socket.SOL_SOCKET, socket.SO_LINGER, struct.pack("ii", 1, 0))

    def huge(self) -> None:
        time.sleep(2)
        fields = [("Desk-Token", token("ann"))]
        beyond = [("Content-Length", str(IMAGE + 1)), *fields]
        self.ask(random.choice([
            request("POST", "/verdict", fields, bytes(IMAGE)),
            request("POST", "/verdict", beyond) + bytes(1_000_000),
            b"GET /level HTTP/1.1\r\nX-Filler: " + b"a" * 20_000,
        ]))

    def many(self) -> None:
        time.sleep(0.1)
        self.ask(request("GET", "/level", []))

    def again(self, client: Callable[[], None]) -> None:
        while not self.ended.is_set():
            try:
                client()
            except OSError:
                pass

    def run(self, seconds: int) -> None:
        others = (self.slow, self.silent, self.broken, self.huge, *[self.many] * 8)
        working = threading.Thread(target=self.officers)
        working.start()
        for one in others:
            threading.Thread(target=self.again, args=(one,), daemon=True).start()
        time.sleep(seconds)
        self.ended.set()
        working.join(HOLDS + SLACK + 60)
        if self.server.process.poll() is not None:
            self.faults.append(f"the desk ended with status {self.server.process.returncode}")
        elif working.is_alive():
            self.faults.append("an officer still waits")

    def judged(self, memory: int, minutes: bytes, sound: bytes) -> None:
        """What the desk has kept, and what it took."""
        lines = [line.split("\t") for line in minutes.decode().splitlines()]
        kept = {(line[1], line[2]) for line in lines}
        lost = [one for one in self.acknowledged if one not in kept]
        self.faults += [f"the desk lost {name}'s {key}" for name, key in lost]
        if sound != b"ok\n":
            self.faults.append(f"integrity_check: {sound.decode()}")
        longest = max(self.waits, default=0)
        if not self.acknowledged or longest > HOLDS + SLACK:
            self.faults.append(f"an officer waited {longest:.1f} seconds")
        if memory > MOST_MEMORY:
            self.faults.append(f"the desk took {memory} bytes")
        print(
            f"{len(self.waits)} answers for the officers, the longest wait {longest:.1f} s, "
            f"the most memory {memory} bytes, {len(self.acknowledged)} commands kept"
        )


def main(words: list[str]) -> int:
    if not 1 <= len(words) <= 2 or not words[0].isdigit():
        sys.exit("usage: checks/soak.py SECONDS [PROGRAM]")
    found = words[1:] or ran(ROOT / "desk", "--which", seconds=900).decode().split()
    with tempfile.TemporaryDirectory() as room:
        desk = Program(Path(found[0]).resolve(), Path(room))
        path = desk.founded("desk.db")
        with Server(desk, path) as server:
            soak = Soak(server)
            soak.run(int(words[0]))
            memory = server.memory() if server.process.poll() is None else 0
        sound = ran("sqlite3", path, "PRAGMA integrity_check")
        soak.judged(memory, desk.minutes(path), sound)
    for fault in soak.faults[:10]:
        print(f"checks/soak.py: {fault}", file=sys.stderr)
    return int(bool(soak.faults))


if __name__ == "__main__":
    try:
        sys.exit(main(sys.argv[1:]))
    except (AssertionError, subprocess.TimeoutExpired) as fault:
        sys.exit(f"checks/soak.py: {fault}")
