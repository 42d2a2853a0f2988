"""The program, stopped at one of its calls on a real file and its log, and what a stop may leave.

A library that is loaded before the program (checks/stop.c) counts the calls that write, cut or sync
a file, and the write of the answer. At the k-th of them it kills the process (`kill`), or fails
that call and each later one on a file (`fail`), or only those on its file (`fail one`); `end` is
behind the last call. The random bytes of a run are chosen here, so a stop is the same when it is
run again."""
from __future__ import annotations

import contextlib
import os
import re
import signal
import socket
import sqlite3
import subprocess
import time
from pathlib import Path
from typing import NamedTuple, Sequence

from checks.support.images import sha256
from checks.support.messages import token
from checks.support.ports import Held, listens
from checks.support.steps import Step
from checks.support.tools import end_with_parent

# It stands for the desk's file among the words of a run.
DESK = "DESK"
# The ways of a stop: the process is killed; that call and each later one on a file fail, or only
# those on its file.
WAYS: dict[str, dict[str, str]] = {"kill": {}, "fail": {"FAIL": "all"}, "fail one": {"FAIL": "one"}}
# The status of a run that is stopped so.
ENDS = {"kill": -signal.SIGKILL, "fail": 3, "fail one": 3}
# What stands for the random bytes of a run: of one that is stopped, of one that opens what it left,
# and of the call again.
STOPPED, OPENING, AGAIN = 1, 2, 3
# Of a longer run not each call after the twentieth is stopped, so that some hundred stops are left.
LONG = 100
EXPORTS = ("minutes", "dbx", "shim", "db", "level")
# The one stop that is made, as WAY NUMBER: a failure names it.
ONLY = os.environ.get("STOP_AT", "").rsplit(" ", 1)


class Broken(AssertionError):
    """What a stop left isn't as it has to be."""


class Files(NamedTuple):
    """What a desk's file and its log hold; None for one that isn't there."""

    db: bytes | None = None
    log: bytes | None = None

    def sum(self) -> str:
        """A sum of both, which differs where one of them does."""
        return sha256(repr([None if one is None else sha256(one) for one in self]).encode())


class Ran(NamedTuple):
    """A run of the program: its end, what it answered, the calls that count, how many were seen
    when each answer was there, and its files: with all that was written, and with what was
    synced."""

    status: int
    answers: list[bytes]
    err: bytes
    calls: list[str]
    marks: list[int]
    written: Files
    synced: Files


class Call(NamedTuple):
    """A call of a desk: the words of a run, what that reads, the answer that is due, and the
    key."""

    words: tuple[str, ...]
    given: bytes
    due: bytes
    key: str


def asks(step: Step) -> Call:
    """The call of a request."""
    key = re.search(rb"\r\nDesk-Key: (\S+)", step.given)
    return Call(("answer", DESK), step.given, step.due, key.group(1).decode() if key else "")


def adds(name: str, role: str, key: str) -> Call:
    """The call that adds a person on the command line."""
    return Call(
        ("person", DESK, name, role, key), f"{token(name)}\n".encode(), f"added {name}\n".encode(),
        key
    )


# ---- runs


class Place:
    """A folder in which one process puts desks, runs the program and looks at what is left."""

    def __init__(self, program: Path, folder: Path, stop: Path, fail: Path) -> None:
        self.program, self.stop, self.fail = str(program), stop, fail
        self.desk, self.kept, self.calls = (
            f"{folder}/{one}" for one in ("desk.db", "kept", "calls")
        )
        self.ports: list[Held] = []
        os.makedirs(self.kept)

    def put(self, files: Files) -> None:
        """These are the desk's files, and nothing is known of a run."""
        for path in (
            *(f"{self.desk}{one}" for one in ("", "-wal", "-shm", "-journal")), f"{self.kept}/db",
            f"{self.kept}/log", self.calls
        ):
            with contextlib.suppress(FileNotFoundError):
                os.remove(path)
        for path, data in ((self.desk, files.db), (f"{self.desk}-wal", files.log)):
            if data is not None:
                with open(path, "wb") as one:
                    one.write(data)

    @staticmethod
    def contents(path: str) -> bytes | None:
        with contextlib.suppress(FileNotFoundError), open(path, "rb") as one:
            return one.read()
        return None

    def env(self, seed: int, stop: int, way: str) -> dict[str, str]:
        known = {
            "DESK": self.desk, "KEPT": self.kept, "CALLS": self.calls, "SEED": str(seed),
            "STOP": str(stop)
        }
        return {**os.environ, "LD_PRELOAD": str(self.stop), **known, **WAYS[way]}

    def made(self) -> list[str]:
        """The calls that were made."""
        return (self.contents(self.calls) or b"").decode().splitlines()

    def ended(self, status: int, answers: list[bytes], err: bytes, marks: list[int]) -> Ran:
        written = self.left()
        kept = Files(self.contents(f"{self.kept}/db"), self.contents(f"{self.kept}/log"))
        synced = Files(*(there if one is None else one for one, there in zip(kept, written)))
        return Ran(status, answers, err, self.made(), marks, written, synced)

    def words(self, words: Sequence[str]) -> list[str]:
        return [self.program, *(self.desk if one == DESK else one for one in words)]

    def run(
        self, files: Files, words: Sequence[str], given: bytes = b"", seed: int = OPENING,
        stop: int = 0, way: str = "kill"
    ) -> Ran:
        """A run on these files, stopped at the call of this number, if it isn't 0."""
        self.put(files)
        env = self.env(seed, stop, way)
        ran = subprocess.run(
            self.words(words), input=given, capture_output=True, timeout=300, env=env, check=False
        )
        return self.ended(ran.returncode, [ran.stdout], ran.stderr, [])

    def gives(
        self, files: Files, words: Sequence[str], given: bytes = b"", status: int = 0
    ) -> bytes:
        """What a run writes that ends so, with nothing on standard error."""
        ran = self.run(files, words, given)
        if ran.status != status or ran.err:
            raise Broken(
                f"{' '.join(words)}: status {ran.status}, {ran.answers[0][-300:]!r}, {ran.err!r}"
            )
        return ran.answers[0]

    def serve(
        self, files: Files, requests: Sequence[bytes], seed: int, stop: int = 0, way: str = "kill"
    ) -> Ran:
        """A server on these files that is sent the requests one after another. The response to the
        first is lost at its first byte."""
        self.put(files)
        self.ports = self.ports or [Held()]
        env = {
            **self.env(seed, stop, way), "LD_PRELOAD": f"{self.fail} {self.stop}", "SOCKET": "1",
            "WRITE": "1"
        }
        answers: list[bytes] = []
        marks: list[int] = []
        port = self.ports[0].port
        server = subprocess.Popen(
            self.words(("serve", DESK, str(port), str(len(requests)))), stdin=subprocess.DEVNULL,
            stdout=subprocess.PIPE, stderr=subprocess.PIPE, env=env, preexec_fn=end_with_parent
        )
        while server.poll() is None and not listens(server.pid, port):
            time.sleep(0.002)
        for given in requests:
            answers.append(asked(port, given))
            marks.append(len(self.made()))
        _, err = server.communicate(timeout=120)
        return self.ended(server.returncode, answers, err, marks)

    def left(self) -> Files:
        """The desk's files as they are."""
        return Files(self.contents(self.desk), self.contents(f"{self.desk}-wal"))

    def tables(self) -> str:
        """Every row of every table of a desk that was closed, so that its file alone has them."""
        return rows(f"file:{self.desk}?immutable=1")


def asked(port: int, given: bytes) -> bytes:
    """What a server answers until it closes the connection; nothing where there is none."""
    pieces = []
    with contextlib.suppress(ConnectionError), socket.create_connection(
        ("127.0.0.1", port), timeout=120
    ) as peer:
        peer.sendall(given)
        peer.shutdown(socket.SHUT_WR)
        for piece in iter(lambda: peer.recv(1 << 16), b""):
            pieces.append(piece)
    return b"".join(pieces)


def rows(uri: str) -> str:
    """The schema and the rows of a database, as Python's module shows them."""
    with contextlib.closing(sqlite3.connect(uri, uri=True)) as base:
        schema = base.execute("SELECT type, name, sql FROM sqlite_schema ORDER BY name").fetchall()
        names = [name for kind, name, _ in schema if kind == "table"]
        return repr(
            (
                schema,
                {
                    name: base.execute(f'SELECT * FROM "{name}" ORDER BY rowid').fetchall()
                    for name in names
                }
            )
        )


# The place of this process.
PLACES: list[Place] = []


def place() -> Place:
    return PLACES[0]
