"""`desk serve`, at a port that is held for it."""
from __future__ import annotations

import contextlib
import secrets
import socket
import subprocess
import time
from types import TracebackType
from typing import Callable, Mapping, Sequence

from checks.support.messages import Field, posted
from checks.support.ports import Held, listens
from checks.support.program import Program
from checks.support.says import expect, fail, note, short
from checks.support.steps import Step
from checks.support.tools import end_with_parent


class Server:
    """A server of a desk. It ends with the test process, or at the end of its `with`."""

    def __init__(
        self, program: Program, desk: str, count: int = 1_000_000,
        env: Mapping[str, str] | None = None, under: Sequence[str] = (), zeros: str = "",
        begin: Callable[[], None] = end_with_parent
    ) -> None:
        self.program, self.desk, self.held = program, desk, Held()
        self.port = self.held.port
        self.process = subprocess.Popen(
            [*under, program.path, "serve", desk, f"{zeros}{self.port}", f"{zeros}{count}"],
            stdin=subprocess.DEVNULL, stdout=subprocess.PIPE, stderr=subprocess.PIPE,
            env={**program.env, **(env or {})}, preexec_fn=begin,
        )
        self.begins()

    def begins(self) -> None:
        """Waits until the server listens."""
        until = time.monotonic() + 300
        while not listens(self.process.pid, self.port):
            if self.process.poll() is not None:
                _, err = self.process.communicate()
                fail(f"serve {self.desk}: status {self.process.returncode}, {err!r}")
            if time.monotonic() > until:
                self.kill()
                fail(f"serve {self.desk}: nobody listens")
            time.sleep(0.002)

    def __enter__(self) -> Server:
        return self

    def __exit__(
        self, kind: type[BaseException] | None, what: BaseException | None, at: TracebackType | None
    ) -> None:
        self.kill()

    def kill(self) -> None:
        """Stops the server as it is; what it committed stands in the desk's files."""
        if self.process.poll() is None:
            self.process.kill()
        with contextlib.suppress(ValueError):  # (its outputs were read already)
            self.process.communicate()
        self.held.let_go()

    def ended(self, status: int = 0, err: bytes = b"") -> None:
        """The server has ended by itself, with all connections served or with this fault."""
        out, told = self.process.communicate(timeout=60)
        found = (self.process.returncode, out, told)
        expect(found, (status, b"", err), f"the end of desk serve {self.desk}")

    def ask(self, given: bytes, ends: bool = True) -> bytes:
        """What comes until the server closes the connection. With `ends` our side is closed first,
        as one that has sent all."""
        pieces = []
        with socket.create_connection(("127.0.0.1", self.port), timeout=600) as peer:
            with contextlib.suppress(OSError):
                peer.sendall(given)
                if ends:
                    peer.shutdown(socket.SHUT_WR)
            with contextlib.suppress(ConnectionResetError):
                for piece in iter(lambda: peer.recv(1 << 16), b""):
                    pieces.append(piece)
        came = b"".join(pieces)
        note(f"desk serve {self.desk}", given, came)
        return came

    def answers(self, given: bytes, due: bytes, what: str, ends: bool = True) -> None:
        """The server gives this response."""
        expect(self.ask(given, ends), due, what)

    def does(self, name: str, path: str, body: bytes, *fields: Field) -> bytes:
        """The response to this person's command, which the desk accepts, under a key of its own."""
        came = self.ask(posted(name, secrets.token_hex(8), path, body, *fields), ends=False)
        expect(came[:12], b"HTTP/1.1 200", f"{name} posts to {path}: {short(came)}")
        return came

    def memory(self) -> int:
        """The most memory that the server had, in bytes."""
        with open(f"/proc/{self.process.pid}/status", encoding="ascii") as lines:
            return next(int(one.split()[1]) for one in lines if one.startswith("VmHWM")) * 1024


def serves(
    desk: Program, path: str, steps: Sequence[Step], what: str, ends: bool = True
) -> None:
    """One server gives each of these responses, and ends by itself."""
    with Server(desk, path, len(steps)) as server:
        for number, step in enumerate(steps, 1):
            server.answers(step.given, step.due, f"{what}, request {number} over serve", ends)
        server.ended()
