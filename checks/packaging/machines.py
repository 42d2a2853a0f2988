"""Machines where the package is installed by dpkg, and run by systemd."""
from __future__ import annotations

import subprocess
from pathlib import Path
from typing import Iterable

from checks.packaging.conftest import NAME
from checks.support.booted import Booted
from checks.support.images import OWNER, sha256
from checks.support.messages import PEOPLE, got, text, token
from checks.support.says import expect, fail, note
from checks.support.steps import Step
from checks.support.waits import until

STATE = f"/var/lib/{NAME}"
READS = Step(got("olga", "/level"), text("sbat,1,2021030218\n"))
AS_DESK = ("runuser", "-u", NAME, "--")
# Without an answer it says nothing.
ASK = """
import socket, sys
given = sys.stdin.buffer.read()
try:
    with socket.create_connection(("127.0.0.1", 880), 30) as peer:
        peer.sendall(given)
        sys.stdout.buffer.write(b"".join(iter(lambda: peer.recv(1 << 16), b"")))
except OSError:
    pass
"""


class Machine(Booted):
    """The desk's unit is `NAME`."""

    def __init__(self, room: Path, name: str, *packages: Path) -> None:
        super().__init__(room, name)
        if packages:
            self.installs(*packages)

    def installs(self, *packages: Path) -> str:
        """(Triggers would make the index of all manual pages anew.)"""
        for number, deb in enumerate(packages):
            self.writes(f"/root/{number}.deb", deb.read_bytes())
        paths = [f"/root/{number}.deb" for number, _ in enumerate(packages)]
        return self.run("dpkg", "--no-triggers", "-i", *paths)

    def founds(self, people: Iterable[str]) -> None:
        """As packaging/README.md has it."""
        self.run(*AS_DESK, "desk", "init", f"{STATE}/desk.db", OWNER)
        for one in people:
            role = PEOPLE.get(one, "officer")
            self.run(*AS_DESK, "desk", "enrol", f"{STATE}/desk.db", one, role, f"enrol-{one}",
                     given=sha256(token(one).encode()) + "\n")

    def starts(self, unit: str) -> None:
        """And ends well, if it is one that ends."""
        self.run("systemctl", "start", unit, status=None)
        if self.told(unit, "Result") != ["success"]:
            fail(f"{unit} of {self.name}: {self.log(unit)}")

    def state(self, unit: str = NAME) -> str:
        """As `active`."""
        return self.told(unit, "ActiveState")[0]

    def becomes(self, state: str, seconds: float = 30, unit: str = NAME) -> None:
        until(seconds, f"{unit} is {state}", lambda: self.state(unit) == state,
              lambda: self.log(unit))

    def number(self) -> int:
        """The number, there, of the process that serves, or 0."""
        return int(self.told(NAME, "MainPID")[0])

    def listens(self, port: str) -> str:
        """Nothing, if nobody does."""
        return self.run("ss", "-Htln", "sport", "=", f":{port}")

    def asks(self, given: bytes) -> bytes:
        """The desk's answer, or nothing."""
        done = subprocess.run(self.words("/usr/bin/python3", "-c", ASK), input=given, check=True,
                              stdout=subprocess.PIPE, timeout=60)
        note(f"the desk of {self.name}", given, done.stdout)
        return done.stdout

    def answers(self, step: Step) -> None:
        """Once it serves."""
        found = until(30, "an answer", lambda: self.asks(step.given), lambda: self.log(NAME))
        expect(found, step.due, f"the answer of {self.name}")

    def changed(self, *lines: str, unit: str = NAME, part: str = "Service") -> None:
        """As by `systemctl edit`. Units of other kinds are named whole."""
        text = "".join(f"{line}\n" for line in (f"[{part}]", *lines))
        name = unit if "." in unit else f"{unit}.service"
        self.writes(f"/etc/systemd/system/{name}.d/override.conf", text)
        self.run("systemctl", "daemon-reload")
