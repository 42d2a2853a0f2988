"""The unit and the timer that publish, under systemd: as *Publishing* of packaging/README.md has
it, over loopback."""
from __future__ import annotations

from pathlib import Path
from typing import Iterator

import pytest

from checks.packaging.conftest import NAME, Package
from checks.packaging.machines import READS, Machine
from checks.support.images import OWNER, sha256
from checks.support.messages import got, token
from checks.support.steps import confirms, named, proposes
from checks.support.waits import until

pytestmark = [
    pytest.mark.long(40),
    pytest.mark.if_there("root", "network", "dpkg", "ip", "nsenter", "systemd", "namespaces"),
]
UNIT, ACCOUNT = "kovelamiru-publish", "kovelamiru-publish"
PUBLISHED = f"/var/lib/{UNIT}/published"
OPTIONS = f"--url http://127.0.0.1:880 --owner {OWNER}"


class Publishing(Machine):
    """Its desk serves. oscar's token is the publisher's."""

    def begins(self) -> None:
        self.founds(["olga", "otto", "oscar"])
        self.writes("/etc/kovelamiru-publish.token", token("oscar"), "0600")
        self.options("--first")
        self.run("systemctl", "enable", "--now", NAME)
        self.answers(READS)

    def options(self, *more: str) -> None:
        self.writes(f"/etc/default/{UNIT}", f'PUBLISH="{" ".join((OPTIONS, *more))}"\n')

    def revokes(self, number: int) -> None:
        """A digest more."""
        body = named(sha256(str(number).encode()))
        self.answers(proposes("olga", f"k{number}", "/dbx/digests", body, number))
        self.answers(confirms("otto", f"k{number}", number, 1, 0, 0, 0))

    def published(self, name: str) -> str:
        """The SHA-256 of a published file, which whoever keeps a mirror reads."""
        said = self.run("runuser", "-u", "www-data", "--", "sha256sum", f"{PUBLISHED}/{name}",
                        status=None)
        return said.split(" ")[0]

    def decided(self, path: str) -> str:
        """That of what the desk shows."""
        return sha256(self.asks(got("olga", path)).split(b"\r\n\r\n", 1)[1])


@pytest.fixture
def machine(package: Package, room: Path) -> Iterator[Publishing]:
    made = Publishing(room, "one", package.deb)
    made.begins()
    yield made
    made.close()


def test_what_was_confirmed_is_published_and_a_failure_is_a_failed_unit(
    machine: Publishing
) -> None:
    """minutes.txt is for the unit's user alone. What was published stays."""
    machine.revokes(1)
    machine.starts(UNIT)
    machine.options()
    files = {"/dbx": "dbx.esl", "/db": "db.esl", "/level": "level.csv"}
    for path, name in files.items():
        assert machine.published(name) == machine.decided(path), machine.log(UNIT)
    owner = machine.run("stat", "-c", "%U %a", f"{PUBLISHED}/minutes.txt")
    assert owner == f"{ACCOUNT} 600"
    before = machine.published("SHA256SUMS")
    machine.run("systemctl", "stop", NAME)
    machine.run("systemctl", "start", UNIT, status=1)
    assert UNIT in machine.run("systemctl", "--failed", "--plain", "--no-legend")
    assert machine.published("SHA256SUMS") == before
    machine.run("systemctl", "start", NAME)
    machine.revokes(2)
    machine.starts(UNIT)
    assert machine.published("dbx.esl") == machine.decided("/dbx")


def test_the_timer_publishes_each_decision(machine: Publishing) -> None:
    """In place of ten minutes it waits for some seconds."""
    machine.starts(UNIT)
    machine.options()
    often = ("OnCalendar=", "OnCalendar=*:*:0/2", "RandomizedDelaySec=0", "AccuracySec=100ms")
    machine.changed(*often, unit=f"{UNIT}.timer", part="Timer")
    machine.run("systemctl", "enable", "--now", f"{UNIT}.timer")
    for number in (1, 2):
        machine.revokes(number)
        due = machine.decided("/dbx")
        until(60, "it is published", lambda: machine.published("dbx.esl") == due,
              lambda: machine.log(UNIT))
