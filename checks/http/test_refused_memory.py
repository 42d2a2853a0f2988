"""Each allocation of each request of the days is refused, on a desk that stays open.

Each request of each day, except that of the largest inputs, is sent with its first allocation
refused (checks/refuse.c), then with its second, and so on, each once, until it makes no more. A
refused one gets the 503 of NoMemory, or succeeds without the memory; where the head or the body
itself finds no memory, the connection ends without a response. After each the desk's report is
unchanged; if it isn't, the command was accepted and its response found no memory: then the same
request gets the stored reply, and changes nothing more. With ample memory the request gets its due
response, on the same open desk. At the end of a day all exports and all tables are those of a day
on which no memory was refused."""
from __future__ import annotations

import mmap
import os
import re
import struct
import time
from pathlib import Path

import pytest

from checks.conftest import NewDesk
from checks.support.days import DAYS
from checks.support.messages import NO_MEMORY, got
from checks.support.program import Program, dump
from checks.support.says import expect, fail
from checks.support.server import Server
from checks.support.steps import Step
from checks.support.tools import library

pytestmark = [pytest.mark.needs("cc", "sqlite3"), pytest.mark.proved]

NUMBERS = struct.Struct("qqqq")
REPORT = got("olga", "/report")
# A day on which a command is accepted without its response.
LOSES = "reviews"


class Refusing:
    """A server of which one allocation of a connection can be refused."""

    def __init__(self, desk: Program, loaded: Path, path: str) -> None:
        file = desk.file(f"{os.path.basename(path)}.served", bytes(NUMBERS.size))
        self.shared = os.open(file, os.O_RDWR)
        self.numbers = mmap.mmap(self.shared, NUMBERS.size)
        self.waits = 1
        self.server = Server(desk, path, env={"LD_PRELOAD": str(loaded), "SERVED": file})

    def __enter__(self) -> Refusing:
        return self

    def __exit__(self, *_: object) -> None:
        self.server.kill()
        self.numbers.close()
        os.close(self.shared)

    def waiting(self) -> tuple[int, bool]:
        """Waits until the server waits for its next connection; how many allocations the last one
        made, and whether one was refused."""
        until = time.monotonic() + 60
        while True:
            _, made, refused, waits = NUMBERS.unpack_from(self.numbers)
            if waits == self.waits:
                return made, bool(refused)
            time.sleep(0.0001)
            if self.server.process.poll() is not None:
                fail(f"serve has ended: {self.server.process.communicate()}")
            if waits > self.waits or time.monotonic() > until:
                fail(f"the server waited {waits} times in place of {self.waits}")

    def ask(self, given: bytes, refused: int = 0) -> tuple[bytes, bool]:
        """What is answered where the allocation of this number is refused, 0 for none; and whether
        it was one of those that were made."""
        self.waiting()
        self.numbers[:8] = struct.pack("q", refused)
        found = self.server.ask(given)
        self.waits += 1
        _, was_refused = self.waiting()
        self.numbers[:8] = bytes(8)
        return found, was_refused


def commands(report: bytes) -> int:
    """How many commands the desk has accepted, by its report."""
    found = re.search(rb"(?m)^commands +(\d+)$", report)
    assert found, report
    return int(found[1])


class Asked:
    """One request of a day, of which each allocation is refused in turn."""

    def __init__(self, step: Step, what: str) -> None:
        self.step, self.what, self.number = step, what, 0
        self.told = self.lost = 0
        # The connection ends without a response only where the head, which comes first, or the body
        # itself finds no memory.
        self.is_read, self.bodies = False, int(not step.given.endswith(b"\r\n\r\n"))

    def takes(self, answer: bytes, before: bytes, after: bytes, server: Refusing) -> bool:
        """What became of a refused allocation is as it has to be. Whether the command is there
        now."""
        what = f"{self.what}, allocation {self.number} refused"
        if answer == self.step.due:
            if not self.step.accepted:
                expect(after, before, f"{what}: the report")
            return self.step.accepted
        if answer not in (NO_MEMORY, b""):
            fail(f"{what}: {answer[-400:]!r}")
        if after == before:
            self.told += bool(answer)
            self.bodies -= self.is_read and not answer
            if self.bodies < 0:
                fail(f"{what}: the connection ends, though the request is known")
            self.is_read = self.is_read or bool(answer)
            return False
        # The command was accepted, and its response found no memory: its key has the kept reply.
        expect(self.step.accepted, True, f"{what}: the report changed to {after!r}")
        expect(commands(after), commands(before) + 1, f"{what}: the commands")
        expect(server.ask(self.step.given)[0], self.step.due, f"{what}: its key again")
        expect(server.ask(REPORT)[0], after, f"{what}: the report after its key")
        self.lost += 1
        return True

    def passes(self, desk: Program, loaded: Path, path: str) -> str:
        """The desk stays as it was and open, and answers the request in the end; its path."""
        while True:
            found = desk.copied(path, "tried.db")
            with Refusing(desk, loaded, found) as server:
                before, _ = server.ask(REPORT)
                is_there = False
                while not is_there:
                    self.number += 1
                    answer, was_refused = server.ask(self.step.given, self.number)
                    if not was_refused:
                        expect(answer, self.step.due, f"{self.what}, with ample memory")
                        return found
                    after, _ = server.ask(REPORT)
                    is_there = self.takes(answer, before, after, server)


@pytest.mark.long(120)
@pytest.mark.parametrize("day", [day for day in DAYS if day != "the largest"])
def test_a_day_of_refused_memory_leaves_the_tables_of_one_with_ample_memory(
    desk: Program, new_desk: NewDesk, session_room: Path, day: str
) -> None:
    loaded = library(session_room, "refuse")
    path, told, lost = new_desk("refused.db"), 0, 0
    for place, step in enumerate(DAYS[day], 1):
        asked = Asked(step, f"{day}, request {place}")
        desk.copied(asked.passes(desk, loaded, path), "refused.db")
        told, lost = told + asked.told, lost + asked.lost
    ample = new_desk("ample.db")
    with Server(desk, ample, len(DAYS[day])) as server:
        for step in DAYS[day]:
            server.ask(step.given)
        server.ended()
    expect(desk.exports(path), desk.exports(ample), f"{day}: what is exported")
    expect(dump(path), dump(ample), f"{day}: the tables")
    assert told, "no refusal was told as NoMemory"
    assert lost or day != LOSES, "no command was accepted without its response"
