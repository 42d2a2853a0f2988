"""What a desk has at one moment: its minutes and lists, by its server or by its file."""
from __future__ import annotations

import hashlib
from dataclasses import dataclass
from typing import Optional

from ..faults import Unreadable, broken
from ..programs import PROGRAM_SECONDS, ran, said_by
from ..reader import Reader
from ..sbat import level_read
from ..siglists import entries_in

LISTS = ("dbx.esl", "db.esl", "level.csv")
# How often the lists are fetched if calls come meanwhile.
TRIES = 20


def digest(data: bytes) -> str:
    return hashlib.sha256(data).hexdigest()


@dataclass(frozen=True)
class Found:
    """The desk as it was at one moment; its db may be that of fewer calls, if a later change of it
    waits for consent."""

    minutes: bytes
    dbx: bytes
    db: bytes
    level: bytes
    held: Optional[int] = None

    @property
    def calls(self) -> int:
        return self.minutes.count(b"\n")

    @property
    def db_calls(self) -> int:
        """The calls from which db follows."""
        return self.calls if self.held is None else self.held

    def lists(self) -> dict[str, bytes]:
        return dict(zip(LISTS, (self.dbx, self.db, self.level)))

    def audit(self) -> dict[str, str]:
        """What an audit of the minutes has to tell."""
        names = [name for name in ("minutes", "dbx", "db", "level")
                 if name != "db" or self.held is None]
        sums = {name: digest(getattr(self, name)) for name in names}
        return {"calls": str(self.calls), **sums}


def lines(minutes: bytes) -> list[bytes]:
    return [line + b"\n" for line in minutes.split(b"\n")[:-1]]


def audit_of(data: bytes) -> dict[str, str]:
    """The lines of `desk audit` by their first words."""
    pairs = (line.partition(" ") for line in data.decode(errors="replace").splitlines())
    return {name: value for name, space, value in pairs if space}


def entries(data: bytes, name: str) -> list[tuple[str, bytes]]:
    """The type and the bytes of each entry of the lists in a file of this name."""
    try:
        return entries_in(data)
    except Unreadable as fault:
        broken(f"{name}: {fault}")


def level_of(data: bytes) -> tuple[int, dict[str, int]]:
    try:
        return level_read(data.decode("ascii", "replace"), whole=True)
    except Unreadable as fault:
        broken(str(fault))


def from_url(desk: Reader) -> Found:
    """The desk that serves there, all four of one moment: if calls came meanwhile, again with their
    lines."""
    minutes = desk.minutes()
    for _ in range(TRIES):
        found = Found(minutes, desk.get("/dbx"), desk.get("/db"), desk.get("/level"))
        came = desk.minutes(found.calls + 1)
        if not came:
            return found
        minutes += came
    broken(f"calls came between the minutes and what follows from them, {TRIES} times")


def from_file(program: str, path: str) -> Found:
    """The desk in a file that nobody serves."""
    def said(subcommand: str) -> bytes:
        done = ran(f"desk {subcommand}", [program, subcommand, path], PROGRAM_SECONDS)
        if done.returncode != 0:
            broken(f"desk {subcommand} {path}: {said_by(done)}")
        return done.stdout

    return Found(said("minutes"), said("dbx"), said("db"), said("level"))
