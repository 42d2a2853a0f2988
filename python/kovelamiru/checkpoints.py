"""Checkpoints of a desk (docs/AUDIT.md): which minutes and lists it has, by whom signed."""
from __future__ import annotations

import hashlib
import os
import re
from dataclasses import astuple, dataclass
from typing import Iterable, Optional

from .faults import NoAnswer, Unreadable, broken, wrong
from .fetch import fetched
from .programs import unsigned_by

# What their signatures are for, by their namespaces: of whoever publishes, and of a witness.
PUBLISHED, WITNESSED = "kovelamiru-checkpoint", "kovelamiru-witness"
NAME = "checkpoint.txt"
# How long a site may take, and how much is read of it.
SECONDS, MOST_BYTES = 30, 4096


@dataclass(frozen=True)
class Checkpoint:
    """The SHA-256 of the first minutes of a desk, and of each list that follows from them; older
    ones name no lists."""

    owner: str
    calls: int
    minutes: str
    dbx: str = ""
    shim: str = ""
    db: str = ""
    level: str = ""

    def text(self) -> bytes:
        return "".join(f"{name} {value}\n" for name, value in vars(self).items()).encode()

    def covers(self, other: Checkpoint) -> bool:
        """It is the other one, or a later one with the same lists."""
        (owner, calls, _, *lists), (whose, fewer, _, *theirs) = astuple(self), astuple(other)
        return self == other or (owner, lists) == (whose, theirs) and calls > fewer and all(lists)


def checkpoint_of(data: bytes) -> Checkpoint:
    lists = "".join(f"{name} ([0-9a-f]{{64}})\n" for name in ("dbx", "shim", "db", "level"))
    found = re.fullmatch("owner ([0-9a-f-]{36})\ncalls ([0-9]{1,7})\nminutes ([0-9a-f]{64})\n"
                         f"(?:{lists})?", data.decode("ascii", "replace"))
    if not found:
        raise Unreadable("it is no checkpoint")
    return Checkpoint(found[1], int(found[2]), *found.groups("")[2:])


def sum_of(lines: Iterable[bytes], calls: int) -> str:
    """The SHA-256 of so many lines; nothing if there are fewer."""
    found, count = hashlib.sha256(), 0
    for _, line in zip(range(calls), lines):
        found.update(line)
        count += 1
    return found.hexdigest() if count == calls else ""


def at(where: str, ca: Optional[str], program: str) -> bytes:
    """What is at this URL, or in this file."""
    if re.match("https?://", where):
        return fetched(where, ca, program, SECONDS, MOST_BYTES).data()
    try:
        with open(where, "rb") as file:
            return file.read(MOST_BYTES)
    except OSError as error:
        raise NoAnswer(f"{where}: {error.strerror}", True) from None


def signed_at(where: str, key: str, what: str, ca: Optional[str], program: str) -> Checkpoint:
    """The checkpoint there that this key signed; Unreadable or NoAnswer, if none did."""
    data, sign = at(where, ca, program), at(f"{where}.sig", ca, program)
    said = unsigned_by(key, what, sign, data)
    if said:
        raise Unreadable(f"it isn't signed: {said}")
    return checkpoint_of(data)


# ---- witnesses


@dataclass(frozen=True)
class Witness:
    """Who says by a signature that their own `desk follow` reached a checkpoint, and where."""

    name: str
    where: str
    key: str

    @property
    def file(self) -> str:
        """What it signed, where that is published; the signature has `.sig` behind it."""
        return f"witness-{self.name}.txt"


def witnesses_in(path: str) -> list[Witness]:
    """The lines `NAME WHERE KEY` of a file that nobody but root or this user writes."""
    try:
        found = os.stat(path)
        with open(path, encoding="ascii") as file:
            rows = [line.split() for line in file if line.strip() and line[0] != "#"]
    except (OSError, ValueError) as error:
        broken(f"{path}: {error}")
    if found.st_uid not in (0, os.geteuid()) or found.st_mode & 0o022:
        wrong(f"others can write {path}")
    for row in rows:
        if len(row) < 4 or not re.fullmatch("[a-z0-9][a-z0-9-]{0,31}", row[0]):
            wrong(f"{path}: no witness is {' '.join(row)[:100]!r}, but NAME WHERE KEY")
    made = [Witness(row[0], row[1], " ".join(row[2:4])) for row in rows]
    if len({one.name for one in made}) < len(made) or len({one.key for one in made}) < len(made):
        wrong(f"{path}: two witnesses have one name or one key")
    return made


def unwitnessed(one: Witness, text: bytes, sign: bytes, due: Checkpoint) -> str:
    """Why this isn't its signed word for a checkpoint; nothing if it is."""
    said = unsigned_by(one.key, WITNESSED, sign, text)
    if said:
        return said
    try:
        found = checkpoint_of(text)
    except Unreadable as fault:
        return str(fault)
    return "" if found.covers(due) else f"it signed another one, of {found.calls} calls"


def key_in(path: str) -> str:
    """The public key in a file of one line, as ssh-keygen(1) makes it."""
    try:
        with open(path, encoding="ascii") as file:
            return " ".join(file.readline().split()[:2])
    except (OSError, ValueError) as error:
        broken(f"the key {path}: {error}")
