"""Each allocation of a subcommand is refused, one a run (checks/refuse.c).

Each such run ends with status 3, the line `device 40 NoMemory` and no more than a prefix written
(`answer` may write the response of NoMemory, with status 0), or succeeds without the memory. The
same words on the files that a refused run left end as they do on the files that it found.

Each allocation of `pack`, `facts` and `list` is refused. Of `audit` and `follow` each is, or where
there are more than 2,000 the first and the last thousand, and one in twenty between. Of the others
the first and the last hundred are refused, and between them one in STRIDE (of the environment): 100
by default. STRIDE=1 refuses each, of those two too, but only one in a hundred of a long row of one
size: of the 13,000 of a run that opens a desk 8,000 are the store's pages, taken at once. STRIDE=0
refuses each, without exception. Requests over HTTP are in checks/http/test_refused_memory.py."""
from __future__ import annotations

import gzip
import itertools
import os
import struct
from pathlib import Path
from typing import Callable, Iterator, NamedTuple

import pytest

from checks.support.days import RETURNS
from checks.support.images import (
    CERTIFICATE, OWNER, PLAIN, SIGNED, STORED, TBS, X509_KIND, authenticode, sha256, signature_list,
    with_text,
)
from checks.support.messages import NO_MEMORY, got, text
from checks.support.program import Program, Ran, told
from checks.support.says import expect, fail
from checks.support.steps import confirms, named, proposes
from checks.support.tools import EXAMPLES, ROOT, library

pytestmark = [pytest.mark.needs("cc"), pytest.mark.proved, pytest.mark.long(150)]

STRIDE = int(os.environ.get("STRIDE", "100"))
# Of more than this many allocations of one size in a row, which are the store's pages taken at
# once, the first, the last and one in LONG_ROW are refused.
LONG_ROW = 100
# Of these subcommands each is refused.
EACH = ("pack", "facts", "list")
# Of an audit, and of a run of follow, the first and the last so many, and one in 20 between.
LONG = ("audit", "follow")
MANY = 1_000
# These take minutes: each is so many tests, which run side by side.
SHARES = 6
LINE = b"device 40 NoMemory\n"


class Case(NamedTuple):
    """A subcommand: its words, where DESK stands for the desk's file, what it reads and writes, and
    its status."""

    words: tuple[str, ...]
    wanted: bytes
    given: bytes = b""
    status: int = 0
    # How many bytes may be written before memory is refused; whether the response of NoMemory may
    # be written instead.
    most: int = 0
    answers: bool = False
    # The desk's file that it finds: one of the desks below, or none; and its minutes, where they
    # are compared.
    desk: str = ""
    minutes: bytes = b""


def contents(path: str) -> dict[str, bytes]:
    """The bytes of a desk's file and of its log, where they are there."""
    files = {ending: Path(path + ending) for ending in ("", "-wal")}
    return {ending: file.read_bytes() for ending, file in files.items() if file.exists()}


class Refusing:
    """Runs of one case, in a folder of its own."""

    def __init__(self, desk: Program, loaded: Path, name: str, case: Case, room: Path) -> None:
        self.program = Program(desk.path, room)
        self.loaded, self.name, self.case = loaded, name, case
        self.desk = self.program.at("tried.db")
        self.words = [self.desk if one == "DESK" else one for one in case.words]
        self.found = contents(desk.at(case.desk)) if case.desk else {}

    def put(self) -> None:
        """The files that each run finds."""
        for ending in ("", "-wal"):
            Path(self.desk + ending).unlink(missing_ok=True)
            if ending in self.found:
                Path(self.desk + ending).write_bytes(self.found[ending])

    def run(self, number: int, **more: str) -> Ran:
        """A run with the allocation of this number refused, 0 for none."""
        env = {"REFUSE": str(number), "LD_PRELOAD": str(self.loaded), **more}
        return self.program.run(*self.words, given=self.case.given, env=env)

    def is_whole(self, ran: Ran) -> bool:
        return ran == (self.case.status, self.case.wanted, b"")

    def is_told(self, ran: Ran) -> bool:
        """Whether want of memory is told, with no more than a beginning written."""
        if self.case.answers and ran == (0, NO_MEMORY, b""):
            return True
        begun = len(ran.out) <= self.case.most and self.case.wanted.startswith(ran.out)
        is_beginning = begun or (self.case.answers and ran.out == NO_MEMORY)
        return ran.status == 3 and is_beginning and ran.err == LINE

    def again(self, number: int) -> None:
        """The same words on the files that were left. Where they are those that were found the run
        would be the one with ample memory."""
        if contents(self.desk) == self.found:
            return
        what = f"{self.name}, allocation {number} refused"
        ran = self.program.run(*self.words, given=self.case.given)
        if self.name == "init" and ran == (1, b"", b"refused 46 Exists\n"):
            ran = Ran(0, b"", b"")
        if not self.is_whole(ran):
            fail(f"{what}: on the files that were left: {ran}")
        if self.case.minutes or self.name == "init":
            expect(self.program.minutes(self.desk), self.case.minutes, f"{what}: the minutes")

    def numbers(self) -> tuple[list[int], int]:
        """The allocations that are refused, and how many there are."""
        sizes_file = Path(f"{self.desk}.sizes")
        ran = self.run(0, SIZES=str(sizes_file))
        if not self.is_whole(ran):
            fail(f"{self.name}, with ample memory: {ran}")
        sizes = [int(one) for one in sizes_file.read_text(encoding="ascii").split()]
        count, every = len(sizes), range(1, len(sizes) + 1)
        if STRIDE == 0 or self.case.words[0] in EACH:
            return list(every), count
        if STRIDE > 1:
            edge, stride = (MANY, 20) if self.case.words[0] in LONG else (100, STRIDE)
            return [
                one for one in every if one <= edge or one > count - edge or one % stride == 0
            ], count
        found, place = [], 0
        for _, row in itertools.groupby(sizes):
            length = len(list(row))
            for one in range(1, length + 1):
                if length <= LONG_ROW or one in (1, length) or one % LONG_ROW == 0:
                    found.append(place + one)
            place += length
        return found, count

    def each(self, share: int, shares: int) -> None:
        """Every so many-th of the numbers, from this one on."""
        self.put()
        numbers, count = self.numbers()
        assert numbers, "no allocation is seen: the program has another allocator"
        for number in numbers[share::shares]:
            self.put()
            ran = self.run(number)
            if not self.is_whole(ran) and not self.is_told(ran):
                fail(f"{self.name}, allocation {number} of {count} refused: {ran}")
            self.again(number)
        self.put()
        if not self.is_whole(self.run(count + 1)):
            fail(f"{self.name}: with {count} allocations and no more it isn't done")


@pytest.fixture(scope="session")
def desks(program_path: Path, session_room: Path) -> Program:
    """A program in whose folder stand the desks that cases find."""
    room = session_room / "refused memory"
    room.mkdir()
    desk = Program(program_path, room)
    people = desk.founded("people.db")
    listed = desk.copied(people, "listed.db")
    for step in RETURNS[:19]:
        desk.answers(listed, step.given, step.due, "the desk of a listed image")
    step = proposes("olga", "k2", "/dbx/certificates", named(TBS), 1)
    proposed = desk.copied(listed, "proposed.db")
    desk.answers(proposed, step.given, step.due, "a proposal to revoke its certificate")
    step = confirms("otto", "k1", 1, 0, 1, 0, 0)
    desk.answers(desk.copied(proposed, "revoked.db"), step.given, step.due, "its Confirm")
    # The first opening makes of a file of version 1 one of version 2.
    desk.file("first.db", gzip.decompress((EXAMPLES / "version-1" / "desk.db.gz").read_bytes()))
    return desk


def facts(image: bytes, *lines: str) -> bytes:
    """What `facts` prints of an image without a gap, and of a length that is a multiple of 8."""
    hashed = authenticode(image)
    head = (
        f"length {len(image)}", f"file {sha256(image)}", f"digest {hashed}", f"signing {hashed}",
        "gap 0",
    )
    return "".join(f"{one}\n" for one in (*head, *lines)).encode()


def pack(_: Program) -> Case:
    given, packed = ((ROOT / "crates" / "desk" / one).read_bytes() for one in ("stdin", "stdout"))
    return Case(("pack", OWNER), packed, given)


def both_facts(desk: Program) -> Case:
    signed = str(EXAMPLES / "signed.efi")
    return Case(("facts", signed), desk.gives("facts", signed))


def text_facts(desk: Program) -> Case:
    rows = with_text(PLAIN, b"sbat,1,a,b,1,u\r\n\r\ngrub,03,a,b,2,u\n")
    due = facts(rows, "component sbat 1", "component grub 3")
    return Case(("facts", desk.file("rows", rows)), due)


def another_list(desk: Program) -> Case:
    """The offset goes out before the GUID's text finds no memory."""
    other = STORED + struct.pack("<III", 48, 0, 20) + STORED + bytes(4)
    return Case(("list", desk.file("list", other)), f"0 {OWNER} 1\n".encode(), most=2)


def adding(subcommand: str, given: bytes) -> Case:
    words = (subcommand, "DESK", "eva", "submitter", "k1")
    return Case(words, b"added eva\n", given, most=10, desk="people.db")


def writes(subcommand: str, wanted: bytes, desk: str, status: int = 0, *more: str) -> Case:
    words = (subcommand, "DESK", *more)
    return Case(words, wanted, status=status, most=len(wanted), desk=desk)


def reads_minutes(desk: Program, *words: str, follows: bool = False) -> Case:
    exports = desk.exports(desk.at("proposed.db"))
    minutes = exports["minutes"]
    return Case(words, told(exports), minutes, minutes=minutes if follows else b"")


def first_dbx(_: Program) -> Case:
    kept = EXAMPLES / "version-1"
    dbx, minutes = (kept / "dbx.esl").read_bytes(), (kept / "minutes").read_bytes()
    return writes("dbx", dbx, "first.db")._replace(minutes=minutes)


def first_audit(_: Program) -> Case:
    kept = EXAMPLES / "version-1"
    dbx = (kept / "dbx.esl").read_bytes()
    return Case(("audit", OWNER, str(kept / "minutes"), "dbx"), dbx, most=len(dbx))


LISTED = signature_list(X509_KIND, [CERTIFICATE])
BARS = b"1\treturned\tsigned\tann\tallowed\tdbx-certificate\tA\ndbx 92\n"
LEVEL = text("sbat,1,2021030218\n")
SUM = f"{sha256(b'eva-token-000001')}  -\n".encode()
CASES: dict[str, Callable[[Program], Case]] = {
    "pack": pack,
    "facts": both_facts,
    "facts of a certificate table": lambda desk: Case(
        ("facts", desk.file("signed", SIGNED)), facts(SIGNED, f"certificate {TBS}")
    ),
    "facts of SBAT text": text_facts,
    "list": another_list,
    "init": lambda _: Case(("init", "DESK", OWNER), b""),
    "person": lambda _: adding("person", b"eva-token-000001\n"),
    "enrol": lambda _: adding("enrol", SUM),
    "verdict": lambda _: writes(
        "verdict", b"refused not-listed\n", "people.db", 1, str(EXAMPLES / "tiny.efi")
    ),
    "level": lambda _: writes("level", b"sbat,1,2021030218\n", "people.db"),
    "dbx": lambda _: writes("dbx", b"", "people.db"),
    "db": lambda _: writes("db", LISTED, "listed.db"),
    "shim": lambda _: writes("shim", LISTED, "revoked.db"),
    "verdict on a listed image": lambda desk: writes(
        "verdict", b"allowed\n", "listed.db", 0, desk.file("image", SIGNED)
    ),
    "impact": lambda _: writes("impact", BARS, "proposed.db", 1, "1"),
    "minutes": lambda desk: writes("minutes", desk.minutes(desk.at("listed.db")), "listed.db"),
    "audit": lambda desk: reads_minutes(desk, "audit", OWNER, "-"),
    "follow": lambda desk: reads_minutes(desk, "follow", "DESK", OWNER, "-", follows=True),
    "dbx of version 1": first_dbx,
    "audit of version 1": first_audit,
    "answer": lambda _: Case(
        ("answer", "DESK"), LEVEL, got("olga", "/level"), most=len(LEVEL), answers=True,
        desk="people.db",
    ),
}


def shared() -> Iterator[tuple[str, int, int]]:
    """Each case with its share, and of how many."""
    for name in CASES:
        shares = SHARES if name.split()[0] in LONG else 1
        yield from ((name, share, shares) for share in range(shares))


@pytest.mark.parametrize("name, share, shares", shared())
def test_each_refused_allocation_is_told_or_done_without(
    desks: Program, session_room: Path, room: Path, name: str, share: int, shares: int
) -> None:
    loaded = library(session_room, "refuse")
    Refusing(desks, loaded, name, CASES[name](desks), room).each(share, shares)
