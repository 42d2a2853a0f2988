"""Stops of the first opening of a file of version 1, that of examples/version-1 and one with an
import of 300 digests.

It leaves version 1, or 2 whole, as SQLite reads the files, and both are met. The desk has the
exports and the keys of before, and the next opening writes nothing. Openings that are stopped one
call later each time, and lives of a server between them, lose nothing. Of another version, or with
one of the three new names taken, the file is refused and left as it was."""
from __future__ import annotations

import contextlib
import sqlite3
from typing import Any, NamedTuple

import pytest

from checks.desk.stops.cases import (BY_DIGEST, CSV, SIGNED, Case, after, imported, keys, raised)
from checks.desk.stops.first import (
    ADDED, EXAMPLE, FIRST_CSV, FIRST_DIGESTS, KEPT, executed, first_exports
)
from checks.desk.stops.lives import Served, has_keys
from checks.desk.stops.left import places, remains, stops_of
from checks.desk.stops.places import (
    DESK, ENDS, EXPORTS, ONLY, STOPPED, WAYS, Broken, Call, Files, Place, adds, asks, place
)
from checks.support.images import digest
from checks.support.says import expect
from checks.support.steps import (
    again, confirms, lists, named, proposes, refuses, reviews, submits
)

pytestmark = [pytest.mark.needs("cc", "sqlite3"), pytest.mark.usefixtures("a_place")]


class Tables(NamedTuple):
    """The version of a desk's tables, the rows of the twelve, but for the version, and those of the
    tables that version 2 adds."""

    version: int
    rows: dict[str, list[Any]]
    added: dict[str, list[Any]]


def tables_in(files: Files) -> Tables:
    """The tables in these files, as SQLite finds them."""
    place().put(files)
    with contextlib.closing(sqlite3.connect(place().desk)) as base:
        names = [
            one for (one,)
            in base.execute("SELECT name FROM sqlite_schema WHERE type = 'table' ORDER BY name")
        ]
        found = {
            one: base.execute(f'SELECT * FROM "{one}" ORDER BY rowid').fetchall() for one in names
        }
    (number, mark, version, *rest), = found["desk"]
    found["desk"] = [(number, mark, *rest)]
    return Tables(
        version, {one: found[one] for one in names if one not in ADDED},
        {one: found[one] for one in names if one in ADDED}
    )


class Migration(Case):
    """The first opening of a file of version 1."""

    def __init__(self, name: str, files: Files, exports: dict[str, bytes]) -> None:
        self.name, self.files, self.exports = name, files, exports
        self.calls = [Call(("level", DESK), b"", exports["level"], "")]
        self.first = tables_in(self.files)
        self.second = self.first._replace(
            version=2,
            added={
                "migrated": [(1, len(self.first.rows["calls"]))], "proposal_items": [],
                "proposals": []
            }
        )
        self.versions: dict[Files, int] = {}

    def version(self, left: Files, what: str) -> int:
        """The version that these files are of, whose desk opens and exports the same as before."""
        found = tables_in(left)
        if found not in (self.first, self.second):
            raise Broken(f"{what}: neither version 1 nor version 2 whole")
        exports = {one: place().gives(left, (one, DESK)) for one in ("minutes", "dbx")}
        files = place().left()
        if any(
            exports[one] != self.exports[one] for one in exports
        ) or tables_in(files) != self.second:
            raise Broken(f"{what}: another desk is opened")
        return found.version

    def meets(self, every: bool = True) -> None:
        whole, met = self.whole(), []
        for stop in stops_of(len(whole.calls), places(len(whole.calls), every)):
            ran = self.stopped(whole, stop)
            for name, left in remains(ran).items():
                what = self.told(whole, stop, name)
                if left not in self.versions:
                    self.versions[left] = self.version(left, what)
                met.append(self.versions[left])
                if self.least(ran) and self.versions[left] == 1:
                    raise Broken(f"{what}: an opened desk is of version 1 again")
        if len(ONLY) < 2 and {*met} != {1, 2}:
            raise Broken(f"{self.name}: the stops leave only version {met[0]}")


@pytest.mark.long(100)
def test_a_file_of_version_1_is_of_version_1_or_2_whole(desks: dict[str, Files]) -> None:
    """The file that was made here, and opens and exports what it has to; its next opening writes
    nothing to it."""
    case = Migration("a file of version 1", desks["first"], first_exports())
    for one in EXPORTS:
        came = place().gives(case.files, (one, DESK))
        expect(came, case.exports[one], f"{one} of a file of version 1")
    opened = place().left()
    place().gives(opened, ("level", DESK))
    expect(place().left().db or b"", opened.db or b"", "a file of version 1, opened again")
    files = opened
    for call in ASKED:
        expect(
            place().gives(files, call.words, call.given), call.due,
            f"a file of version 1, key {call.key}"
        )
        files = place().left()
    case.meets()


@pytest.mark.long(100)
def test_the_file_that_a_program_of_version_1_made_is_of_either_version_whole(
    a_place: Place
) -> None:
    exports = {
        "minutes": (KEPT / "minutes").read_bytes(), "dbx": (KEPT / "dbx.esl").read_bytes(),
        "level": b"sbat,1,2024010101\ngrub,3\nshim,4\n",
    }
    Migration("examples/version-1", EXAMPLE, exports).meets()


# Calls to the desk of that file, and the answers: an earlier key has its reply, and revoked digests
# are revoked.
IMPORTED = {"certificates": 0, "components": 0, "digests": 300, "passed": 0, "reply": "imported"}
ASKED = [
    asks(again("olga", "o1", "/imports/csv", FIRST_CSV, IMPORTED)),
    adds("olga", "officer", "p6"),
    asks(refuses(22, "olga", "o1", "/imports/csv", CSV)),
    asks(refuses(30, "olga", "o2", "/dbx/digests", named(FIRST_DIGESTS[0]))),
    asks(proposes("olga", "o2", "/dbx/digests", named(digest("35")), 1)),
    asks(refuses(38, "olga", "o3", "/proposals/1/confirm", b"")),
    asks(again("olga", "o1", "/imports/csv", FIRST_CSV, IMPORTED)),
]
# Statements that each make another file of that one, and the refusal of that file.
REFUSED = [
    ("UPDATE desk SET version = 3", b"refused 44 Version\n"),
    ("UPDATE desk SET version = 0", b"refused 44 Version\n"),
    ("UPDATE desk SET mark = 'boot'", b"refused 43 NotADesk\n"),
    ("CREATE TABLE Proposals (no INTEGER PRIMARY KEY)", b"refused 43 NotADesk\n"),
    ("CREATE TABLE PROPOSAL_ITEMS (place INTEGER)", b"refused 43 NotADesk\n"),
    ("CREATE INDEX Migrated ON people (role)", b"refused 43 NotADesk\n"),
    ("CREATE VIEW proposalS AS SELECT no FROM calls", b"refused 43 NotADesk\n"),
]


@pytest.mark.parametrize("statement, due", REFUSED)
def test_another_version_or_a_taken_name_is_refused_and_the_file_left(
    desks: dict[str, Files], statement: str, due: bytes
) -> None:
    files = Files(executed(desks["first"].db or b"", (statement,)))
    found = tables_in(files)
    ran = place().run(files, ("level", DESK))
    expect((ran.status, ran.answers, ran.err), (1, [b""], due), statement)
    if ran.written.db != files.db or tables_in(ran.written) != found:
        raise Broken(f"{statement}: the file is changed")


# Lives of version 2, a call whose response is lost and one that is stopped in each.
CROSSING_LIVES = [
    (
        proposes("olga", "a0", "/dbx/digests", named(digest("35")), 1),
        submits("ann", "b0", SIGNED, "A", 1)
    ),
    (confirms("otto", "a1", 1, 1, 0, 0, 0), lists("olga", "b1", digest("52"))),
    (raised("a2", 2), confirms("otto", "b2", 2, 0, 0, 1, 0)),
    (reviews("rita", "a3", 1, "yes", "open"), imported("b3", 3))
]


def openings(files: Files, way: str, life: int) -> Files:
    """The files after openings of their desk, each of the files that the one before left, and
    stopped one call later."""
    number = 0
    while True:
        number += 1
        ran = place().run(files, ("level", DESK), seed=STOPPED + number % 100, stop=number, way=way)
        is_opened = len(ran.calls) < number
        if ran.status != (0 if is_opened else ENDS[way]):
            raise Broken(f"lives that cross the change by {way}, life {life}:"
                f" opening {number}: status {ran.status}, {ran.err!r}")
        if is_opened:
            return ran.written
        left = [*remains(ran).values()]
        files = left[number % len(left)]


@pytest.mark.long(100)
@pytest.mark.parametrize("way", WAYS)
def test_lives_that_cross_the_change_of_version_lose_nothing(
    desks: dict[str, Files], way: str
) -> None:
    """Lives of a desk that cross its change of version."""
    otto = adds("otto", "officer", "p7")
    calls = [otto, *(asks(one) for life in CROSSING_LIVES for one in life)]
    whole = after(desks["first"], calls)
    wanted = place().tables()
    files = after(openings(desks["first"], way, 0), [otto])
    for life, steps in enumerate(CROSSING_LIVES, 1):
        files = openings(files, way, life)
        case = Served(
            f"lives that cross the change by {way}, life {life}", files, [*map(asks, steps)],
            BY_DIGEST
        )
        files = case.meets_all(way, life)
    place().gives(files, ("level", DESK))
    if place().tables() != wanted:
        raise Broken(f"lives that cross the change by {way}: other tables than without a stop")
    has_keys(
        whole, keys(place().gives(files, ("minutes", DESK))),
        f"lives that cross the change by {way}"
    )
