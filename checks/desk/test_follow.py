"""`desk follow`: a desk is rebuilt from its minutes, and a standby follows new lines.

Its dbx, db, level and minutes are the lost one's, byte for byte. A standby follows ten new lines,
and serves on with calls of its own. Where a line of the desk's own is another one nothing is
committed; wrong lines behind them are in test_audit.py. A FILE that is a
beginning of the desk's minutes, and the same FILE again, change nothing. Another owner, a database
without a desk, files that aren't there, standard input, a full output."""
from __future__ import annotations

import contextlib
import sqlite3
import stat
from pathlib import Path
from typing import NamedTuple

import pytest

from checks.support.afternoon import SEVEN, afternoon
from checks.support.images import OWNER
from checks.support.program import Program, copy_of, told
from checks.support.says import expect
from checks.support.steps import confirms, lists, named, proposes

ANOTHER_OWNER = "fa31923d-6047-40bf-81d0-e63edefcf194"


class Lost(NamedTuple):
    """A desk, its exports, and those once it had ten calls more."""

    early: str
    late: str
    exports: dict[str, bytes]
    longer: dict[str, bytes]


@pytest.fixture(scope="session")
def lost(program_path: Path, session_room: Path) -> Lost:
    desk = Program(program_path, session_room)
    early = afternoon(desk, "early.db")
    late = desk.copied(early, "late.db")
    for number in range(10, 20):
        step = lists("olga", f"n{number}", f"{number:064}")
        desk.answers(late, step.given, step.due, "ten new lines")
    return Lost(early, late, desk.exports(early), desk.exports(late))


@pytest.fixture
def standby(desk: Program, lost: Lost) -> str:
    """A desk that has followed the lost one."""
    path = desk.at("standby.db")
    follows(desk, path, lost.exports)
    return path


def follows(desk: Program, path: str, exports: dict[str, bytes], by_input: bool = False) -> None:
    """The desk follows the minutes, and has these exports."""
    minutes = exports["minutes"]
    file = "-" if by_input else desk.file("minutes", minutes)
    given = minutes if by_input else b""
    desk.ends(0, told(exports), b"", "follow", path, OWNER, file, given=given)
    expect(desk.exports(path), exports, "the exports of a desk that followed")


def test_a_desk_is_rebuilt_from_its_minutes(desk: Program, lost: Lost, standby: str) -> None:
    """From a file and from standard input, in a new file and on a new desk."""
    expect(stat.S_IMODE(Path(standby).stat().st_mode), 0o600, "a new desk's mode")
    follows(desk, desk.at("from-input.db"), lost.exports, by_input=True)
    made = desk.at("made.db")
    desk.gives("init", made, OWNER)
    for _ in range(2):
        follows(desk, made, lost.exports)


def test_a_beginning_of_its_own_minutes_changes_nothing(
    desk: Program, lost: Lost, standby: str
) -> None:
    before = Path(standby).read_bytes()
    lines = lost.exports["minutes"].splitlines(keepends=True)
    for count in (0, 1, len(lines) - 1, len(lines)):
        fewer = desk.file("fewer", b"".join(lines[:count]))
        desk.ends(0, told(lost.exports), b"", "follow", standby, OWNER, fewer)
    expect(Path(standby).read_bytes(), before, "a run that had nothing to follow wrote")


def test_a_standby_follows_ten_new_lines_and_goes_on_by_itself(
    desk: Program, lost: Lost, standby: str
) -> None:
    """So does a copy of the lost desk. What that answered is answered again."""
    lines = lost.exports["minutes"].count(10)
    expect(lost.longer["minutes"].count(10), lines + 10, "the new lines")
    for path in (standby, copy_of(lost.early, desk.at("copied.db"))):
        follows(desk, path, lost.longer)
    for step in (
        proposes("olga", "k4", "/dbx/digests", named(f"{99:064}"), 3),
        proposes("olga", "k2", "/dbx/digests", named(SEVEN), 1),
        confirms("otto", "k3", 3, 1, 0, 0, 0),
    ):
        desk.answers(standby, step.given, step.due, "the standby")
    exports = desk.exports(standby)
    expect(exports["minutes"].count(10), lines + 12, "the standby's minutes")
    desk.audited(exports)


# ---- lines that are wrong


def proposed(lines: list[bytes]) -> int:
    """The number of the first proposal's line."""
    return next(at for at, line in enumerate(lines, 1) if line.endswith(b"proposed 1\n"))


def test_of_the_desks_own_lines_nothing_is_committed(
    desk: Program, lost: Lost, standby: str
) -> None:
    follows(desk, standby, lost.longer)
    before = Path(standby).read_bytes()
    lines = lost.longer["minutes"].splitlines(keepends=True)
    count = len(lines)
    for at in (1, proposed(lines), count):
        changed = [*lines[: at - 1], lines[at - 1][:-2] + b"~\n", *lines[at:]]
        refused = b"refused 47 Minute at %d\n" % at
        turned = desk.file("turned", b"".join(changed))
        desk.ends(1, b"", refused, "follow", standby, OWNER, turned)
    cut = desk.file("turned", b"".join(lines)[:-2])
    desk.ends(1, b"", b"refused 47 Minute at %d\n" % count, "follow", standby, OWNER, cut)
    longer = desk.file("longer", lost.longer["minutes"])
    desk.ends(1, b"", b"refused 48 Owner\n", "follow", standby, ANOTHER_OWNER, longer)
    expect(Path(standby).read_bytes(), before, "a refused run wrote")


def test_follow_has_the_statuses_of_its_words_and_files(desk: Program, lost: Lost) -> None:
    longer, new = desk.file("longer", lost.longer["minutes"]), desk.at("new.db")
    file, below = b"device 45 File\n", desk.at("missing/new.db")
    desk.ends(3, b"", file, "follow", new, OWNER, desk.at("missing"))
    assert not Path(new).exists(), "a desk was made without minutes"
    desk.ends(3, b"", file, "follow", below, OWNER, longer)
    desk.ends(2, b"", b"bad OWNER\n", "follow", below, "nobody", "missing")
    desk.ends(3, b"", file, "follow", desk.room, OWNER, longer)
    desk.ends(3, b"", b"device 14 Read\n", "follow", new, OWNER, desk.room)
    desk.ends(0, told(lost.longer), b"", "follow", new, OWNER, longer)
    notes = desk.at("notes.db")
    with contextlib.closing(sqlite3.connect(notes)) as store:
        store.execute("CREATE TABLE notes (id INTEGER PRIMARY KEY)")
    desk.ends(1, b"", b"refused 43 NotADesk\n", "follow", notes, OWNER, longer)
    with contextlib.closing(sqlite3.connect(notes)) as store:
        rows = store.execute("SELECT name FROM sqlite_schema").fetchall()
    expect(rows, [("notes",)], "a desk was made beside other tables")
    empty = desk.file("empty.db", b"")
    desk.ends(0, told(lost.longer), b"", "follow", empty, OWNER, longer)
    full = desk.full("follow", new, OWNER, longer)
    expect((full.status, full.err), (3, b"device 17 Write\n"), "a full output")
