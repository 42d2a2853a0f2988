"""`desk audit` and `desk follow` over minutes that are right, and wrong at one line.

The audit of a desk's afternoon prints the SHA-256 of the desk's own exports, and writes those
exports byte for byte, from a file and from standard input. Each line in turn is changed, left out,
doubled and cut: the audit names it. The first wrong line comes before a failed output, and a file
that isn't there, a folder, a full output and a wrong word have their statuses. Then the minutes of
minutes.txt: `audit` names the wrong line, and `follow` stops there, on a new desk and on one with
some lines of its own; a read that fails; the longest name and key.

minutes.txt has two days, each below its name."""
from __future__ import annotations

from pathlib import Path
from typing import NamedTuple

import pytest

from checks.support.afternoon import afternoon
from checks.support.images import OWNER, TBS, X509_KIND, sha256, signature_list
from checks.support.largest import LONGEST
from checks.support.program import Program, Ran, copy_of, told
from checks.support.says import expect
from checks.support.tools import library

SHIPPED = ("minutes", "dbx", "shim", "db", "level")


@pytest.fixture(scope="session")
def afternoon_desk(program_path: Path, session_room: Path) -> str:
    return afternoon(Program(program_path, session_room), "afternoon.db")


@pytest.fixture
def path(desk: Program, afternoon_desk: str) -> str:
    return copy_of(afternoon_desk, desk.at("desk.db"))


def test_an_audit_tells_and_writes_what_the_desk_exports(desk: Program, path: str) -> None:
    exports = desk.exports(path)
    assert all(exports.values()), "an export is empty"
    minutes = desk.file("minutes", exports["minutes"])
    desk.ends(0, told(exports), b"", "audit", OWNER, minutes)
    desk.ends(0, told(exports), b"", "audit", OWNER, "-", given=exports["minutes"])
    for name in SHIPPED[1:]:
        due = desk.gives(name, path)
        desk.ends(0, due, b"", "audit", OWNER, minutes, name)
        desk.ends(0, due, b"", "audit", OWNER, "-", name, given=exports["minutes"])


def turned(lines: list[bytes], at: int) -> dict[str, tuple[list[bytes], int]]:
    """The lines with the one of this number changed, and the line that is then wrong."""
    one, before, after = lines[at - 1], lines[: at - 1], lines[at:]
    number, _, rest = one.partition(b"\t")
    found = {
        "another reply": ([*before, one[:-2] + b"~\n", *after], at),
        "another number": ([*before, b"99\t" + rest, *after], at),
        "doubled": ([*before, one, one, *after], at + 1),
        "cut": ([*before, one[:-1]], at),
    }
    if after:
        found["left out"] = ([*before, *after], at)
    return found


@pytest.mark.long(30)
def test_the_first_wrong_line_is_named(desk: Program, path: str) -> None:
    """Each line, changed in its number and its reply, left out, doubled and cut; and a long last
    line, of some megabytes."""
    lines = desk.minutes(path).splitlines(keepends=True)
    wrong = [
        (f"line {at} {what}", b"".join(changed), due)
        for at in range(1, len(lines) + 1)
        for what, (changed, due) in turned(lines, at).items()
    ]
    wrong.append(("a long line", b"".join(lines) + b"x" * 4_000_000, len(lines) + 1))
    for what, minutes, due in wrong:
        file = desk.file("turned", minutes)
        for words in ((), ("dbx",)):
            refused = b"refused 47 Minute at %d\n" % due
            desk.ends(1, b"", refused, "audit", OWNER, file, *words, what=f"{what}: ")


def test_an_audit_has_the_statuses_of_its_words_and_devices(desk: Program, path: str) -> None:
    minutes, missing = desk.file("minutes", desk.minutes(path)), desk.at("missing")
    desk.ends(3, b"", b"device 45 File\n", "audit", OWNER, missing)
    desk.ends(3, b"", b"device 14 Read\n", "audit", OWNER, desk.room)
    desk.ends(2, b"", b"bad OWNER\n", "audit", "nobody", minutes)
    desk.ends(2, b"", b"bad EXPORT\n", "audit", OWNER, minutes, "minutes")
    desk.ends(2, b"", b"bad EXPORT\n", "audit", OWNER, missing, "report")
    for words in ((), (OWNER,), (OWNER, minutes, "dbx", "more")):
        assert desk.run("audit", *words).status == 2, words
    full = desk.full("audit", OWNER, minutes)
    expect((full.status, full.err), (3, b"device 17 Write\n"), "a full output")
    wrong = desk.file("turned", b"x\n")
    expect(desk.full("audit", OWNER, wrong).status, 1, "wrong minutes, a full output")


# ---- the minutes of minutes.txt, as they stand and wrong at one line


class Record(NamedTuple):
    # The number of calls, or of the first wrong line.
    number: int
    wrong: bool
    minutes: bytes


DAY, MIXED = (
    part.split(b"\n", 1)[1]
    for part in Path(__file__).with_name("minutes.txt").read_bytes().split(b"==\n")
)
REVOKES = b"5\tolga\tk3\trevoke-digest %s\t" % (b"b" * 64)
# Minutes with other bytes in them, and the first line that is then wrong.
WRONG: dict[str, tuple[bytes, bytes, bytes, int]] = {
    "another reply": (DAY, b"\tlisted", b"\tunlisted", 3),
    "another count": (DAY, b"confirmed 1 1", b"confirmed 1 2", 5),
    "a number is passed over": (DAY, b"\n4\t", b"\n5\t", 4),
    "a call is repeated": (DAY, b"\n4\tolga\tk2\trevoke", b"\n4\tolga\tk1\tlist", 4),
    "an own proposal": (DAY, b"otto\tk1", b"olga\tk3", 5),
    "another line break": (DAY, b"added otto\n", b"added otto\r\n", 2),
    "no name": (DAY, b"2\tconsole", b"2\t", 2),
    "an empty line": (DAY, b"\n4\t", b"\n\n4\t", 4),
    "too few fields": (DAY, b"\tconfirmed 1 1 0 0 0", b"", 5),
    "one officer's reply after a proposal": (DAY, b"5\totto\tk1\tconfirm 1\tconfirmed 1 1 0 0 0",
                                             REVOKES + b"revoked", 5),
    "a proposal's Confirm after one officer's reply": (DAY, b"\tproposed 1", b"\trevoked", 5),
    "another reply of one officer": (MIXED, b"\trevoked", b"\traised", 5),
    "another count of one officer": (MIXED, b"imported 1 0 2 3", b"imported 2 0 2 3", 7),
    "revoked twice": (MIXED, b"raise shim 2 2024010100\traised",
                      b"revoke-digest %s\trevoked" % (b"a" * 64), 6),
    "one officer repeats a call": (MIXED, b"9\tolga\tk3", b"9\tolga\tk1", 9),
    "another proposal's number": (MIXED, b"\tproposed 1", b"\tproposed 2", 9),
}
RECORDS = {
    "the day": Record(5, False, DAY), "a day by either rules": Record(10, False, MIXED),
    **{what: Record(at, True, minutes.replace(old, new, 1))
       for what, (minutes, old, new, at) in WRONG.items()},
    "the last line is cut": Record(5, True, DAY[:-1]),
}
MADE_FOR = "07070707-0707-0707-0707-070707070707"
# The longest name, and the longest key.
NAME, KEY = "z" * 32, "~" * 64


def first(minutes: bytes, count: int) -> bytes:
    """So many lines of the minutes, from the first."""
    return b"".join(minutes.splitlines(keepends=True)[:count])


def ended(ran: Ran, record: Record, what: str) -> None:
    """A run passed so many calls with these minutes, or refused this line."""
    if record.wrong:
        expect(ran, Ran(1, b"", b"refused 47 Minute at %d\n" % record.number), what)
    else:
        lines = [b"calls %d" % record.number, b"minutes " + sha256(record.minutes).encode()]
        expect((ran.status, ran.out.splitlines()[:2], ran.err), (0, lines, b""), what)


@pytest.mark.parametrize("what", RECORDS)
def test_audit_names_the_wrong_line_and_follow_stops_there(desk: Program, what: str) -> None:
    """A new desk follows the lines up to the first wrong one."""
    record, path = RECORDS[what], desk.at("new.db")
    ended(desk.run("audit", MADE_FOR, "-", given=record.minutes), record, "audit")
    ended(desk.run("follow", path, MADE_FOR, "-", given=record.minutes), record, "follow")
    left = first(record.minutes, record.number - 1) if record.wrong else record.minutes
    expect(desk.minutes(path), left, "the minutes of the desk that followed")


# A desk's own lines of minutes, what it is given, and the line at which it stops.
OWN: list[tuple[int, bytes, bytes, int | None]] = [
    *(
        (own, MIXED, first(MIXED, given), None)
        for own, given in ((0, 10), (4, 10), (7, 10), (9, 10), (10, 10), (10, 4), (3, 0))
    ),
    (5, MIXED, DAY, 3), (2, DAY, RECORDS["another count"].minutes, 5),
    (4, DAY, RECORDS["the last line is cut"].minutes, 5),
]


@pytest.mark.parametrize(
    "own, minutes, given, stops", OWN,
    ids=[f"{own} own, {given.count(10)} given" for own, _, given, _ in OWN],
)
def test_a_desk_with_lines_of_its_own_follows_up_to_where_it_stops(
    desk: Program, own: int, minutes: bytes, given: bytes, stops: int | None
) -> None:
    path, what = desk.at("own.db"), f"{own} own lines, stopped at {stops}"
    desk.gives("init", path, MADE_FOR)
    desk.gives("follow", path, MADE_FOR, "-", given=first(minutes, own))
    if stops is None:
        left = max(first(minutes, own), given, key=len)
        record = Record(left.count(10), False, left)
    else:
        left = first(minutes, max(own, stops - 1))
        record = Record(stops, True, left)
    ended(desk.run("follow", path, MADE_FOR, "-", given=given), record, what)
    expect(desk.minutes(path), left, f"{what}: the minutes of the desk")


@pytest.mark.needs("cc")
@pytest.mark.parametrize("read", (1, 2, 7))
def test_an_audit_whose_read_fails_says_so(desk: Program, session_room: Path, read: int) -> None:
    """Its reads take 64 bytes each."""
    loaded = str(library(session_room, "fail"))
    env = {"LD_PRELOAD": loaded, "PIECE": "64", "READ": str(read)}
    ran = desk.run("audit", MADE_FOR, "-", given=DAY, env=env)
    expect(ran, Ran(3, b"", b"device 14 Read\n"), f"read {read} fails")


def test_a_line_by_the_longest_name_and_key_passes_under_its_number_alone(desk: Program) -> None:
    path = desk.at("longest.db")
    desk.gives("init", path, MADE_FOR)
    given = b"a-token-for-the-longest-name\n"
    desk.gives("person", path, NAME, "officer", KEY, given=given)
    minutes = desk.minutes(path)
    assert f"1\tconsole\t{KEY}\tadd-person {NAME} officer ".encode() in minutes
    ended(desk.run("audit", MADE_FOR, "-", given=minutes), Record(1, False, minutes), "as it is")
    second = b"2" + minutes[1:]
    ended(desk.run("audit", MADE_FOR, "-", given=second), Record(1, True, b""), "the same under 2")


def test_a_line_of_131_171_bytes_lists_the_longest_certificate(desk: Program) -> None:
    """An audit passes it, and a desk follows it."""
    call = f"list-certificate {TBS} {LONGEST.hex()}"
    line = f"2\tolga\tk1\t{call}\tlisted".encode()
    assert len(line) == 131_171
    minutes = first(DAY, 1) + line + b"\n"
    record, path = Record(2, False, minutes), desk.at("longest.db")
    ended(desk.run("audit", OWNER, "-", given=minutes), record, "audit")
    ended(desk.run("follow", path, OWNER, "-", given=minutes), record, "follow")
    expect(desk.minutes(path), minutes, "the minutes of the desk that followed")
    db = signature_list(X509_KIND, [LONGEST])
    expect(desk.gives("db", path), db, "its db")
    desk.ends(0, db, b"", "audit", OWNER, "-", "db", given=minutes)
