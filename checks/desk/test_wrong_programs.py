"""Programs with wrong answers turn the tests of the others red.

A program in front of the one under check answers as a wrong body would (wrong_answers.py), by a
fault that the clauses allow: `apply`, `open`, `verdict` or an export always NoMemory or Store;
`carried` or `facts` always NoMemory, `pack` always Write, `serve_one` always the 503 of NoMemory;
`apply` or `open` one of the two on a large desk, a large command or a Drop alone. With it in the
program's place a test of runs, of the first desk or of a day fails, at the run or the request that
is named and for that fault. With a slip (another reply to a Drop, a byte changed in dbx or db, an
impact without its last image) the walk beside the model fails, at the first answer that has it.
With neither, the same days and the walk pass. (Programs that break the rule of stops are in
stops/test_stops.py.)"""
from __future__ import annotations

import re
import shlex
import sys
from pathlib import Path
from typing import Callable, NamedTuple

import pytest

from checks.conftest import NewDesk
from checks.desk import test_day, test_runs
from checks.http import test_days
from checks.model.walk import Walk
from checks.support.console import Day
from checks.support.program import Program
from checks.support.tools import ROOT

pytestmark = pytest.mark.needs("sqlite3")


class Standing(NamedTuple):
    """A program that stands in front, and desks that were made without it."""

    desk: Program
    new_desk: NewDesk
    morning: Day


Stands = Callable[[str, int], Standing]


@pytest.fixture
def stands(
    program_path: Path, room: Path, new_desk: NewDesk, morning: tuple[str, bytes]
) -> Stands:
    """`stands(CALL, NUMBER)` answers as this body would."""

    def standing(call: str, number: int) -> Standing:
        module = [sys.executable, "-B", "-m", "checks.desk.wrong_answers"]
        line = shlex.join([*module, str(program_path), call, str(number)])
        front = room / "front"
        front.write_text(f'#!/bin/sh\nPYTHONPATH={shlex.quote(str(ROOT))} exec {line} "$@"\n')
        front.chmod(0o755)
        desk = Program(front, room)
        day = Day(desk, desk.copied(morning[0], "morning.db"))
        day.minutes = morning[1]
        return Standing(desk, new_desk, day)

    return standing


Check = Callable[[Standing], None]


def day_of(name: str) -> Check:
    test = test_days.test_a_day_leaves_the_same_tables_over_one_server_and_by_single_runs
    return lambda at: test(at.desk, at.new_desk, name)


def packs(at: Standing) -> None:
    test_runs.test_pack_writes_a_list_of_the_digests_ascending_and_once(at.desk)


def tells_facts(at: Standing) -> None:
    test_runs.test_ranges_and_facts_of_the_examples(at.desk)


def adds(at: Standing) -> None:
    test_day.test_a_repeated_key_is_answered_again_and_another_call_under_it_refused(at.morning)


def exports(at: Standing) -> None:
    test_day.test_a_desk_of_people_exports_nothing_yet(at.morning)
    test_day.test_the_file_alone_without_its_log_is_the_desk(at.morning)


BOTH = (40, 41)
# The call, the numbers of its faults, the row at which the test fails, and the test.
BODIES: list[tuple[str, tuple[int, ...], str, Check]] = [
    ("pack", (17,), "desk pack ", packs),
    ("facts", (40,), "desk facts ", tells_facts),
    ("carried", (40,), f"desk facts {test_runs.SIGNED}", tells_facts),
    ("open", BOTH, "desk person ", adds),
    ("apply", BOTH, "desk person ", adds),
    *((export, BOTH, f"desk {export} ", exports) for export in test_day.EXPORTS),
    ("verdict", BOTH, "desk verdict ", exports),
    ("verdict", BOTH, "levels, request ", day_of("levels")),
    ("apply of a request", BOTH, "two proposals, request 1 over serve", day_of("two proposals")),
    ("serve_one", (40,), "first requests, request 1 over serve", day_of("first requests")),
    ("apply of a drop", BOTH, "two proposals, request ", day_of("two proposals")),
    ("apply of a large command", BOTH, "the largest, request 1 over serve", day_of("the largest")),
    ("open of a large desk", BOTH, "desk minutes ", day_of("the largest")),
]
FAULTS = [
    pytest.param(call, number, row, check, id=f"{call} answers {number}, {row.split(',')[0]}")
    for call, numbers, row, check in BODIES for number in numbers
]


@pytest.mark.long(20)
@pytest.mark.parametrize("call, number, row, check", FAULTS)
def test_a_fault_is_refused_at_its_row(
    stands: Stands, call: str, number: int, row: str, check: Check
) -> None:
    fault = rf"""device {number} |"refused":{number}}}"""
    with pytest.raises(AssertionError, match=rf"(?s)^{re.escape(row)}.*({fault})"):
        check(stands(call, number))


SLIPS = {
    "another reply": r"request \d+, drop accepted",
    "another byte of dbx": r"after \d+ requests, desk dbx:",
    "another byte of db": r"after \d+ requests, desk db:",
    "an image less": r"request \d+, impact accepted",
}


@pytest.mark.long(60)
@pytest.mark.parametrize("slip", SLIPS)
def test_a_slip_is_refused_by_the_walk_beside_the_model(stands: Stands, slip: str) -> None:
    with pytest.raises(AssertionError, match=f"^{SLIPS[slip]}"):
        Walk(stands(slip, 0).desk, 1).goes()


@pytest.mark.long(20)
@pytest.mark.parametrize("day", ("lists", "first requests"))
def test_a_day_passes_where_nothing_is_wrong(stands: Stands, day: str) -> None:
    day_of(day)(stands("none", 40))


@pytest.mark.long(150)
def test_the_walk_passes_where_nothing_is_wrong(stands: Stands) -> None:
    walk = Walk(stands("none", 40).desk, 1)
    walk.goes()
    assert walk.lacking() == []
