"""Days of requests over HTTP, every byte of each response compared.

Each day begins on a desk of seven people, two of them officers. Its requests go to one `desk
serve`, which keeps the desk open, and again to a run of `desk answer` each, which opens and closes
the file: who may review and when, what may be returned, verdicts, the level, keys, imports, two
officers, and the largest inputs at their limits."""
from __future__ import annotations

import pytest

from checks.conftest import NewDesk
from checks.support.days import DAYS
from checks.support.messages import PEOPLE
from checks.support.program import Program, dump
from checks.support.says import expect
from checks.support.server import serves
from checks.support.steps import grub

pytestmark = pytest.mark.needs("sqlite3")


@pytest.mark.long(20)
@pytest.mark.parametrize("day", DAYS)
def test_a_day_leaves_the_same_tables_over_one_server_and_by_single_runs(
    desk: Program, new_desk: NewDesk, day: str
) -> None:
    """Each response is due. An accepted command given again under its key gets the same reply, and
    changes nothing."""
    steps = DAYS[day]
    served, answered = new_desk("served.db"), new_desk("answered.db")
    serves(desk, served, steps, day)
    exports, tables = desk.exports(served), dump(served)
    accepted = [step for step in steps if step.accepted]
    expect(exports["minutes"].count(b"\n"), len(PEOPLE) + len(accepted), f"{day}: the minutes")
    desk.audited(exports)
    for number, step in enumerate(steps, 1):
        desk.answers(answered, step.given, step.due, f"{day}, request {number} by answer")
    expect(desk.exports(answered), exports, f"{day}: what is exported")
    expect(dump(answered), tables, f"{day}: the tables")
    serves(desk, served, accepted, f"{day} again")
    expect(dump(served), tables, f"{day}: the tables after each key once more")
    if day == "levels":
        image = desk.file("image", grub(2))
        expect(desk.gives("verdict", served, image, status=1), b"refused sbat grub 2 3\n", "sbat")
