"""Desks that several tests of this folder begin with."""
from __future__ import annotations

from pathlib import Path
from typing import Iterator

import pytest

from checks.support.console import PEOPLE, Day
from checks.support.images import OWNER
from checks.support.program import Program


@pytest.fixture(scope="session")
def morning(program_path: Path, session_room: Path) -> tuple[str, bytes]:
    """A desk of seven people, and its minutes."""
    desk = Program(program_path, session_room)
    path = desk.at("morning.db")
    desk.ends(0, b"", b"", "init", path, OWNER)
    made = Day(desk, path)
    for number, person in enumerate(PEOPLE, 1):
        name, role = person.split("/")
        made.adds(name, role, f"k{number}")
    return path, made.minutes


@pytest.fixture
def day(desk: Program, morning: tuple[str, bytes]) -> Iterator[Day]:
    """A desk of seven people. The minutes at the end are those of the calls that were made."""
    made = Day(desk, desk.copied(morning[0], "desk.db"))
    made.minutes = morning[1]
    yield made
    made.kept()
