"""The place in which a test process stops the program, and the desks that cases begin on."""
from __future__ import annotations

import os
import tempfile
from pathlib import Path
from typing import Iterator

import pytest

from checks.desk.stops.cases import READY, after
from checks.desk.stops.first import first_file
from checks.desk.stops.places import DESK, PLACES, Files, Place
from checks.support.images import OWNER
from checks.support.tools import library


@pytest.fixture(scope="session")
def a_place(program_path: Path, session_room: Path) -> Iterator[Place]:
    """What a disk keeps is modelled, so the desks are in memory, where there is such a place."""
    memory = "/dev/shm" if os.access("/dev/shm", os.W_OK) else str(session_room)
    stop, fail = library(session_room, "stop"), library(session_room, "fail")
    with tempfile.TemporaryDirectory(prefix="desk-checks-", dir=memory) as folder:
        # (by its real path, by which stop.c knows a desk's files)
        PLACES[:] = [Place(program_path, Path(folder).resolve(), stop, fail)]
        yield PLACES[0]


@pytest.fixture(scope="session")
def desks(a_place: Place) -> dict[str, Files]:
    """A new desk, one that is ready for each command, and a file of version 1."""
    a_place.gives(Files(), ("init", DESK, OWNER))
    new = a_place.left()
    return {"new": new, "ready": after(new, READY), "first": Files(first_file())}
