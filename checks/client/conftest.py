"""deskctl, a desk that serves with its people, and a proxy between them, each of a test's own."""
from __future__ import annotations

from pathlib import Path
from typing import Iterator

import pytest

from checks.support.between import Between
from checks.support.client_day import FILES
from checks.support.deskctl import Office, compiled
from checks.support.program import Program
from checks.support.server import Server


@pytest.fixture(scope="session")
def command(session_room: Path) -> list[str]:
    """How deskctl is begun."""
    return compiled(session_room)


@pytest.fixture
def office(desk: Program, server: Server, command: list[str]) -> Office:
    """A served desk and its people, with the files of a day."""
    for name, data in FILES.items():
        desk.file(name, data)
    return Office(desk, server, command)


@pytest.fixture
def between(server: Server) -> Iterator[Between]:
    """A proxy before the test's served desk."""
    made = Between(server.port)
    yield made
    made.close()
