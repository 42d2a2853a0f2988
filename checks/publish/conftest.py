"""Desks that are published, each made once for a test process and copied for a test."""
from __future__ import annotations

import os
import tempfile
from pathlib import Path
from typing import Iterator

import pytest

from checks.publish.place import PEOPLE, Place, Stage, made_certificate, number, publisher
from checks.support.images import OWNER
from checks.support.program import Program
from checks.support.tools import needs

# Each publication waits for its disk some twenty times, so it is made in memory, where there is
# room for it.
MEMORY = "/dev/shm" if os.access("/dev/shm", os.W_OK) else None
SIGN = 'exec sign-efi-sig-list -c "${0%/*}"/KEK.pem -k "${0%/*}"/KEK.key "$1" "$2" "$3"'


@pytest.fixture
def room() -> Iterator[Path]:
    with tempfile.TemporaryDirectory(prefix="desk-publish-", dir=MEMORY) as room:
        yield Path(room)


@pytest.fixture(scope="session")
def stage(program_path: Path) -> Iterator[Stage]:
    """`stage(NAME, BEFORE)` is a place for this test process, at first as the one before it."""
    with tempfile.TemporaryDirectory(prefix="desk-publish-", dir=MEMORY) as stages:

        def begun(name: str, before: Place | None = None) -> Place:
            room = Path(stages) / name
            room.mkdir()
            desk = Program(program_path, room)
            return before.copied(desk) if before else Place(desk)

        yield begun


@pytest.fixture(scope="session")
def founded_stage(stage: Stage) -> Place:
    made = stage("founded")
    made.desk.gives("init", made.db, OWNER)
    for person in PEOPLE:
        made.desk.add(made.db, *person.split("/"))
    return made


@pytest.fixture(scope="session")
def published_stage(stage: Stage, founded_stage: Place) -> Place:
    made = stage("published", founded_stage)
    made.publish(0, "calls 4: published", "--first")
    return made


@pytest.fixture(scope="session")
def signed_stage(stage: Stage, published_stage: Place) -> Place:
    needs("openssl", "sign-efi-sig-list", "ssh-keygen")
    made = stage("signed", published_stage)
    made.lists(made_certificate(made.room, "signer"))
    for one in (1, 2):
        made.revokes(number(one))
    made.raises("grub", 3, 2026112700)
    made_certificate(made.room, "KEK")
    made.script("sign", SIGN)
    publisher(made)
    made.publish(0, "calls 11: published", "--sign", "./sign", "--key", "publisher")
    return made


@pytest.fixture
def place(desk: Program, founded_stage: Place) -> Place:
    """A desk of four people, and nothing published."""
    return founded_stage.copied(desk)


@pytest.fixture
def published(desk: Program, published_stage: Place) -> Place:
    """The desk of four people, published."""
    return published_stage.copied(desk)


@pytest.fixture
def signed(desk: Program, signed_stage: Place) -> Place:
    """A listed certificate, two revoked digests and a level, published at call 11, with updates by
    ./sign and signatures by the key `publisher`."""
    return signed_stage.copied(desk)
