"""A file of version 1 (examples/version-1) becomes one of version 2 at its first opening. Each
subcommand with DB but `init` opens it, `follow` for its owner alone; it keeps its calls and
exports, and the next opening writes nothing. Earlier keys and revocations still count; images of
before are in the impacts of new proposals; an audit passes its minutes, with calls of before and
new ones."""
from __future__ import annotations

import contextlib
import gzip
import sqlite3
from pathlib import Path
from typing import Iterator

import pytest

from checks.support.images import OWNER, sha256
from checks.support.messages import Field, ok, refused, request, text
from checks.support.program import EXPORTS, Program
from checks.support.says import expect
from checks.support.server import Server
from checks.support.steps import named, raising
from checks.support.tools import EXAMPLES

pytestmark = pytest.mark.needs("sqlite3")

KEPT = EXAMPLES / "version-1"
MINUTES, DBX = (KEPT / "minutes").read_bytes(), (KEPT / "dbx.esl").read_bytes()
DIGEST = named("ba7816bf8f01cfea414140de5dae2223b00361a396177a9cb410ff61f20015ad")
OTHER = named("aa7816bf8f01cfea414140de5dae2223b00361a396177a9cb410ff61f20015ad")
CERTIFICATE = named("1b65f68a522c858715f5dd951cd0402dc16691778814bf0759822b7a257421d0")
RAISE = raising("grub", 4, 2024010102)
LEVEL = "sbat,1,2024010101\ngrub,3\nshim,4\n"
OTTO = b"otto-token-for-the-desk"
ANOTHER_OWNER = "fa31923d-6047-40bf-81d0-e63edefcf194"


def by(name: str, path: str, body: bytes | None = None, key: str = "", *fields: Field) -> bytes:
    """The request of a person of that desk."""
    shown = [("Desk-Token", f"{name}-token-for-the-desk")]
    if body is None:
        return request("GET", path, shown)
    return request("POST", path, [*shown, ("Desk-Key", key), *fields], body)


@pytest.fixture
def path(desk: Program) -> str:
    return desk.file("desk.db", gzip.decompress((KEPT / "desk.db.gz").read_bytes()))


def keeps(desk: Program, path: str, added: bytes = b"") -> None:
    """The file has the dbx and the minutes of before, with this line, and the next opening writes
    nothing."""
    after = Path(path).read_bytes()
    expect(desk.minutes(path), MINUTES + added, "the minutes")
    expect(desk.gives("dbx", path), DBX, "dbx")
    expect(Path(path).read_bytes(), after, "the file after the next opening")


@pytest.fixture
def opened(desk: Program, path: str) -> Iterator[str]:
    """A file of version 1, which a test opens once."""
    yield path
    keeps(desk, path)


DUE = {"minutes": MINUTES, "dbx": DBX, "shim": DBX, "level": LEVEL.encode()}


@pytest.mark.parametrize("export", (*EXPORTS, "shim"))
def test_an_export_opens_it(desk: Program, opened: str, export: str) -> None:
    """No certificate is revoked, so shim's form is dbx."""
    came = desk.gives(export, opened)
    expect(came, DUE.get(export, came), export)


def test_follow_opens_it_and_it_lacks_none_of_its_own_minutes(desk: Program, opened: str) -> None:
    told = desk.gives("follow", opened, OWNER, KEPT / "minutes")
    assert told.startswith(b"calls %d\n" % MINUTES.count(10)), told


def test_a_follow_that_is_refused_opens_it_too(desk: Program, opened: str) -> None:
    """By a first line by somebody else: it is of version 2 by then, and has its own calls alone."""
    minutes = MINUTES.replace(b"\tconsole\t", b"\tnobody\t", 1)
    line = b"refused 47 Minute at 1\n"
    desk.ends(1, b"", line, "follow", opened, OWNER, "-", given=minutes)
    with contextlib.closing(sqlite3.connect(f"file:{opened}?immutable=1", uri=True)) as store:
        rows = store.execute("SELECT version, calls FROM desk, migrated").fetchall()
    expect(rows, [(2, MINUTES.count(10))], "its version, and the calls of before")


def test_a_follow_for_another_owner_only_reads_it(desk: Program, path: str) -> None:
    """The owner is compared before the file would become one of version 2."""
    before = Path(path).read_bytes()
    line = b"refused 48 Owner\n"
    desk.ends(1, b"", line, "follow", path, ANOTHER_OWNER, "-", given=MINUTES)
    expect(Path(path).read_bytes(), before, "the file")
    # (a log that was opened has a header of 41 bytes, and no commit behind it)
    log = Path(f"{path}-wal")
    assert not log.exists() or log.stat().st_size <= 41
    # its own opening makes it one of version 2
    expect(desk.minutes(path), MINUTES, "the minutes")
    keeps(desk, path)


@pytest.mark.parametrize("words, due", (
    (("verdict", str(EXAMPLES / "signed.efi")), (0, b"allowed\n", b"")), (("answer",), (0, b"", b"")),
    (("impact", "1"), (1, b"", b"refused 37 NoSuchProposal\n")),
), ids=lambda value: str(value[0]))
def test_another_subcommand_opens_it(
    desk: Program, opened: str, words: tuple[str, ...], due: tuple[int, bytes, bytes]
) -> None:
    desk.ends(*due, words[0], opened, *words[1:])


def test_a_served_file_and_a_person_who_is_added_behind_the_minutes_of_before(
    desk: Program, path: str
) -> None:
    desk.ends(0, b"added otto\n", b"", "person", path, "otto", "officer", "k-otto",
              given=OTTO + b"\n")
    line = (
        f"{MINUTES.count(10) + 1}\tconsole\tk-otto\tadd-person otto officer {sha256(OTTO)}"
        "\tadded otto\n"
    )
    with Server(desk, path, 1) as server:
        server.answers(by("olga", "/level"), text(LEVEL), "the level")
        server.ended()
    keeps(desk, path, line.encode())


def test_a_file_in_which_a_name_of_version_2_is_taken_is_no_desk_and_stays(
    desk: Program, path: str
) -> None:
    """In any case."""
    with contextlib.closing(sqlite3.connect(path, isolation_level=None)) as store:
        store.execute("CREATE TABLE Proposals (a INTEGER)")
    before = Path(path).read_bytes()
    desk.ends(1, b"", b"refused 43 NotADesk\n", "minutes", path)
    expect(Path(path).read_bytes(), before, "a file that is no desk")


def barred(rule: str, length: int) -> bytes:
    """The lines of an impact with both files of the one request."""
    files = "".join(
        f"1\t{file}\tsigned\tann\tallowed\t{rule}\ta signed loader\n"
        for file in ("submitted", "returned")
    )
    return f"{files}dbx {length}\n".encode()


def test_keys_revocations_and_images_of_before_still_count(desk: Program, path: str) -> None:
    """The images that were submitted and returned before the change of version are in the impacts
    of proposals made since; an audit passes calls by the rules of one officer, and behind them
    calls by those of two."""

    def proposed(number: int) -> bytes:
        return ok({"proposal": number, "reply": "proposed"})

    for key, route, body, due in (
        ("k2", "/dbx/digests", DIGEST, ok({"reply": "revoked"})),
        ("k9", "/dbx/digests", DIGEST, refused(30)),
        ("k9", "/dbx/digests", OTHER, proposed(1)),
        ("k10", "/dbx/certificates", CERTIFICATE, proposed(2)),
        ("k11", "/level", RAISE, proposed(3)),
    ):
        desk.answers(path, by("olga", route, body, key), due, f"{key} at {route}")
    desk.ends(0, b"dbx 124\n", b"", "impact", path, "1")
    desk.ends(1, barred("dbx-certificate", 168), b"", "impact", path, "2")
    desk.ends(1, barred("sbat grub 3 4", 76), b"", "impact", path, "3")
    desk.audited(desk.exports(path))
