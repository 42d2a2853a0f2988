"""Each subcommand on the examples, and on wrong words and files: every byte of both outputs, and
the status."""
from __future__ import annotations

import os
import stat
from pathlib import Path

import pytest

from checks.conftest import NewDesk
from checks.support.images import OWNER, SHA256_KIND, STORED, signature_list
from checks.support.program import Program, Ran
from checks.support.says import expect
from checks.support.server import Server
from checks.support.tools import EXAMPLES

DIGESTS, SIGNED = EXAMPLES / "digests.txt", EXAMPLES / "signed.efi"
FACTS = b"""length 1584
file c33d7fd42132af8af3eb54d26748949ed8fa5bb5c6e70a9ec28b1c0618c5a74a
digest bcabe797dca41d55885a111442fb3b62d3704704d545b54adb64d4a0d1c9b9d1
signing bcabe797dca41d55885a111442fb3b62d3704704d545b54adb64d4a0d1c9b9d1
gap 0
certificate 1b65f68a522c858715f5dd951cd0402dc16691778814bf0759822b7a257421d0
component sbat 1
component grub 3
"""
ZEROS = b"0" * 64 + b"\n"
REFUSED_FILE = "refused 1 Short", "refused 1 Short", "refused 15 List at 0"
READERS = ("ranges", "facts", "list")


def test_pack_writes_a_list_of_the_digests_ascending_and_once(desk: Program) -> None:
    rows = sorted({row.strip().lower() for row in DIGESTS.read_text().split() if row.strip()})
    due = signature_list(SHA256_KIND, [bytes.fromhex(row) for row in rows])
    assert due.startswith(bytes.fromhex("2616c4c14c509240aca941f9369343287c0000000000000030000000"))
    assert due[28:44] == STORED
    desk.ends(0, due, b"", "pack", OWNER, given=DIGESTS.read_bytes())
    desk.ends(0, b"0 sha256 2\n", b"", "list", desk.file("list", due))
    desk.ends(0, b"", b"", "pack", OWNER)
    desk.ends(0, b"", b"", "list", desk.file("nothing", b""))


def test_ranges_and_facts_of_the_examples(desk: Program) -> None:
    ranges = b"0-152\n156-232\n240-512\n512-1024\ngap 0\n"
    desk.ends(0, ranges, b"", "ranges", EXAMPLES / "tiny.efi")
    desk.ends(0, FACTS, b"", "facts", SIGNED)


@pytest.mark.parametrize(
    "given, line", [(b"aaaa\n", 1), (ZEROS + ZEROS[1:] + ZEROS[1:], 2)], ids=["line 1", "line 2"]
)
def test_pack_names_the_first_line_that_is_no_digest(
    desk: Program, given: bytes, line: int
) -> None:
    desk.ends(1, b"", b"refused 18 Line at %d\n" % line, "pack", OWNER, given=given)


@pytest.mark.parametrize("subcommand, refused", zip(READERS, REFUSED_FILE))
def test_a_file_that_is_none_or_cannot_be_read(
    desk: Program, subcommand: str, refused: str
) -> None:
    desk.ends(1, b"", f"{refused}\n".encode(), subcommand, desk.file("text", b"no image"))
    desk.ends(3, b"", b"device 45 File\n", subcommand, "missing")
    desk.ends(3, b"", b"device 14 Read\n", subcommand, ".")


def test_words_that_are_wrong(desk: Program) -> None:
    desk.ends(2, b"", b"bad OWNER\n", "pack", "owner")
    desk.ends(2, b"", b"error: a word is no UTF-8\n", "list", os.fsdecode(b"\xff"))


def test_why_a_file_was_not_opened_is_told(desk: Program, new_desk: NewDesk) -> None:
    path, missing, text = new_desk(), desk.at("missing"), desk.file("text", b"no database")
    held = "another program has it open, or it is no SQLite database"
    for file, cause, *words in (
        (missing, "no such file", "dbx", missing),
        (missing, "no such file", "facts", missing),
        (missing, "no such file", "verdict", path, missing),
        (missing, "no such file", "follow", desk.at("new.db"), OWNER, missing),
        (f"{missing}/new.db", "it can't be made there", "init", f"{missing}/new.db", OWNER),
        (f"{text}/below", "no such file", "list", f"{text}/below"),
        (str(desk.room), "a folder", "level", str(desk.room)),
        (text, held, "minutes", text),
    ):
        told = f"device 45 File\n{file}: {cause}\n".encode()
        expect(desk.run(*words), Ran(3, b"", told), " ".join(words))
    with Server(desk, path):
        told = f"device 45 File\n{path}: {held}\n".encode()
        expect(desk.run("level", path), Ran(3, b"", told), "of a served desk")


def test_the_files_of_a_desk_are_for_their_user_alone_whatever_the_mask(desk: Program) -> None:
    """So is a log that `serve` makes."""
    before = os.umask(0)
    try:
        desk.gives("init", desk.at("cyn.db"), OWNER)
        desk.file("dan.db", Path(desk.at("cyn.db")).read_bytes())
        os.chmod(desk.at("dan.db"), 0o600)
        with Server(desk, desk.at("dan.db"), 1):
            modes = {
                one.name: stat.filemode(one.stat().st_mode) for one in desk.room.glob("*.db*")
            }
    finally:
        os.umask(before)
    names = ("cyn.db", "cyn.db-wal", "dan.db", "dan.db-wal")
    expect(modes, dict.fromkeys(names, "-rw-------"), "the modes")


def test_a_full_device_is_write(desk: Program) -> None:
    given = signature_list(SHA256_KIND, [bytes(32)])
    full = desk.full("list", desk.file("list", given))
    expect((full.status, full.err), (3, b"device 17 Write\n"), "desk list to a full device")
