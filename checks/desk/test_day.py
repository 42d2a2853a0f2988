"""A day of a desk on the command line: each output, error line and status.

A desk is made, seven people are added, an image is judged, and everything is exported. Then each
fault of each subcommand in order, two terminals at one file, and a writer that is full. What
officers do is a day of checks/support/days.py."""
from __future__ import annotations

import contextlib
import os
import subprocess
from pathlib import Path

import pytest

from checks.support.console import NOT_LISTED, SIGNED, Day, FIRST_LEVEL, summed, typed
from checks.support.images import OWNER, sha256
from checks.support.messages import token
from checks.support.program import Program
from checks.support.says import expect
from checks.support.tools import end_with_parent


def test_a_desk_of_people_exports_nothing_yet(day: Day) -> None:
    for name, due in (("db", b""), ("dbx", b""), ("shim", b""), ("level", FIRST_LEVEL)):
        day.exports(name, due)
    day.judges(1, "refused not-listed")


def test_a_repeated_key_is_answered_again_and_another_call_under_it_refused(day: Day) -> None:
    """CR and LF end a token too; `enrol` takes digits of either case, alone or as sha256sum writes
    it."""
    person = ("ann", "submitter", "k1")
    added = (0, b"added ann\n", b"")
    for given in (typed("ann"), typed("ann").replace(b"\n", b"\r\nmore\n")):
        day.desk.ends(*added, "person", day.path, *person, given=given)
    line = summed("ann").decode()
    for written in (line, line.upper(), line.replace("\n", "  -\r\nmore\n")):
        day.desk.ends(*added, "enrol", day.path, *person, given=written.encode())
    for subcommand, given in (("person", typed("ann")), ("enrol", summed("ann"))):
        day.fails("refused 22 KeyReused", subcommand, "ann", "reviewer", "k1", given=given)
        day.fails("refused 35 NameTaken", subcommand, "anna", "submitter", "k9", given=given)
    day.fails("refused 22 KeyReused", "person", *person, given=typed("rita"))
    day.fails("refused 35 NameTaken", "person", "ann", "submitter", "k9", given=typed("sid"))
    day.fails("refused 35 NameTaken", "person", "console", "submitter", "k9", given=typed("ann"))


def test_the_file_alone_without_its_log_is_the_desk(day: Day) -> None:
    """Each run closed it."""
    alone = day.desk.file("alone.db", Path(day.path).read_bytes())
    day.desk.ends(0, day.minutes, b"", "minutes", alone)


# ---- faults, in the order words, token, the desk's file, its contents, the other file, the command

EXPORTS = ("db", "dbx", "shim", "level", "minutes")
BAD_TOKENS = (b"olga token 000001\n", b"", b"olga-token-000001\r")
SUM = sha256(token("olga").encode())
BAD_SUMS = ("", SUM[:-1], SUM + "0", SUM[:-1] + "g", SUM + "*", " " + SUM, SUM[:-4] + " ab")


def test_faults_of_words_come_before_a_missing_file_which_isnt_made(desk: Program) -> None:
    missing, folder = desk.at("missing.db"), desk.at("missing/desk.db")
    file = b"device 45 File\n"

    def ends(line: bytes, *words: str, given: bytes | Path = b"", status: int = 2) -> None:
        desk.ends(status, b"", line, *words, given=given)

    ends(b"bad OWNER\n", "init", folder, "owner")
    ends(b"bad OWNER\n", "init", folder, OWNER + "0")
    ends(file, "init", folder, OWNER, status=3)
    for subcommand, bad, good in (
        ("person", BAD_TOKENS, typed("olga")),
        ("enrol", [f"{one}\n".encode() for one in BAD_SUMS] + [b""], summed("olga")),
    ):
        ends(b"bad NAME\n", subcommand, missing, "Ann", "clerk", "", given=bad[0])
        ends(b"bad ROLE\n", subcommand, missing, "ann", "clerk", "", given=bad[0])
        ends(b"bad KEY\n", subcommand, missing, "ann", "officer", "a key", given=bad[0])
        for given in bad:
            ends(b"bad TOKEN\n", subcommand, missing, "ann", "officer", "k9", given=given)
        ends(file, subcommand, missing, "ann", "officer", "k9", given=good, status=3)
        ends(
            b"device 14 Read\n", subcommand, missing, "ann", "officer", "k9", given=desk.room,
            status=3,
        )
    for word in ("", "0", "01", "1000000", "+1", "x"):
        ends(b"bad NUMBER\n", "impact", missing, word)
    ends(file, "impact", missing, "999999", status=3)
    ends(file, "verdict", missing, "missing.efi", status=3)
    for export in EXPORTS:
        ends(file, export, missing, status=3)
    expect([one.name for one in desk.room.iterdir()], [], "a file that was missing was made")


OPENS = {
    "person": ("ann", "officer", "k9"), "enrol": ("ann", "officer", "k9"),
    "verdict": ("missing.efi",), "impact": ("1",), **dict.fromkeys(EXPORTS, ()),
}
GIVEN = {"person": typed("olga"), "enrol": summed("olga")}


@pytest.mark.parametrize("kind", ("a text", "a folder", "an empty file"))
def test_a_file_that_is_no_desk_is_refused_and_stays(desk: Program, kind: str) -> None:
    path = str(desk.room)
    status, line = 3, b"device 45 File\n"
    if kind == "a text":
        path = desk.file("text", b"no database\n")
        desk.ends(2, b"", b"bad OWNER\n", "init", path, OWNER + "0")
    if kind == "an empty file":
        path, status, line = desk.file("empty.db", b""), 1, b"refused 43 NotADesk\n"
    else:
        desk.ends(3, b"", line, "init", path, OWNER)
    for subcommand, words in OPENS.items():
        given = GIVEN.get(subcommand, b"")
        desk.ends(status, b"", line, subcommand, path, *words, given=given)
    if kind == "a text":
        expect(Path(path).read_bytes(), b"no database\n", "the text")
    if kind == "an empty file":
        desk.ends(0, b"", b"", "init", path, OWNER)
        desk.ends(0, FIRST_LEVEL, b"", "level", path)


def test_faults_of_the_other_file_and_of_the_command_come_last(day: Day) -> None:
    day.fails("refused 46 Exists", "init", OWNER)
    day.fails("device 45 File", "verdict", "missing.efi", status=3)
    day.fails("device 14 Read", "verdict", str(day.desk.room), status=3)
    day.fails("refused 1 Short", "verdict", day.desk.file("text", b"no image"))
    day.fails("refused 37 NoSuchProposal", "impact", "1")


def test_a_person_who_was_added_to_a_full_writer_stays(desk: Program, day: Day) -> None:
    """The call is answered again."""
    for words in (("level", day.path), ("minutes", day.path), ("verdict", day.path, str(SIGNED))):
        full = desk.full(*words)
        expect((full.status, full.err), (3, b"device 17 Write\n"), f"{words}, to a full device")
    for subcommand, name, given in (
        ("person", "eva", typed("eva")), ("enrol", "eve", summed("eve")),
    ):
        words = (subcommand, day.path, name, "submitter", f"k-{name}")
        full = desk.full(*words, given=given)
        expect((full.status, full.err), (3, b"device 17 Write\n"), f"{words}, to a full device")
        desk.ends(0, f"added {name}\n".encode(), b"", *words, given=given)
        call = f"add-person {name} submitter {sha256(token(name).encode())}"
        day.keeps("console", f"k-{name}", call, f"added {name}")


def has_open(process: int, path: str) -> bool:
    with contextlib.suppress(FileNotFoundError):
        for file in os.scandir(f"/proc/{process}/fd"):
            if os.readlink(file.path) == path:
                return True
    return False


def test_of_two_terminals_the_second_gets_the_fault_of_the_file(desk: Program, day: Day) -> None:
    """One waits for its image and has the desk open."""
    image = desk.at("image")
    os.mkfifo(image)
    # (held open, so that the first terminal gets past opening it, and waits in its first read)
    held = os.open(image, os.O_RDWR)
    first = subprocess.Popen(
        [desk.path, "verdict", day.path, image], stdout=subprocess.PIPE, stderr=subprocess.PIPE,
        preexec_fn=end_with_parent,
    )
    while not has_open(first.pid, image):
        assert first.poll() is None, first.communicate()
    day.fails("device 45 File", "verdict", desk.file("text", b""), status=3)
    uwe = ("uwe", "signer", "k8")
    day.fails("device 45 File", "person", *uwe, given=typed("uwe"), status=3)
    os.write(held, SIGNED.read_bytes())
    os.close(held)
    out, err = first.communicate(timeout=240)
    expect((first.returncode, out, err), (1, NOT_LISTED, b""), "the first terminal")
    day.kept()
    day.adds(*uwe)
