"""A copy of the minutes, kept from run to run; why, over a desk's own minutes and over a copy, for
officers and for others."""
from __future__ import annotations

import sys
from pathlib import Path
from typing import Iterator

import pytest

from checks.support.between import Between
from checks.support.client_day import BY_REQUESTS, CERTIFICATE, TBS, TODAY
from checks.support.deskctl import Office, Person, with_room
from checks.support.images import PLAIN, authenticode, digest, with_text
from checks.support.says import expect
from checks.support.tools import ROOT, ran
from kovelamiru.sentences import minute

LINES = [b"%d\tolga\tk%d\tlist-digest %064x\tlisted\n" % (at, at, at) for at in range(1, 2501)]
WHOLE = b"".join(LINES)


@pytest.fixture
def olga(office: Office, between: Between) -> Iterator[Person]:
    """olga at a desk of 2,500 calls."""
    between.history = LINES
    yield office["olga"].at(between.url)


@pytest.fixture
def copy(olga: Person) -> Path:
    return olga.room / "copy"


def test_a_new_copy_has_all_and_is_nobody_elses(olga: Person, copy: Path) -> None:
    expect(olga.does("minutes").encode(), WHOLE, "minutes")
    olga.does("minutes --into copy", err=["2,500 calls, 2,500 of them new"])
    expect((copy.read_bytes(), copy.stat().st_mode & 0o777), (WHOLE, 0o600), "the copy")


@pytest.mark.parametrize("kept", [
    b"", b"".join(LINES[:1]), b"".join(LINES[:999]), b"".join(LINES[:1700]) + LINES[1700][:9],
    LINES[0][:1], WHOLE,
], ids=len)
def test_a_copy_gets_what_it_lacks(olga: Person, copy: Path, kept: bytes) -> None:
    """After a run that was killed within a line, too."""
    copy.write_bytes(kept)
    olga.does("minutes --into copy")
    expect(copy.read_bytes(), WHOLE, "the copy")


def test_a_disk_that_gets_full_leaves_whole_lines(olga: Person, copy: Path) -> None:
    """The next run goes on."""
    size = len(b"".join(LINES[:2400])) + 9
    found = olga.run("minutes --into copy", begin=with_room(size))
    assert found.status == 3 and "of them new" not in found.err, found
    expect(copy.read_bytes(), b"".join(LINES[:2000]), "the copy")
    olga.does("minutes --into copy", err=["2,500 calls, 500 of them new"])


@pytest.mark.parametrize("history, at", [
    (LINES[:2000], 2001), ([*LINES[:2499], LINES[2499].replace(b"listed", b"unlisted")], 2500),
    ([*LINES[:9], LINES[9].replace(b"listed", b"unlisted"), *LINES[10:]], 10),
], ids=["shorter", "another last line", "another line long before"])
def test_another_history_is_refused(
    olga: Person, copy: Path, between: Between, history: list[bytes], at: int
) -> None:
    copy.write_bytes(WHOLE)
    between.history = history
    olga.ends(1, "minutes --into copy", "aren't those of", f"line {at}",
              "restored from an older copy")
    expect(copy.read_bytes(), WHOLE, "the copy")
    copy.write_bytes(b"hello\n")
    olga.ends(2, "minutes --into copy", "line 1 isn't the minutes' line 1")


def test_a_copy_is_what_the_desk_exports(office: Office) -> None:
    otto = office["otto"]
    otto.does("minutes --into copy")
    office["olga"].does(f"list-digest {digest('45')}")
    otto.does("minutes --into copy", err=["1 of them new"])
    found = [(otto.room / "copy").read_bytes(), otto.does("minutes").encode()]
    expect(found, [office.minutes()] * 2, "the copy, and what is shown")


# ---- why


@pytest.mark.parametrize("seed", range(4))
def test_why_names_the_earliest_call(seed: int) -> None:
    """Whatever order a set has."""
    code = """if True:
        from kovelamiru.why import Names, Story
        kinds = ("digests", "certificates")
        names = {kind: {f"{kind} {one}" for one in range(9)} for kind in kinds}
        for how, says in (("revoked", "Barred: its digest is revoked (call 40)"),
                          ("listed", "Allowed: its digest is listed (call 40), and")):
            story = Story(Names(image=[], **names))
            story.by = {(name, how): 40 + at for at, name in enumerate(sorted(names["digests"]))}
            assert story.answer().startswith(says), story.answer()
    """
    given = f"PYTHONHASHSEED={seed}", f"PYTHONPATH={ROOT / 'python'}"
    ran("env", *given, sys.executable, "-Bc", code)


TEXT = b"sbat,1,SBAT Version,sbat,1,u\nshim,3,shim,shim,16,u\n"
IMAGE = with_text(PLAIN, TEXT)


@pytest.fixture
def day(office: Office) -> Office:
    """The day by plain requests, then an image that is listed, revoked by two officers and barred
    by the level, too."""
    for name, route, body, fields in BY_REQUESTS:
        office.server.does(name, route, body, *fields)
    office.file("shim.efi", IMAGE)
    office.file("signer.der", CERTIFICATE)
    office.file("cut.efi", IMAGE[:100])
    for name, line in (
        ("olga", "list-digest shim.efi"), ("olga", "revoke shim.efi --yes"),
        ("otto", "confirm 8 --yes"), ("olga", f"raise shim 9 --stamp {TODAY}07 --yes"),
        ("otto", "drop 9"),
    ):
        office[name].does(line)
    return office


@pytest.mark.long(20)
def test_each_line_has_a_sentence_and_why_finds_those_of_an_image(day: Office) -> None:
    found = [minute(line) for line in day.minutes().decode().splitlines()]
    expect([one for one in found if not one or not one.said], [], "minutes without a sentence")
    olga, ann, name = day["olga"], day["ann"], authenticode(IMAGE)
    told = olga.does(
        "why shim.efi", f"the digest {name} is listed",
        f"the digest {name} is revoked by proposal 8", "the level requires shim 4 by proposal 5",
        "otto confirmed proposal 8: 1 new digest", "olga proposed to raise shim to 9",
        "otto dropped proposal 9",
    )
    expect(olga.does(f"why {name}").count("\ncall "), 3, "the calls of a digest")
    times = [line.split("\t")[1][:8] for line in told.splitlines()
             if line.startswith("call ") and "proposal 8" in line]
    expect(times, [f"{TODAY[:4]}-{TODAY[4:6]}-"] * 2, "the times of deskctl's keys")
    assert olga.json_lines("why shim.efi")[0]["sentence"] in told
    olga.does("why signer.der", f"olga took the certificate {TBS} off the list",
              "request 1\tsigned\tann\tit carries this certificate")
    olga.does("why grub", "olga proposed to raise grub to 3", "otto dropped proposal 2",
              "the level requires grub 4")
    olga.does("minutes --into copy")
    expect(ann.does("why shim.efi --minutes copy"), told, "why by a copy of the minutes")
