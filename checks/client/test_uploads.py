"""The files of one upload: their titles, their requests, their rows in the list, their review
beside what was signed before; a file that is submitted twice."""
from __future__ import annotations

import pytest

from checks.support.between import NO_ANSWER, Between
from checks.support.deskctl import Office
from checks.support.images import PLAIN, changed, sha256, with_text
from checks.support.says import expect
from checks.support.wire import wire
from kovelamiru.titles import machine_names, name_of, titles_of, upload_of

MACHINES = {"amd64": "6486", "arm64": "64aa", "i386": "4c01"}


def image(machine: str, more: bytes = b"") -> bytes:
    return changed(PLAIN, (68, MACHINES[machine])) + more


AMD64, ARM64 = machine_names(image("amd64")), machine_names(image("arm64"))


@pytest.mark.parametrize("title, files, due", [
    ("linux 6.12.118-1", [
        ("vmlinuz-6.12.118+deb13-amd64", AMD64), ("vmlinuz-6.12.118+deb13-cloud-amd64", AMD64),
        ("a/vmlinuz-6.12.118+deb13-arm64", ARM64), ("vmlinuz-6.12.118+deb13-arm64-16k", ARM64),
        ("vmlinuz-6.12.118+deb13-rt-arm64", ARM64),
    ], ["amd64", "amd64 cloud", "arm64", "arm64 16k", "arm64 rt"]),
    ("grub2 2.12-9", [
        ("grubx64.efi", AMD64), ("gcdx64.efi", AMD64), ("grubnetaa64.efi", ARM64),
    ], ["amd64 grub", "amd64 gcd", "arm64 grubnet"]),
    ("shim 16.1-1", [("shimx64.efi", AMD64), ("shimaa64.efi", ARM64)], ["amd64", "arm64"]),
    ("shim amd64", [("shimx64.efi", AMD64), ("fbx64.efi", AMD64)], ["shim", "fb"]),
    ("text", [("a.txt", ()), ("b.efi", machine_names(bytes(64)))], ["a-txt", "0x0000 b-efi"]),
])
def test_a_title_says_the_architecture_and_what_distinguishes_the_file(
    title: str, files: list[tuple[str, tuple[str, ...]]], due: list[str]
) -> None:
    found = titles_of(title, files)
    expect([upload_of(one) for one in found], [(title, one) for one in due], "the titles")


@pytest.mark.parametrize("title, group, apart, name", wire("cases/titles")["titles"])
def test_a_title_has_an_upload_what_tells_it_apart_there_and_a_name(
    title: str, group: str | None, apart: str | None, name: str
) -> None:
    due = (group, title if apart is None else apart, name)
    expect((*upload_of(title), name_of(title)), due, "upload, apart, name")


FILES = "vmlinuz-amd64 vmlinuz-cloud-amd64 vmlinuz-arm64"
TITLES = ["linux 6.12 / amd64", "linux 6.12 / amd64 cloud", "linux 6.12 / arm64"]


@pytest.fixture
def built(office: Office) -> Office:
    office.file("vmlinuz-amd64", image("amd64"))
    office.file("vmlinuz-cloud-amd64", image("amd64", bytes(8)))
    office.file("vmlinuz-arm64", image("arm64"))
    return office


def titles(office: Office) -> list[str]:
    return [one["title"] for one in office["olga"].json("requests")]


def test_each_file_is_a_request(built: Office, between: Between) -> None:
    """A lost answer in between doubles none."""
    ann, line = built["ann"].at(between.url), f"submit {FILES} --title 'linux 6.12' --retries 0"
    between.loses = [lambda request, ask: ask(request), NO_ANSWER]
    ann.ends(3, line, "It stopped at vmlinuz-cloud-amd64; 1 more", "1 of 3 have their answer")
    ann.does(line, "request 1 submitted: linux 6.12 / amd64\nfile ", "request 3 submitted",
             err=["taking up the keys"])
    expect(titles(built), TITLES, "the titles")
    expect((len(set(between.keys())), ann.pending()), (3, []), "keys, the journal")
    built.once(3)


def test_what_isnt_taken_stops_no_other_file(built: Office) -> None:
    built.file("log", b"text")
    built["ann"].ends(1, "submit log vmlinuz-arm64 --title 'linux 6.12'", "log: refused 1 Short",
                      out=["request 1 submitted: linux 6.12 / arm64"])
    (built.desk.room / "b").mkdir()
    built.file("b/vmlinuz-arm64", image("arm64", bytes(16)))
    built.refuses_all(
        ("ann submit vmlinuz-arm64 b/vmlinuz-arm64 --title linux", "would both be titled"),
        (f"ann submit {FILES} --title {'x' * 110}", "characters, and may have 1 to 120"),
    )


def test_a_file_that_was_submitted_before_is_asked_about(built: Office) -> None:
    ann, line = built["ann"], "submit vmlinuz-amd64 --title again"
    ann.does("submit vmlinuz-amd64 --title first")
    before = "vmlinuz-amd64: The same file was submitted before, as request 1 (open)."
    for answer, status in (("no", 2), ("yes", 0)):
        ended, said = ann.asked(line, answer)
        assert ended == status and before in said, said
    expect(titles(built), ["first", "again"], "the titles")
    # Another's isn't one's own, and a script means it.
    status, said = built["rita"].asked(line)
    assert status == 0 and "submitted before" not in said, said
    ann.does(line, "request 4 submitted")
    for number in "124":
        ann.does(f"withdraw {number}")
    assert "submitted before" not in ann.asked(line)[1]


def test_an_uploads_rows_stand_below_one_row(built: Office) -> None:
    built["ann"].does("submit vmlinuz-amd64 --title 'shim 16 amd64'")
    built["ann"].does(f"submit {FILES} --title 'linux 6.12'")
    built["ann"].does("submit vmlinuz-arm64 --title 'linux 6.12 / arm64 again'")
    status, said = built["rita"].asked("requests", size=(24, 80))
    rows = [line.split() for line in said.splitlines()[1:]]
    found = [" ".join(row if row[0] == "linux" else row[5:]) for row in rows]
    expect((status, found), (0, [
        "shim 16 amd64", "linux 6.12: 2 3 4 5", "amd64", "amd64 cloud", "arm64", "arm64 again",
    ]), said)
    assert "linux 6.12 / amd64 cloud" in built["rita"].does("requests"), "what a pipe gets"


def test_a_review_of_an_upload_shows_what_was_signed_before(
    office: Office, between: Between
) -> None:
    """Of each name the last one; the parts that are read end where all names were found."""
    sbat = {at: b"sbat,1,S,sbat,1,u\ngrub,%d,F,grub,2,u\n" % at for at in (3, 4)}
    office.file("old.efi", with_text(PLAIN, sbat[3]))
    office.file("new.efi", with_text(PLAIN, sbat[4]) + bytes(8))
    office.file("plain.efi", PLAIN)
    for title in ("grub 1 amd64", "grub 2 amd64"):
        office["ann"].does(f"submit old.efi --title '{title}'")
    office["olga"].does("list-digest old.efi")
    for number in "12":
        for name in ("rita", "raul"):
            office[name].does(f"review {number} yes")
        office["sid"].does(f"return {number} old.efi")
    office["ann"].does("submit new.efi --title 'grub 3 amd64'")
    office["ann"].does("submit plain.efi --title 'grub 3 arm64'")
    said = office["rita"].at(between.url).run("review 3 4 yes").err
    length, before = len(with_text(PLAIN, sbat[4])) + 8, len(with_text(PLAIN, sbat[3]))
    for line in (
        "request 3 (open, grub 3 amd64), of ann, 0 of 2 yes", "before      request 2 (signed, grub",
        f"  length      {length:,} bytes, before {before:,}", "  component   grub 4, before 3",
        "  component   sbat 1, before 1", "request 4 (open, grub 3 arm64)", sha256(PLAIN),
        "  before      none of its name is signed among the last\n  length      1,024 bytes\n",
    ):
        assert line in said, (line, said)
    expect(between.asked("/requests/from/"), ["/requests/from/1"], "the parts that were read")
