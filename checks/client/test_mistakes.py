"""What goes wrong every day: each mistake ends in a question or in words, and nothing is sent."""
from __future__ import annotations

import os
import re
import subprocess
import sys
import time

import pytest

from checks.support.between import HTML, Between, answer
from checks.support.certificates import self_signed
from checks.support.client_day import HEX, TODAY
from checks.support.deskctl import Office
from checks.support.images import PLAIN, authenticode, digest, digest_list
from checks.support.says import expect
from checks.support.steps import grub
from checks.support.tools import ROOT

# ---- texts and files


@pytest.mark.needs("openssl")
def test_a_text_that_the_desk_wont_take_has_its_cause(office: Office) -> None:
    """Curl gets BadField or BadBody for these."""
    self_signed(office.desk.room, "real")
    pem = (office.desk.room / "real.pem").read_bytes()
    office.file("two.pem", pem + pem)
    office.refuses_all(
        ("ann submit plain.efi --title ''", "0 characters"),
        (f"ann submit plain.efi --title {'x' * 121}", "121 characters"),
        ("ann submit plain.efi --title 'shim für alle'", "'ü' at place 7"),
        ("ann submit plain.efi --title 'a\tb'", "'\\t' at place 2"),
        ("ann submit plain.efi --title ' shim'", "begin or end"),
        ("ann submit plain.efi", "missing: --title"),
        ("rita review 1 yes --note fine…", "'…' at place 5"),
        (f"rita review 1 yes --note {'x' * 201}", "201 characters"),
        ("rita review 1 Yes", "invalid choice: 'Yes'"),
        ("rita review 01 yes", "no number"),
        ("olga revoke --digest 12ab", "64 hexadecimal digits"),
        (f"olga revoke --digest {'a' * 40}", "SHA-1"),
        ("olga revoke", "nothing is named"),
        (f"olga revoke {digest('12')}", "--digest HEX"),
        ("ann submit missing.efi --title T", "No such file"),
        ("ann submit . --title T", "Is a directory"),
        ("ann submit '\x1b[7m.efi' --title T", "\\x1b[7m.efi: No such file"),
        ("olga list-certificate real.key", "private key"),
        ("olga list-certificate plain.efi", "it is an image"),
        ("olga list-certificate two.pem", "2 certificates"),
    )


def test_a_files_name_moves_no_cursor(office: Office) -> None:
    office.file("\x1b[7m.esl", digest_list([digest("31")]))
    office["olga"].does("import '\x1b[7m.esl' --dry-run", "\\x1b[7m.esl: ")
    office["olga"].does("get db -o '\x1b[7m.db'", err=["\\x1b[7m.db: "])


# ---- refusals


def test_a_refusal_of_a_revocation_has_its_cause(office: Office) -> None:
    revoke, already = f"revoke --digest {digest('22')}", f"{digest('22')} is revoked already"
    office["olga"].does(revoke, "proposal 1")
    office.refuses_all(
        (f"ann {revoke}", "refused 21 NotYourRole", "`deskctl revoke` is for officers"),
        ("ann proposals", "refused 21 NotYourRole"),
        ("rita review 9 yes", "refused 23 NoSuchRequest"),
        ("olga confirm 1 --yes", "refused 38 OwnProposal", "Another officer"),
        ("otto confirm 2 --yes", "refused 37 NoSuchProposal"),
    )
    office["otto"].does("confirm 1 --yes")
    office.refuses_all(
        ("otto confirm 1 --yes", "refused 39 ProposalClosed"), (f"olga {revoke}", already),
        (f"olga list-digest {digest('22')}", already),
        (f"olga {revoke} --yes", "refused 30 AlreadyRevoked"),
        (f"olga unlist digest {digest('23')}", "refused 34 NotThere"),
    )


def test_a_refusal_of_an_image_has_its_cause(office: Office) -> None:
    """It has SBAT; it is approved, returned before its certificate is listed, then barred."""
    office.file("grub.efi", grub(2))
    office["ann"].does("submit grub.efi --title grub")
    office.refuses_all(("sid return 1 grub.efi", "refused 24 WrongState", "Request 1 is open"))
    office["rita"].does("review 1 yes")
    office.refuses_all(("rita review 1 yes", "refused 26 AlreadyReviewed"))
    office["raul"].does("review 1 yes")
    office.refuses_all(
        ("sid return 1 grub.efi", "refused 29 NotListed", "It carries no certificate",
         "list-certificate"),
        ("sid return 1 plain.efi", "refused 27 DigestDiffers",
         f"plain.efi: digest {authenticode(PLAIN)}"),
    )
    office["olga"].does(f"raise grub 3 --stamp {TODAY}01", "proposal 1")
    office["otto"].does("confirm 1 --yes")
    office["ann"].ends(4, "verdict grub.efi", out=["not-listed"])
    office.refuses_all(
        ("ann submit grub.efi --title again", "refused 28 Revoked",
         "grub 2, where the level requires 3"),
        (f"olga raise grub 2 --stamp {TODAY}02", "refused 31 NotHigher", "Now: grub 3"),
        (f"olga raise grub 4 --stamp {TODAY}01", "refused 32 StampNotLater", f"stamp {TODAY}01"),
    )


def test_the_same_words_after_an_answer_are_another_command(office: Office) -> None:
    """List, unlist, list again: each has a key of its own, by its time."""
    for line in (f"list-digest {HEX}", f"unlist digest {HEX}", f"list-digest {HEX}"):
        office["olga"].does(line)
    assert re.search(r"(?m)^listed digests +1$", office["olga"].does("report"))
    keys = [row[2] for row in office.calls()]
    form = time.strftime("%Y%m%dT", time.gmtime()) + r"\d{6}Z-[0-9a-f]{16}"
    assert len(set(keys)) == 3 and all(re.fullmatch(form, key) for key in keys), keys


# ---- lengths, and what isn't a desk


def test_a_file_that_is_too_long_isnt_sent(office: Office, between: Between) -> None:
    """One byte less is, and the desk says what it is. No second is lost to `Expect`."""
    path = office.file("long.efi", b"")
    os.truncate(path, 134_217_729)
    text = "has 134,217,729 bytes, and an image has at most 134,217,728"
    lines = ("ann submit long.efi --title long", "sid return 1 long.efi", "ann verdict long.efi",
             "olga revoke long.efi", "olga list-digest long.efi")
    for name in ("ann", "sid", "olga"):
        office[name].at(between.url)
    office.refuses_all(*((line, text) for line in lines))
    expect(between.seen, [], "what was sent")
    os.truncate(path, 134_217_728)
    office["ann"].at(office.url)
    office.refuses_all((lines[0], "refused 2 NoMz"))
    os.truncate(path, 0)
    office.file("four.efi", PLAIN + bytes(4 << 20))
    office["ann"].at(between.url).ends(4, "verdict four.efi")
    assert between.seen and not any(b"expect" in head.lower() for head in between.seen)


def test_an_output_that_is_full_is_told(office: Office) -> None:
    with open("/dev/full", "wb") as full:
        office["olga"].ends(3, "report", "No space left", begin=lambda: os.dup2(full.fileno(), 1))


def test_a_captive_portals_page_is_no_answer_and_gets_no_command(
    office: Office, between: Between
) -> None:
    olga, ann = office["olga"].at(between.url), office["ann"].at(between.url)
    page, text = answer(200, b"<html>Log in</html>", HTML), "isn't a desk's: 200, text/html"
    between.shows = {path: page for path in (
        "/level", "/report", "/requests/from/1", "/dbx", "/db"
    )}
    for line in ("requests", "requests --json", "report", "get level", "get dbx",
                 "facts plain.efi"):
        expect(olga.ends(3, line, text, "is the desk there?"), "", "what is printed")
    office.file("two.efi", PLAIN + bytes(2 << 20))
    for name, line in (
        ("olga", f"raise shim 4 --stamp {TODAY}01 --yes"), ("olga", "import lists.esl --yes"),
        ("ann", "submit two.efi --title T"),
    ):
        office.refuses(name, line, text, status=3)
    assert ann.pending() == [] and not any(head.startswith(b"POST") for head in between.seen)


def test_a_fault_of_its_own_isnt_told_as_a_refusal() -> None:
    """A refusal of the desk's has status 1."""
    text = (f"import sys; sys.path.insert(0, {str(ROOT / 'python')!r}); from kovelamiru.deskctl"
            " import cli; cli.ran = lambda *_: 1 // 0; sys.exit(cli.main())")
    done = subprocess.run([sys.executable, "-BIS", "-c", text], capture_output=True, check=False,
                          timeout=60)
    assert done.returncode == 3 and b"a fault of its own" in done.stderr, done
    assert b"ZeroDivisionError" in done.stderr, done
