"""Slips of tired people at the page: what was proposed by one is told before a Confirm, what was
submitted before where it is chosen, and a yes that nobody means is asked back about; and who is
signed in. What is asked about each slip is in page/wire/cases."""
from __future__ import annotations

from typing import Iterable

import pytest
from selenium.webdriver.common.keys import Keys

from checks.page.conftest import shots
from checks.page.looked import looked
from checks.page.plain_day import TINY
from checks.page.site import Site, signed, unsigned
from checks.support.browser import Browser
from checks.support.cases import SIGNER
from checks.support.images import sha256
from checks.support.messages import token
from checks.support.says import expect
from checks.support.waits import until

IN_ANOTHER = "image was submitted before in another file"
# What is proposed by a slip: where, by which fact of a request, what is said of it, and as what it
# is known.
PROPOSED = (
    ("/dbx/digests", "file", "is the SHA-256 of the whole file of request 1",
     "1: a whole file, no image"),
    ("/dbx/digests", "carried", "names a certificate (one that request 1 carries)",
     "1: a certificate that it carries, no image"),
    ("/dbx/certificates", "digest", "is of an image (request 1)", ""),
)


def with_each(digests: Iterable[str]) -> set[str]:
    """The paths by which the requests are read that have one of these."""
    return {f"/requests/with/{one}" for one in digests}


@pytest.mark.long(20)
def test_a_slip_that_was_proposed_without_the_page_is_told_before_a_confirm(
    browser: Browser, site: Site
) -> None:
    number = site.submits(signed(unsigned(105)), "whose digests are mixed up")
    facts = site.shows("olga", f"/requests/{number}") | {"carried": SIGNER["tbs"]}
    browser.sign_in(token("olga"))
    for at, (path, fact, told, known) in enumerate(PROPOSED, 1):
        site.does("otto", path, {"digest": facts[fact]})
        with site.reading() as paths:
            browser.go(f"proposals/{at}")
            browser.sees("Is that what was meant?", known)
            browser.press("Confirm…")
            browser.asks(f"Confirm proposal {at} for good?", told)
            browser.press("Leave it open")
            browser.asks_no_more()
        expect(set(paths), with_each([facts[fact]]), "what is read of requests")


def test_a_yes_on_a_barred_image_and_after_another_file_is_asked_about(
    browser: Browser, site: Site
) -> None:
    """Enter answers no question, and Escape leaves it."""
    other = site.room / "other.efi"
    other.write_bytes(unsigned(107))
    number = site.submits(unsigned(106), "revoked meanwhile")
    proposal = site.proposes(site.shows("olga", f"/requests/{number}")["digest"])
    site.does("olga", f"/proposals/{proposal}/confirm", b"")
    browser.sign_in(token("rita"))
    browser.go(f"requests/{number}")
    browser.sees("Barred today: its digest is revoked.")
    browser.choose("Compare a file with this request", other)
    browser.sees("Another file.")
    browser.press("Vote yes")
    asked = (f"Vote yes on request {number}?", "It is barred today: its digest is revoked.",
             "The file that you looked at last isn’t")
    browser.asks(*asked)
    browser.types(Keys.ENTER)
    browser.asks(*asked)
    browser.types(Keys.ESCAPE)
    browser.asks_no_more()
    expect(site.shows("rita", f"/requests/{number}")["votes"], [], "the votes behind a slip")


def chooses(browser: Browser, site: Site, data: bytes) -> None:
    """An image that is to be submitted."""
    path = site.room / f"{sha256(data)[:8]}.efi"
    path.write_bytes(data)
    browser.choose("EFI image", path)
    browser.sees(sha256(data))


def test_what_was_submitted_before_is_told_where_it_is_chosen(
    browser: Browser, site: Site
) -> None:
    """The same file, or by its digests its image in another one: signed since, padded for that, or
    with its signature taken off. Nothing is told of another's, or of one that was withdrawn."""
    plain, bare, anothers, gone = (unsigned(number) for number in range(110, 114))
    odd = unsigned(114) + b"12345"
    for image in (plain, odd, signed(bare), gone):
        site.submits(image, "before")
    site.does("ann", "/requests/4/withdraw", b"")
    site.submits(anothers, "raul's own", "raul")
    browser.sign_in(token("ann"))
    browser.go("submit")
    with site.reading() as paths:
        for data in (anothers, gone, b"no image"):
            chooses(browser, site, data)
            asked = with_each([sha256(data)])
            until(30, "it is asked about", lambda: asked <= set(paths), lambda: paths)
            words = f"module.requestsWith(['{sha256(data)}']).then(({{ kind }}) => kind)"
            browser.module("desk/lists.js", words)
            assert "submitted before" not in browser.text(), browser.text()
        for data, what, number in (
            (odd, "file was submitted before", 2), (plain, "file was submitted before", 1),
            (signed(plain), IN_ANOTHER, 1), (signed(odd + bytes(3)), IN_ANOTHER, 2),
            (bare, IN_ANOTHER, 3),
        ):
            chooses(browser, site, data)
            browser.sees(f"The same {what}, as request {number} (open). The desk takes",
                         f"Look at request {number}")
    expect([path for path in paths if "/with/" not in path], [], "the lists that are read")
    looked(browser, "an image that was submitted before")
    shots(browser, "submitted-before")
    # It is told, and no more.
    browser.fill("Title", "again")
    browser.press("Submit")
    browser.sees("This is request 6.")


def test_each_person_sees_who_is_signed_in_and_whats_ones_own(browser: Browser, site: Site) -> None:
    """One's own proposal and request are told at once, and can't be decided."""
    number = site.proposes("9" * 64, "olga")
    request = site.submits(TINY, "one's own", "rita")
    roles = {"ann": "submitter", "rita": "reviewer", "sid": "signer", "olga": "officer"}
    for name, role in roles.items():
        browser.sign_in(token(name))
        browser.sees(f"{name}, {role}")
    browser.go(f"proposals/{number}")
    browser.sees("You proposed it, so another officer has to confirm it.")
    assert "Confirm…" not in browser.texts("button")
    browser.go("proposals")
    browser.sees("olga (you)")
    browser.sign_in(token("rita"))
    browser.go(f"requests/{request}")
    browser.sees("You submitted this request, so another reviewer has to vote.")
    assert "Vote yes" not in browser.texts("button")
