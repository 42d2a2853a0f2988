"""History and why: in words, filtered, for officers alone; and who confirmed a proposal."""
from __future__ import annotations

from pathlib import Path
from typing import Iterator, NamedTuple

import pytest

from checks.page.conftest import shots
from checks.page.looked import looked
from checks.page.site import Site, unsigned
from checks.support.browser import Browser
from checks.support.messages import token
from checks.support.program import Program, copy_of
from checks.support.says import expect

FILTER, ASK = "Filter by text, name or digest", "Why? A SHA-256, or a component"
PERSON = """
const person = document.querySelector('select');
person.value = arguments[0];
person.dispatchEvent(new Event('change'));
"""


class Past(NamedTuple):
    """A request whose image was listed, then revoked by two officers, and a dropped proposal."""

    site: Site
    file: str
    digest: str

    @property
    def why(self) -> str:
        return f"The digest {self.digest} is revoked by proposal 1 (call 12)."


@pytest.fixture(scope="module")
def kept(program_path: Path, session_room: Path, people_desk: str) -> Iterator[Past]:
    desk = Program(program_path, session_room)
    with Site(desk, copy_of(people_desk, session_room / "history.db")) as site:
        site.submits(unsigned(1), "a loader that is revoked")
        site.reviews("rita", 1, note="read it")
        facts = site.shows("olga", "/requests/1")
        site.does("olga", "/db/digests", {"digest": facts["digest"]})
        site.proposes(facts["digest"], "olga")
        site.does("otto", "/proposals/1/confirm", b"")
        level = {"component": "grub", "generation": 9, "stamp": 2099010101}
        site.does("otto", "/level", level)
        site.does("olga", "/proposals/2/drop", b"")
        yield Past(site, facts["file"], facts["digest"])


@pytest.fixture
def past(kept: Past, browser: Browser) -> Past:
    """olga is signed in; no test changes the desk."""
    browser.base = kept.site.base
    browser.sign_in(token("olga"))
    return kept


def asks(browser: Browser, typed: str, told: str) -> None:
    browser.go("history")
    browser.fill(ASK, typed)
    browser.press("Ask why")
    browser.sees(told)


@pytest.mark.long(30)
def test_the_history_is_told_in_words_and_filtered(browser: Browser, past: Past) -> None:
    browser.go("history")
    browser.sees("14 calls.")
    browser.sees(
        "ann submitted request 1:", "a loader that is revoked",
        "rita voted yes on request 1, now open:", "otto confirmed proposal 1: 1 new digest",
        "olga dropped proposal 2", f"olga listed the digest {past.digest[:16]}…",
        "console added ann as submitter",
    )
    looked(browser, "the history")
    shots(browser, "history")
    browser.press("Revoking 4")
    browser.sees("4 of 14 calls.")
    browser.script(PERSON, "otto")
    browser.sees("2 of 14 calls.")
    browser.press("All 2")
    browser.script(PERSON, "")
    browser.fill(FILTER, past.digest)
    browser.sees("3 of 14 calls.")


@pytest.mark.long(30)
def test_why_is_told_of_what_is_typed_and_mistakes_are_refused_in_words(
    browser: Browser, past: Past
) -> None:
    for typed, told in (
        ("12ab" * 9, "64 hexadecimal digits"), ("two words", "has no spaces"),
        ("grbu", "Is it spelt right?"), ("grub", "olga dropped proposal 2"), (past.file, past.why),
        (past.digest.upper(), past.why),
    ):
        asks(browser, typed, told)
    looked(browser, "why")
    shots(browser, "why")
    browser.go("history/999")
    browser.sees("is forgotten. Ask again")


@pytest.mark.long(30)
def test_why_is_linked_from_lists_requests_proposals_and_verdicts(
    browser: Browser, past: Past, room: Path
) -> None:
    """No digest gets into an address."""
    for view in ("lists", "requests/1"):
        browser.go(view)
        browser.press("Why", tag="a")
        browser.sees(past.why)
    (room / "image.efi").write_bytes(unsigned(1))
    browser.go("check")
    browser.choose("EFI image", room / "image.efi")
    browser.press("Check it")
    browser.click(".answer a.why")
    browser.sees(past.why, "The image image.efi")
    for text in (browser.driver.current_url, browser.driver.title):
        assert past.digest[:16] not in text
    browser.go("proposals/1")
    browser.sees("otto confirmed proposal 1: 1 new digest (call 12")
    browser.press("Why", tag="a")
    browser.sees("olga proposed to revoke the digest")
    browser.go("proposals/2")
    browser.sees("olga dropped proposal 2 (call 14")


def test_the_history_is_for_officers_alone_and_nothing_of_it_is_left_for_the_next(
    browser: Browser, past: Past
) -> None:
    """No other role has a link to it, nor is shown it at its address."""
    browser.go("history")
    browser.sees("14 calls.")
    browser.sign_in(token("rita"))
    for view in ("history", "lists", "requests/1"):
        browser.go(view)
        assert "Why" not in browser.texts("a") and "History" not in browser.text(), view
    left = "[module.minutes().lines.length, module.minutes().asked.length]"
    expect(browser.module("desk/calls.js", left), [0, 0], "what an officer before left")
