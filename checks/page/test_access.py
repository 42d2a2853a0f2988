"""For those who hear the page, use no mouse, or have a small window: each view by its names,
contrast, structure and sizes, and a vote by keyboard alone."""
from __future__ import annotations

from pathlib import Path
from typing import Iterator

import pytest
from selenium.webdriver.common.keys import Keys

from checks.page.keyboard import Keyboard
from checks.page.looked import looked
from checks.page.plain_day import does_day
from checks.page.site import Site, unsigned
from checks.support.browser import Browser
from checks.support.messages import token
from checks.support.program import Program, copy_of
from checks.support.says import expect

# The views of each person that are looked at: requests in each state but rejected, proposals that
# are confirmed, dropped and doubtful.
VIEWS = {
    "rita": ["inbox", "requests", "requests/1", "requests/4", "submit", "lists", "check"],
    "sid": ["inbox", "requests/3"],
    "olga": [
        "inbox", "proposals", "proposals/1", "proposals/4", "propose", "propose/level",
        "propose/certificate", "propose/import", "lists", "report", "history",
    ],
}


@pytest.fixture(scope="module")
def furnished(program_path: Path, session_room: Path, people_desk: str) -> Iterator[Site]:
    """A desk behind a day, with an approved request, an open one, and a proposal that is
    doubtful."""
    desk = Program(program_path, session_room)
    with Site(desk, copy_of(people_desk, session_room / "furnished.db")) as site:
        does_day(site.server)
        for number in (3, 4):
            # (its generation of grub is above the level)
            site.submits(unsigned(number, 9), f"the image of request {number}")
        for name in ("rita", "raul"):
            site.reviews(name, 3)
        facts = site.shows("otto", "/requests/3")
        rows = (f"sha256,{facts['file']},", f"sha256,{facts['digest']},", "sbat,grub,70000", "")
        body = "\n".join(["kind,value,generation", *rows]).encode()
        site.does("otto", "/imports/csv", body, ("Desk-Stamp", "2099123100"))
        yield site


@pytest.mark.long(60)
@pytest.mark.parametrize("name", ["nobody", *VIEWS])
def test_each_view_has_names_contrast_structure_and_sizes(
    browser: Browser, furnished: Site, name: str
) -> None:
    browser.base = furnished.base
    if name == "nobody":
        browser.open()
        looked(browser, "the sign-in")
    else:
        browser.sign_in(token(name))
    for view in VIEWS.get(name, []):
        browser.go(view)
        for detail in browser.all("summary"):
            detail.click()
        looked(browser, f"{view} of {name}")
    expect(browser.complaints()[:4], [], "what the browser complains of")


def test_a_vote_is_given_by_keyboard_alone(browser: Browser, site: Site) -> None:
    """raul signs in, opens a request, votes no, is asked back, leaves it, and goes on."""
    number = site.submits(unsigned(106), "read by keyboard")
    browser.open()
    keys = Keyboard(browser)
    browser.types(token("raul"), Keys.ENTER)
    browser.sees("read by keyboard")
    expect(keys.focused()["tag"], "H1", "where the focus is after signing in")
    keys.tab_to("read by keyboard")
    browser.types(Keys.ENTER)
    browser.sees(f"Request {number}", "Your vote")
    keys.tab_to("Note (if you like)")
    browser.types("seen by keyboard alone")
    keys.tab_to("Vote no")
    browser.types(Keys.ENTER)
    browser.asks(f"Reject request {number}?")
    browser.types(Keys.ESCAPE)
    browser.asks_no_more()
    assert keys.focused()["text"].startswith("Vote no"), keys.focused()
    browser.types(Keys.ENTER)
    browser.asks(f"Reject request {number}?")
    keys.tab_to("Vote no")
    browser.types(Keys.ENTER)
    browser.sees("Your vote of no is in.")
    expect(site.shows("rita", f"/requests/{number}")["state"], "rejected", "at the desk")
