"""The first view: what waits for each role, and its count in the window's title and at the view's
link; and what the list of proposals says of each."""
from __future__ import annotations

import pytest

from checks.page.conftest import shots
from checks.page.looked import looked
from checks.page.site import Site, unsigned
from checks.support.browser import Browser
from checks.support.messages import token
from checks.support.says import expect
from checks.support.waits import until

NAMED = "digest 55555555.., which newly bars no known image"
PACKAGE = "shim 16.1-1 amd64"


def is_counted(browser: Browser, title: str, count: str) -> None:
    """The window's title, and the count at the link of the first view."""

    def shown() -> tuple[str, str]:
        return browser.driver.title, browser.texts("#views a")[0]

    due = (f"{title} · Kovelamiru", f"For you {count}".strip())
    until(20, f"the title and the link {due}", lambda: shown() == due, lambda: str(shown()))


def test_a_reviewer_is_led_from_one_request_to_the_next(browser: Browser, site: Site) -> None:
    for number in (1, 2):
        site.submits(unsigned(number), f"to be read, {number}")
    site.submits(unsigned(3), "her own", "rita")
    site.reviews("raul", 2)
    browser.sign_in(token("rita"))
    browser.sees("Waits for you 2", "1 of 2 yes, by raul", "Yours under way 1", "her own")
    is_counted(browser, "(2) For you", "2")
    shots(browser, "inbox-reviewer")
    browser.press("to be read, 1", tag="a")
    browser.press("Vote yes")
    browser.sees("Your vote of yes is in.", "Next: request 2, to be read, 2; 1 waits for you.")
    is_counted(browser, "(1) Request 1", "1")
    browser.press("request 2, to be read, 2", tag="a")
    browser.press("Vote yes")
    browser.asks("Vote yes on request 2?")
    browser.script("document.querySelector('dialog button.danger').click()")
    browser.sees("Nothing else waits for you.")


@pytest.mark.parametrize("name, says", [
    ("olga", ["Waits for you 1", NAMED, "None of your proposals is open."]),
    ("otto", ["No proposal waits for you.", "Yours under way 1", NAMED, "otto (you)"]),
    ("sid", ["to be signed"]), ("ann", ["to be signed"]),
])
def test_each_role_sees_what_waits(
    browser: Browser, site: Site, name: str, says: list[str]
) -> None:
    """A click on the link of the view that is shown looks again."""
    browser.sign_in(token(name))
    # (the first look is over)
    browser.go("inbox")
    number = site.submits(unsigned(1), "to be signed")
    for reviewer in ("rita", "raul"):
        site.reviews(reviewer, number)
    site.proposes("5" * 64)
    browser.click("#views a")
    browser.sees(*says)
    looked(browser, f"the first view of {name}")


def rows(browser: Browser) -> list[str]:
    return [one.text for one in browser.all("tbody tr")]


def test_the_list_says_what_is_proposed_how_old_and_whose(browser: Browser, site: Site) -> None:
    number = site.submits(unsigned(105), PACKAGE)
    image = site.shows("olga", f"/requests/{number}")["digest"]
    site.proposes(image, "otto")
    level = {"component": "grub", "generation": 4, "stamp": 2026112701}
    site.does("olga", "/level", level)
    browser.sign_in(token("olga"))
    words = f"digest {image[:8]}.. of {PACKAGE}, request 1, not allowed today"
    # (the first view has them, too)
    browser.sees("Waits for you", words, "grub to 4")
    browser.go("proposals")
    browser.sees(words, "grub to 4")
    expect(len(rows(browser)), 2, "the rows")
    browser.press("Not mine")
    until(10, "otto's alone", lambda: [words in row for row in rows(browser)] == [True])
