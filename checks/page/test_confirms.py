"""A Confirm is bound to what its officer saw: nothing goes out where what it would do is otherwise,
or can't be compared."""
from __future__ import annotations

from selenium.webdriver.common.keys import Keys

from checks.page.site import Site, unsigned
from checks.support.browser import Browser
from checks.support.messages import token
from checks.support.says import expect


def state(site: Site, number: int) -> str:
    return str(site.shows("olga", f"/proposals/{number}")["state"])


def test_a_confirm_that_would_bar_more_than_was_shown_isnt_sent(
    browser: Browser, site: Site
) -> None:
    """While the last question is open an image is listed that the proposal bars. The officer looks
    anew, and confirms that."""
    request = site.submits(unsigned(120), "listed meanwhile")
    digest = site.shows("olga", f"/requests/{request}")["digest"]
    number = site.proposes(digest)
    browser.sign_in(token("olga"))
    browser.go(f"proposals/{number}")
    browser.press("Confirm…")
    desk = f"At the desk {site.base.removeprefix('http://')}."
    question = f"Confirm proposal {number} for good?"
    browser.asks(question, "It bars no image that is allowed today.", desk)
    site.does("otto", "/db/digests", {"digest": digest})
    browser.press("Confirm for good")
    browser.sees("Not confirmed.")
    expect(state(site, number), "open", "the proposal")
    browser.sees("It bars 1 image that is allowed today.")
    browser.press("Confirm…", "Confirm for good")
    browser.sees("New in force: 1 digest.")
    expect(state(site, number), "confirmed", "the proposal")


def test_no_confirm_is_offered_or_sent_where_what_is_named_cant_be_compared(
    browser: Browser, site: Site
) -> None:
    number = site.proposes("7" * 64)
    browser.sign_in(token("olga"))
    browser.tries_at_once()
    browser.blocks("*/requests/with/*")
    browser.go(f"proposals/{number}")
    browser.sees("so no Confirm is offered.")
    assert "Confirm…" not in browser.texts("button")
    browser.blocks()
    browser.press("Look again")
    expect(browser.script("return document.activeElement.tagName"), "H1", "what has the focus")
    # The requests can't be read any more once the last question is answered.
    browser.press("Confirm…")
    browser.asks(f"Confirm proposal {number} for good?")
    browser.blocks("*/requests/with/*")
    browser.press("Confirm for good")
    browser.sees("Not confirmed.")
    expect(state(site, number), "open", "the proposal")


def test_enter_confirms_nothing_and_ones_own_proposal_has_no_confirm(
    browser: Browser, site: Site
) -> None:
    number = site.proposes("8" * 64)
    browser.sign_in(token("olga"))
    browser.go(f"proposals/{number}")
    browser.press("Confirm…")
    question = f"Confirm proposal {number} for good?"
    browser.asks(question)
    browser.types(Keys.ENTER)
    browser.asks(question)
    # The first stop leaves it.
    browser.types(Keys.TAB, Keys.ENTER)
    browser.asks_no_more()
    expect(state(site, number), "open", "the proposal")
    browser.sign_in(token("otto"))
    browser.go(f"proposals/{number}")
    browser.sees("You proposed it")
    assert "Confirm…" not in browser.texts("button")
