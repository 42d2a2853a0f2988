"""Answers that are lost on the way, whatever a proxy says behind them: a command takes effect once,
and the page says what is known of it. An upload can be stopped."""
from __future__ import annotations

import pytest

from checks.page.relay import LOSE, NOT_FOUND
from checks.page.site import Site, unsigned
from checks.support.browser import Browser
from checks.support.messages import token
from checks.support.says import expect
from checks.support.waits import until

# The answer is lost, and the proxy is being changed as the page asks again by itself.
GONE = [LOSE, NOT_FOUND, NOT_FOUND, NOT_FOUND]
AGAIN = "it has the same key, so it takes effect once"


def opens_request(browser: Browser, site: Site, name: str, image: int) -> int:
    number = site.submits(unsigned(image), "to be voted on")
    browser.sign_in(token(name))
    browser.go(f"requests/{number}")
    return number


def loses_answer(browser: Browser, site: Site) -> None:
    """Votes yes, and stops the proxy once the desk has answered; nobody hears of it."""
    with site.holding():
        browser.press("Vote yes")
    site.proxy.stop()


def has_votes(site: Site, number: int, *names: str) -> None:
    votes = site.shows("rita", f"/requests/{number}")["votes"]
    expect([vote["reviewer"] for vote in votes], [*names], f"the votes of request {number}")


def test_a_vote_whose_answer_is_lost_is_asked_for_again_with_its_key(
    browser: Browser, site: Site
) -> None:
    number = opens_request(browser, site, "rita", 103)
    loses_answer(browser, site)
    browser.sees("Asking again with the same key")
    site.proxy.start()
    browser.sees("Your vote of yes is in.")
    has_votes(site, number, "rita")


def test_a_vote_waits_above_every_view_until_a_button_asks_for_its_answer(
    browser: Browser, site: Site
) -> None:
    """The page stops asking by itself; its person goes elsewhere. Without the desk the proxy
    answers, but not with the desk's answer."""
    number = opens_request(browser, site, "raul", 103)
    browser.tries_at_once(200)
    loses_answer(browser, site)
    browser.sees("no answer.", "The connection was lost.")
    browser.script("location.hash = '#/check'")
    browser.sees("Check an image", f"Vote yes on request {number}: no answer.")
    site.relay.end()
    site.proxy.start()
    browser.press("Ask again")
    browser.sees("couldn’t reach the desk (502)", f"Vote yes on request {number}: no answer.")
    site.proxy.stop()
    site.begin_relay()
    site.proxy.start()
    browser.press("Ask again")
    browser.sees(f"Vote yes on request {number}: done.")
    has_votes(site, number, "raul")


def test_a_vote_that_was_given_up_and_is_made_again_has_its_key(
    browser: Browser, site: Site
) -> None:
    number = opens_request(browser, site, "raul", 107)
    browser.tries_at_once(200)
    loses_answer(browser, site)
    browser.sees("no answer.")
    browser.press("Give up")
    browser.sees(AGAIN)
    site.proxy.start()
    browser.press("Vote yes")
    browser.sees("Your vote of yes is in.")
    has_votes(site, number, "raul")


@pytest.mark.parametrize("last", ["Ask again", "Give up"])
def test_a_submission_that_a_proxy_refuses_behind_a_lost_answer_keeps_its_key(
    browser: Browser, site: Site, last: str
) -> None:
    path = site.room / "lost.efi"
    path.write_bytes(unsigned(108))
    browser.sign_in(token("ann"))
    browser.tries_at_once(200)
    site.relay.plan = [*GONE]
    browser.go("submit")
    browser.fill("Title", "of an answer that is lost")
    browser.choose("EFI image", path)
    browser.press("Submit")
    browser.sees("This try was refused unread (404)", "no answer.")
    if last == "Give up":
        # Once more unread, before it comes through.
        site.relay.plan = [NOT_FOUND] * 4
        browser.press(last)
        browser.sees(AGAIN)
        browser.press("Submit")
        browser.sees("no answer.")
    browser.press("Ask again")
    browser.sees("This is request 1.")
    titles = [one["title"] for one in site.shows("ann", "/requests")]
    expect(titles, ["of an answer that is lost"], "the requests at the desk")


def test_an_upload_shows_how_far_it_is_and_can_be_stopped(browser: Browser, site: Site) -> None:
    large = site.room / "large.efi"
    # (some two minutes at the rate below: time to stop it on a busy machine, too)
    large.write_bytes(unsigned(104) + bytes(48_000_000))
    browser.sign_in(token("ann"))
    browser.go("submit")
    browser.fill("Title", "too large for this line")
    browser.choose("EFI image", large)
    browser.uploads_at(400_000)
    browser.press("Submit")
    value = "document.querySelector('progress')?.value"
    browser.has("the bar moves", f"return {value} > 0.02 && {value} < 1")
    browser.sees("Submit large.efi: sending…", " %")
    assert "waiting for the desk" not in browser.text()
    # On another view the bar and its button stand above.
    browser.go("requests")
    browser.sees("Submit large.efi: under way.")
    browser.has("the bar moves on", f"return {value} < 1")
    browser.press("Stop")
    browser.sees("Submit large.efi: stopped.")
    expect(browser.all("#waiting progress"), [], "the bar behind a stop")
    browser.uploads_at(-1)
    expect(site.shows("ann", "/requests"), [], "the requests behind a stopped upload")


def test_a_proposal_that_was_dropped_before_its_answer_came_isnt_told_as_open(
    browser: Browser, site: Site
) -> None:
    """Its answer is lost, another officer drops it, and it is given again."""
    browser.sign_in(token("olga"))
    browser.tries_at_once(200)
    browser.go("propose")
    browser.fill("Digests, one a line", "5" * 64)
    site.relay.plan = [*GONE]
    browser.press("Propose")
    browser.sees("no answer.")
    browser.press("Give up")
    browser.sees(AGAIN)
    site.does("otto", "/proposals/1/drop", b"")
    browser.press("Propose")
    told = "The desk may have taken it before: see whether it is still open."
    browser.sees(f"This is proposal 1. {told}")


def test_a_drop_whose_answer_is_lost_is_shown_once_its_view_is_made_anew(
    browser: Browser, site: Site
) -> None:
    number = site.proposes("6" * 64)
    browser.sign_in(token("olga"))
    browser.tries_at_once(200)
    browser.blocks("*/requests/with/*")
    browser.go(f"proposals/{number}")
    browser.sees("so no Confirm is offered.")
    browser.blocks()
    site.relay.plan = [*GONE]
    browser.press("Drop…", "Drop it")
    browser.sees(f"Drop proposal {number}: no answer.")
    browser.press("Look again")
    until(10, "it is above the view", lambda: browser.all("#waiting button"), browser.text)
    browser.press("Ask again")
    browser.sees(f"Drop proposal {number}: done.")
