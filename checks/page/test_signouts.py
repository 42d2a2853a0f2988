"""Nothing of one person is left for the next: not on the page, not in its memory, not in the
browser's history."""
from __future__ import annotations

from checks.page.site import Elsewhere, Site, unsigned
from checks.support.browser import Browser
from checks.support.messages import token
from checks.support.says import expect
from checks.support.waits import until

TITLE = "under an embargo until Tuesday"
ASKS_AGAIN = """
for (const one of document.querySelectorAll('button')) {
    if (one.textContent === 'Ask again') one.click();
}
"""


def votes_unheard(browser: Browser, site: Site, name: str) -> int:
    """The desk has answered a vote, and the answer is held."""
    number = site.submits(unsigned(110), TITLE)
    browser.sign_in(token(name))
    browser.go(f"requests/{number}")
    with site.holding():
        browser.press("Vote yes")
    return number


def is_done(browser: Browser, told: str) -> bool:
    """Whether this is told. The page asks again some times by itself, and then, where the proxy is
    slow to begin, by its button."""
    browser.script(ASKS_AGAIN)
    return told in browser.text()


def test_an_answer_that_comes_when_its_view_is_left_stays_until_its_person_signs_out(
    browser: Browser, site: Site
) -> None:
    number = votes_unheard(browser, site, "rita")
    browser.script("location.hash = '#/check'")
    browser.sees("Check an image")
    site.proxy.stop()
    site.proxy.start()
    told = f"Vote yes on request {number}: done."
    until(60, "the vote is done", lambda: is_done(browser, told), browser.text)
    browser.sign_in(token("raul"))
    assert "done." not in browser.text()


def test_an_answer_that_comes_behind_its_persons_sign_out_is_heard_by_nobody(
    browser: Browser, site: Site
) -> None:
    number = votes_unheard(browser, site, "raul")
    browser.press("Sign out")
    browser.asks("Sign out now?")
    browser.click("dialog button.danger")
    # (without a reload, which forgets anyhow)
    browser.fill("Your token", token("olga"))
    browser.press("Sign in")
    browser.one(".view h1")
    browser.go(f"requests/{number}")
    expect(browser.module("desk/journal.js", "module.unanswered.size"), 0, "commands that are left")
    assert "Vote yes" not in browser.text()
    expect(browser.module("desk/session.js", "module.me.name"), "olga", "who is signed in")


def test_the_browsers_history_has_numbers_alone(browser: Browser, site: Site) -> None:
    """On the way from a request to its revocation neither the title nor the digest gets there."""
    number = site.submits(unsigned(111), TITLE)
    digest = str(site.shows("olga", f"/requests/{number}")["digest"])
    browser.sign_in(token("olga"))
    browser.go(f"requests/{number}")
    browser.sees(TITLE)
    browser.press("Propose to revoke this image", tag="a")
    label = "Digests, one a line"
    until(20, "the digest", lambda: str(browser.field(label).get_attribute("value")) == digest)
    browser.sees(f"For request {number}: {TITLE}")
    browser.go("requests")
    entries = browser.devtools("Page.getNavigationHistory")["entries"]
    assert len(entries) > 3
    for entry in entries:
        assert digest[:16] not in entry["url"] and TITLE not in entry["title"], entry


def nobody_is_signed_in(browser: Browser) -> None:
    browser.one("#token")
    assert not browser.module("desk/session.js", "module.me.known") and not browser.all("#frame")
    left = "return document.querySelector('main#main').childNodes.length"
    assert not browser.script(left) and "People" not in browser.text()
    answer = browser.module("desk/api.js", "module.get('/report', 'text')")
    expect(answer["kind"], "refused", "the report for nobody")


def test_whoever_comes_back_from_another_site_has_to_sign_in(browser: Browser, site: Site) -> None:
    browser.sign_in(token("olga"))
    browser.go("report")
    browser.sees("People")
    with Elsewhere("<!DOCTYPE html><title>another site</title><p id=site>another site") as other:
        browser.driver.get(other.base)
        browser.one("#site")
        browser.driver.back()
        nobody_is_signed_in(browser)


def test_a_page_that_the_browser_kept_has_no_view_and_nobody(browser: Browser, site: Site) -> None:
    """A browser keeps a page whole only if it likes; so this page is told that it does."""
    browser.sign_in(token("olga"))
    browser.go("proposals")
    browser.script("""
        for (const kind of ['pagehide', 'pageshow']) {
            dispatchEvent(new PageTransitionEvent(kind, {persisted: true}));
        }
    """)
    nobody_is_signed_in(browser)
    expect(browser.script("return location.hash"), "", "the view of the person before")
