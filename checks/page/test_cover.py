"""A page that nobody touches for half an hour: it warns, is covered, sends nothing, and goes on
where it was left, for its own person alone."""
from __future__ import annotations

from selenium.webdriver.common.keys import Keys

from checks.page.looked import looked
from checks.page.site import Site, unsigned
from checks.support.browser import Browser
from checks.support.messages import token
from checks.support.says import expect
from checks.support.waits import until

SOON = "Nobody has touched this page for 29 minutes."
COVERED = "Nobody touched this page for 30 minutes, so it is covered."
NOTE = "Note (if you like)"
# What is asked for meanwhile, and what comes of it within a second.
ASKED = """
Promise.race([module.get('/me'), new Promise((end) => setTimeout(end, 1000, {kind: 'held'}))])
"""


def later(browser: Browser, minutes: float) -> None:
    """The page's clock goes forward."""
    text = f"(now => (module.clock.now = () => now + {minutes * 60000}, 1))(module.clock.now())"
    browser.module("desk/idle.js", text)


def test_a_page_that_is_left_goes_on_with_its_persons_token_alone(
    browser: Browser, site: Site
) -> None:
    number = site.submits(unsigned(130), "left alone")
    browser.sign_in(token("rita"))
    browser.go(f"requests/{number}")
    browser.fill(NOTE, "half a note")
    browser.press("Vote no")
    browser.asks(f"Reject request {number}?")
    later(browser, 31)
    browser.sees(COVERED)
    looked(browser, "the cover")
    browser.types(Keys.ESCAPE)
    browser.types(Keys.ESCAPE)
    browser.sees(COVERED)
    expect(browser.module("desk/api.js", ASKED)["kind"], "held", "what is asked meanwhile")
    for given, told in (
        ("", "Give your token."), (token("raul"), "This is another person’s token."),
        ("a-token-of-nobody", "Refused: UnknownCaller"),
    ):
        browser.fill("Your token", given)
        browser.press("Go on")
        browser.sees(told)
    browser.fill("Your token", token("rita"))
    browser.press("Go on")
    until(20, "the cover goes", lambda: COVERED not in browser.text(), browser.text)
    browser.asks(f"Reject request {number}?")
    browser.press("Go back")
    expect(browser.field(NOTE).get_attribute("value"), "half a note", "what was typed")
    browser.press("Vote yes")
    browser.sees("Your vote of yes is in.")
    expect(site.shows("rita", f"/requests/{number}")["votes"][0]["note"], "half a note", "its note")


def test_a_key_within_the_last_minute_keeps_the_page_open(browser: Browser, site: Site) -> None:
    browser.sign_in(token("rita"))
    later(browser, 29.5)
    browser.sees(SOON)
    looked(browser, "the warning")
    browser.types(Keys.ARROW_DOWN)
    until(10, "the warning goes", lambda: SOON not in browser.text(), browser.text)
    later(browser, 28)
    expect(browser.module("desk/idle.js", "module.idle()"), "here", "after 28 minutes more")
    # A key behind its time doesn't count, and a sign-out leaves nothing.
    later(browser, 3)
    browser.types(Keys.ARROW_DOWN)
    browser.sees(COVERED)
    browser.press("Sign out")
    browser.one("#token")
    expect(browser.all("dialog"), [], "what covers the sign-in")


def test_an_upload_under_way_keeps_the_page_open(browser: Browser, site: Site) -> None:
    large = site.room / "large.efi"
    large.write_bytes(unsigned(131) + bytes(48_000_000))
    browser.sign_in(token("ann"))
    browser.go("submit")
    browser.fill("Title", "a long way")
    browser.choose("EFI image", large)
    browser.uploads_at(400_000)
    browser.press("Submit")
    browser.sees("sending…")
    later(browser, 31)

    def is_here() -> bool:
        return bool(browser.module("desk/idle.js", "module.idle()") == "here")

    until(10, "the upload counts as a touch", is_here, browser.text)
    expect(browser.all("dialog"), [], "what covers an upload")
    browser.press("Stop")
    browser.uploads_at(-1)


def test_whom_a_certificate_signs_in_goes_on_by_a_press(browser: Browser, site: Site) -> None:
    site.relay.token = token("rita")
    browser.driver.get(f"{site.base}/#/requests")
    browser.sees("rita, reviewer")
    later(browser, 31)
    browser.sees(COVERED)
    expect(browser.all("dialog input"), [], "the fields of the cover")
    browser.press("Go on")
    browser.asks_no_more()
    expect(browser.module("desk/api.js", ASKED)["kind"], "value", "what is asked behind it")
