"""Reasons at the page: beside a proposal and behind it, in its view, before a Confirm, in the list
and in History."""
from __future__ import annotations

from checks.page.looked import looked
from checks.page.site import Site
from checks.support.browser import Browser
from checks.support.messages import token
from checks.support.says import expect

BECAUSE = "CVE-2023-40547, see https://example.org/15.8"
WHY, MORE = "Why (if you like)", "Why, or why not"
HAS = "The minutes have your reason."


def explains(site: Site) -> list[str]:
    rows = [line.split("\t") for line in site.minutes().decode().splitlines()]
    return [f"{row[1]}: {row[3]}" for row in rows if row[3].startswith("explain ")]


def proposes_two(browser: Browser, site: Site) -> None:
    """olga does, each with a reason."""
    browser.go("propose")
    browser.fill("Digests, one a line", "5" * 64)
    browser.fill(WHY, "caf\u00e9")
    browser.press("Propose")
    browser.sees("The reason has “é”.")
    browser.fill(WHY, f" {BECAUSE} ")
    browser.press("Propose")
    browser.sees("This is proposal 1.", HAS)
    path = site.room / "one.csv"
    path.write_text(f"kind,value,generation\nsha256,{'6' * 64},\n", encoding="ascii")
    browser.go("propose/import")
    browser.drop("File", path)
    browser.sees("CSV.")
    browser.fill(WHY, "of the other vendor")
    browser.press("Propose this import")
    browser.sees("This is proposal 2.", HAS)


def explains_one(browser: Browser) -> None:
    """otto does, in the proposal's view."""
    browser.go("proposals/1")
    browser.sees("olga, 20", BECAUSE)
    browser.press("Explain", tag="summary")
    browser.press("Explain")
    browser.sees("Say why.")
    looked(browser, "a proposal with a reason")
    browser.fill(MORE, "I compared it")
    browser.press("Explain")
    browser.sees("Explained.", "otto, 20", "I compared it")


def confirms(browser: Browser, site: Site) -> None:
    """A reason that comes while the last question is open is shown before another one."""
    browser.press("Confirm…")
    question = "Confirm proposal 1 for good?"
    browser.asks(question, BECAUSE, "I compared it")
    looked(browser, "the question before a Confirm with reasons")
    site.does("olga", "/proposals/1/explain", {"text": "two days more"})
    browser.press("Confirm for good")
    browser.sees("Not confirmed.", "two days more")
    browser.press("Confirm…")
    browser.asks(question, "two days more")
    browser.press("Confirm for good")
    browser.sees("New in force: 1 digest.", BECAUSE)


def test_a_morning_with_reasons(browser: Browser, site: Site) -> None:
    browser.sign_in(token("olga"))
    proposes_two(browser, site)
    browser.go("proposals")
    browser.sees(BECAUSE, "of the other vendor")
    browser.sign_in(token("otto"))
    browser.go("inbox")
    browser.sees("Waits for you 2", BECAUSE, "of the other vendor")
    explains_one(browser)
    confirms(browser, site)
    browser.go("history")
    browser.sees("olga explained proposal 1:", BECAUSE)
    browser.go("history/proposal/1")
    browser.sees("otto explained proposal 1:", "I compared it", "otto confirmed proposal 1")
    expect(explains(site), [
        f"olga: explain 1 {BECAUSE}", "olga: explain 2 of the other vendor",
        "otto: explain 1 I compared it",
        "olga: explain 1 two days more"], "the reasons")


def test_a_reason_that_was_lost_goes_once(browser: Browser, site: Site) -> None:
    browser.sign_in(token("olga"))
    browser.tries_at_once()
    browser.blocks("*/explain")
    for digit, button in (("5", "Ask again"), ("6", "Give up")):
        browser.go("inbox")
        browser.go("propose")
        browser.fill("Digests, one a line", digit * 64)
        browser.fill(WHY, BECAUSE)
        browser.press("Propose")
        browser.sees("no answer.")
        browser.blocks(*["*/explain"] * (button == "Give up"))
        browser.press(button)
        browser.sees(HAS if button == "Ask again" else "without your reason")
        browser.blocks("*/explain")
    browser.blocks()
    browser.go("proposals/2")
    browser.sees("Nobody said why.")
    expect(explains(site), [f"olga: explain 1 {BECAUSE}"], "the reasons")
