"""Another desk answers at the address, as after a restore or at a standby: a decision lands on what
its person was shown, or on nothing, and the page says so.

Both desks have request 1 (open), request 2 (approved) and proposal 1, of other images."""
from __future__ import annotations

from pathlib import Path
from typing import Callable, Iterator

import pytest

from checks.page.conftest import PICTURES
from checks.page.relay import SWITCH
from checks.page.site import CERTIFICATE, Site, signed, unsigned
from checks.support.browser import Browser
from checks.support.images import authenticode
from checks.support.messages import token
from checks.support.program import Program, copy_of
from checks.support.says import expect

# What each desk says of its own: the titles of its requests, and what its proposal names.
SHOWN, OTHER = "the loader that was shown", "a loader of another desk"
FIRST = {SHOWN: 10, OTHER: 20}
NAMED = {title: authenticode(unsigned(number)) for title, number in FIRST.items()}
SAID = (
    "Refused: Mismatch (49). This desk has something else under this number, and did nothing.",
    "Look again at what has this number now: this desk isn’t the one that showed it to you, or it"
    " lost its last calls.",
)


def filled(site: Site, title: str) -> Site:
    """Everything is about other images than at a desk of another title."""
    first = FIRST[title]
    site.submits(unsigned(first), f"{title} (1)")
    site.submits(unsigned(first + 1), f"{title} (2)")
    for name in ("rita", "raul"):
        site.reviews(name, 2)
    site.does("olga", "/db/certificates", CERTIFICATE)
    site.proposes(NAMED[title], "olga")
    return site


class Both:
    """The desk that was shown, and the one that takes its place."""

    def __init__(self, shown: Site, other: Site) -> None:
        self.shown, self.other = filled(shown, SHOWN), filled(other, OTHER)
        self.before = self.minutes()

    def minutes(self) -> tuple[bytes, bytes]:
        return self.shown.minutes(), self.other.minutes()

    def begin_anew(self) -> None:
        self.shown.relay.desk_port = self.shown.server.port
        self.shown.relay.other_port = self.other.server.port
        self.shown.relay.plan.clear()

    def switch(self) -> None:
        """Behind the same address the other file is served."""
        self.shown.relay.desk_port = self.other.server.port

    def switch_at_command(self) -> None:
        """The next command and all behind it come to the other desk."""
        self.shown.relay.plan = [SWITCH]


@pytest.fixture(scope="module")
def two(program_path: Path, session_room: Path, people_desk: str) -> Iterator[Both]:
    desk = Program(program_path, session_room)
    paths = [copy_of(people_desk, session_room / f"another-{name}.db") for name in ("1", "2")]
    with Site(desk, paths[0]) as shown, Site(desk, paths[1]) as other:
        yield Both(shown, other)


@pytest.fixture
def both(two: Both, browser: Browser) -> Iterator[Both]:
    """Those that each test here leaves as they were, the last one aside."""
    two.begin_anew()
    browser.base = two.shown.base
    yield two


def votes(browser: Browser, room: Path) -> None:
    browser.press("Vote yes")


def rejects(browser: Browser, room: Path) -> None:
    browser.press("Vote no")
    browser.asks("Reject request 1?")
    browser.press("Vote no")


def withdraws(browser: Browser, room: Path) -> None:
    browser.press("Withdraw…", "Withdraw it")


def returns(browser: Browser, room: Path) -> None:
    path = room / "signed.efi"
    path.write_bytes(signed(unsigned(FIRST[SHOWN] + 1)))
    browser.choose("Signed file", path)
    browser.press("Return it")
    browser.asks("Return this file for request 2?")
    browser.press("Return it")


def confirms(browser: Browser, room: Path) -> None:
    browser.press("Confirm…", "Confirm for good")


def drops(browser: Browser, room: Path) -> None:
    browser.press("Drop…", "Drop it")


DECISIONS: dict[str, tuple[str, str, Callable[[Browser, Path], None]]] = {
    "a vote": ("rita", "requests/1", votes), "a vote of no": ("rita", "requests/1", rejects),
    "a withdrawal": ("ann", "requests/1", withdraws), "a return": ("sid", "requests/2", returns),
    "a Confirm": ("otto", "proposals/1", confirms), "a Drop": ("otto", "proposals/1", drops),
}


def shows(browser: Browser, view: str, title: str) -> None:
    """The view has what the desk of this title has, and nothing of the other one."""
    texts = {one: one if view.startswith("requests") else NAMED[one] for one in FIRST}
    browser.sees(texts.pop(title))
    for text in texts.values():
        assert text not in browser.text()


def opened(browser: Browser, name: str, view: str) -> None:
    browser.sign_in(token(name))
    browser.go(view)
    shows(browser, view, SHOWN)


@pytest.mark.long(30)
@pytest.mark.parametrize("what", DECISIONS)
def test_a_decision_that_comes_to_another_desk_lands_on_nothing_and_the_page_says_why(
    browser: Browser, both: Both, room: Path, what: str
) -> None:
    name, view, decides = DECISIONS[what]
    opened(browser, name, view)
    both.switch_at_command()
    decides(browser, room)
    browser.sees(*SAID)
    PICTURES.mkdir(parents=True, exist_ok=True)
    browser.shot(PICTURES / f"another-desk-{what.replace(' ', '-')}.png", 1300)
    expect(both.minutes(), both.before, f"the minutes of both desks after {what}")
    browser.press("Look again")
    shows(browser, view, OTHER)
    assert SAID[0] not in browser.text()
    assert browser.script("return document.activeElement.tagName") == "H1"


def test_a_proposal_of_another_desk_is_shown_before_its_last_question(
    browser: Browser, both: Both
) -> None:
    opened(browser, "otto", "proposals/1")
    both.switch()
    browser.press("Confirm…")
    browser.sees("Not confirmed. What it names, what it would do or what officers say of it isn’t")
    shows(browser, "proposals/1", OTHER)
    assert not browser.all("dialog")
    expect(both.minutes(), both.before, "the minutes of both desks")


def test_a_vote_of_who_looked_again_lands_on_the_other_desk_alone(
    browser: Browser, both: Both
) -> None:
    opened(browser, "rita", "requests/1")
    both.switch()
    browser.press("Vote yes")
    browser.sees(SAID[0])
    browser.press("Look again")
    shows(browser, "requests/1", OTHER)
    browser.press("Vote yes")
    browser.sees("Your vote of yes is in.")
    shown, other = both.minutes()
    expect(shown, both.before[0], "the minutes of the desk that was shown")
    new = other.removeprefix(both.before[1])
    assert new.count(b"\n") == 1 and b"\treview 1 yes \t" in new
