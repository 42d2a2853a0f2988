"""A day at the desk through the page alone: it leaves the minutes of the same day by plain
requests, except for the keys. Each person's part goes by what is written on the page, and each
question is read before it is answered."""
from __future__ import annotations

import re

import pytest

from checks.conftest import NewDesk
from checks.page.looked import looked
from checks.page.plain_day import CSV, DIGEST, PLAIN_DAY, STAMP, TINY, TITLE, does_day
from checks.page.site import CERTIFICATE, Site, signed, unsigned
from checks.support.browser import Browser
from checks.support.cases import SIGNER
from checks.support.images import sha256
from checks.support.messages import token
from checks.support.program import Program
from checks.support.says import expect
from checks.support.server import Server
from checks.support.waits import until

FILES = {
    "image.efi": unsigned(1), "signed.efi": signed(unsigned(1)), "other.efi": TINY,
    "certificate.der": CERTIFICATE, "revocations.csv": CSV,
}
# As a double click does.
TWICE = """
performance.clearResourceTimings();
const propose = [...document.querySelectorAll('main button')]
    .find((one) => one.textContent === 'Propose');
propose.click();
propose.click();
"""
SENT = """
return performance.getEntriesByType('resource')
    .filter((one) => one.name.endsWith('/dbx/digests')).length;
"""
CLIPBOARD = """
const done = arguments[0];
navigator.clipboard.readText().then(done, (fault) => done(String(fault)));
"""


class Day:
    """What people do on the page."""

    def __init__(self, browser: Browser, site: Site) -> None:
        self.browser, self.site = browser, site
        for name, content in FILES.items():
            (site.room / name).write_bytes(content)

    def goes(self, name: str, view: str) -> None:
        self.browser.sign_in(token(name))
        self.browser.go(view)

    def chooses(self, label: str, file: str) -> None:
        self.browser.choose(label, self.site.room / file)

    def fills(self, **fields: str) -> None:
        for label, text in fields.items():
            self.browser.fill(label, text)

    def submits(self, title: str, file: str, number: int, dropped: bool = False) -> None:
        self.goes("ann", "submit")
        self.browser.fill("Title", title)
        bring = self.browser.drop if dropped else self.browser.choose
        bring("EFI image", self.site.room / file)
        self.browser.press("Submit")
        self.browser.sees(f"This is request {number}.", "It arrived whole.")
        sums = self.browser.texts(".answer code")
        expect(sums, [sha256(FILES[file])] * 2, "the SHA-256 here and at the desk")

    def reviews(self, name: str, note: str, state: str) -> None:
        self.browser.sign_in(token(name))
        self.browser.press(TITLE, tag="a")
        self.chooses("Compare a file with this request", "image.efi")
        self.browser.sees("This is the file that was submitted.")
        self.browser.fill("Note (if you like)", note)
        self.browser.press("Vote yes")
        if state == "Approved":
            self.browser.asks("Vote yes on request 1?", "One reviewer has agreed already")
            self.browser.press("Vote yes")
        self.browser.sees("Your vote of yes is in.", state)

    def copies(self) -> None:
        """One click copies a digest."""
        self.browser.click("[aria-label='Copy the SHA-256 of the file']")
        self.browser.sees("Copied")
        found = self.browser.driver.execute_async_script(CLIPBOARD)
        expect(found, sha256(FILES["image.efi"]), "what a click copies")

    def returns(self, told: str, asked: str = "") -> None:
        self.browser.sign_in(token("sid"))
        self.browser.press(TITLE, tag="a")
        self.chooses("Signed file", "signed.efi")
        self.browser.press("Return it")
        if asked:
            self.browser.asks("Return this file for request 1?", asked)
            self.browser.press("Return it")
        self.browser.sees(told)

    def lists_certificate(self) -> None:
        """One officer does it alone, so it is asked about, by what it says of itself."""
        self.goes("olga", "lists")
        self.browser.press("List a certificate or a digest", tag="summary")
        self.chooses("Certificate", "certificate.der")
        self.browser.press("List this certificate")
        self.browser.asks(
            "List this certificate?", SIGNER["subject"], SIGNER["issuer"], "EC, P-256",
            SIGNER["tbs"], "CA\nno", "No other officer confirms it."
        )
        looked(self.browser, "the question before a certificate is listed")
        self.browser.press("Go back")
        self.browser.asks_no_more()
        self.browser.press("List this certificate", "List it")
        self.browser.sees("It is in db now.")

    def confirms(self, number: int, told: str, harm: str) -> None:
        """otto looks at a proposal, is asked once more, leaves it, and confirms it."""
        self.goes("otto", f"proposals/{number}")
        self.browser.sees(harm)
        self.browser.press("Confirm…")
        title = f"Confirm proposal {number} for good?"
        desk = f"At the desk {self.site.base.removeprefix('http://')}."
        self.browser.asks(title, harm, "nothing takes it back", desk)
        looked(self.browser, f"the question before the Confirm of {number}")
        self.browser.press("Leave it open", "Confirm…", "Confirm for good")
        self.browser.sees(told)

    def proposes_once(self) -> None:
        self.goes("olga", "propose")
        self.browser.fill("Digests, one a line", DIGEST.upper())
        self.browser.script(TWICE)
        self.browser.sees("This is proposal 1.")
        self.browser.go("proposals/1")
        self.browser.sees("You proposed it")
        expect(self.browser.script(SENT), 1, "how often a double click sends a proposal")

    def imports(self) -> None:
        self.goes("olga", "propose/import")
        self.chooses("File", "revocations.csv")
        self.browser.sees("grub from none to 4.")
        self.fills(Stamp=f"{STAMP}05")
        self.browser.press("Propose this import")
        self.browser.sees("This is proposal 2.")

    def drops(self) -> None:
        self.goes("olga", "propose/level")
        self.fills(Component="shim", Generation="2", Stamp=f"{STAMP}06")
        self.browser.press("Propose")
        self.browser.asks("Is it spelt right?")
        self.browser.press("Propose it all the same")
        self.browser.sees("This is proposal 3.")
        self.goes("otto", "proposals/3")
        self.browser.press("Drop…", "Drop it")
        self.browser.sees("Dropped.")

    def unlists(self) -> None:
        self.goes("olga", "lists")
        self.browser.press("List a certificate or a digest", tag="summary")
        self.browser.fill("Digest of an image", "d" * 64)
        self.browser.press("List this digest")
        self.browser.sees("It is in db now.")
        self.browser.click(f"[aria-label='Unlist digest {'d' * 12}']")
        typed = "To unlist it, type dddddddd:"
        self.browser.fill(typed, "ddddddd")
        self.browser.asks("No signed file of a request is allowed by this entry alone.")
        assert not self.browser.one("dialog .danger").is_enabled(), "a name that isn't whole"
        self.browser.fill(typed, "dddddddd")
        self.browser.press("Unlist it")
        self.browser.sees("Unlisted.")

    def asks_what_an_unlisting_costs(self) -> None:
        self.goes("olga", "lists")
        self.browser.click("[aria-label^='Unlist certificate']")
        self.browser.asks("this entry alone allows them: 1. They are those of request 1 (" + TITLE)
        self.browser.press("Go back")

    def withdraws(self) -> None:
        self.browser.go("requests/2")
        self.browser.press("Withdraw…", "Withdraw it")
        self.browser.sees("Withdrawn.")

    def judges(self) -> None:
        """A verdict, and what the request's own view says of the lists now."""
        low = "grub 3, where the level requires 4."
        self.browser.go("check")
        self.chooses("EFI image", "signed.efi")
        self.browser.press("Check it")
        self.browser.sees(f"Refused: {low}")
        self.browser.go("requests/1")
        self.browser.sees(
            f"Barred today: {low}",
            "The desk allowed the returned file when it took it.",
            "below the level: barred", "neither listed nor revoked",
        )
        assert "unsigned" not in self.browser.one("main").text

    def downloads(self, button: str, name: str, wanted: bytes) -> None:
        """The file that a button gives is what the desk answers."""
        next(one for one in self.browser.all("button") if one.text.startswith(button)).click()
        path = self.browser.downloads / name
        until(20, f"{name} is there", lambda: path.exists() and path.read_bytes() == wanted)

    def exports(self) -> None:
        self.goes("olga", "lists")
        for path, name, button in (
            ("/dbx", "dbx.esl", "Download dbx"), ("/db", "db.esl", "Download db ("),
            ("/level", "level.csv", "Download the level"),
        ):
            self.downloads(button, name, self.site.ask("olga", "GET", path).body)
        self.downloads(
            "Download the level for shim", "level-for-shim.csv",
            self.site.ask("olga", "GET", "/level").body,
        )
        self.browser.go("report")
        self.browser.sees("revoked digests", "otto")
        self.downloads("Download the minutes", "minutes.txt", self.site.minutes())


def without_keys(minutes: bytes) -> list[list[str]]:
    rows = [line.split("\t") for line in minutes.decode().splitlines()]
    return [[number, caller, text, reply] for number, caller, _, text, reply in rows]


@pytest.mark.long(60)
def test_a_day_through_the_page_leaves_the_minutes_of_the_same_day_by_plain_requests(
    desk: Program, new_desk: NewDesk, browser: Browser, site: Site
) -> None:
    day = Day(browser, site)
    day.submits(TITLE, "image.efi", 1)
    day.reviews("rita", "read it", "Open")
    day.reviews("raul", "", "Approved")
    day.copies()
    day.returns("Refused: NotListed (29).")
    day.lists_certificate()
    unsure = "no signature says that it is by a listed one"
    day.returns("Request 1 is signed.", unsure)
    browser.sees("It arrived whole.")
    day.asks_what_an_unlisting_costs()
    day.proposes_once()
    day.confirms(1, "New in force: 1 digest.", "It bars no image that is allowed today.")
    day.imports()
    new = "New in force: 1 digest and 1 generation."
    day.confirms(2, new, "It bars 1 image that is allowed today.")
    day.drops()
    day.unlists()
    day.submits("another one", "other.efi", 2, dropped=True)
    day.withdraws()
    day.judges()
    day.exports()
    rows = [line.split("\t") for line in site.minutes().decode().splitlines()]
    keys = [row[2] for row in rows if row[1] != "console"]
    # (each its own: a time of today and 64 bits)
    assert len(set(keys)) == len(keys) == len(PLAIN_DAY)
    wrong = [key for key in keys if not re.fullmatch(rf"{STAMP}T\d{{6}}Z-[0-9a-f]{{16}}", key)]
    expect(wrong, [], "keys of the page")
    path = new_desk("plain.db")
    with Server(desk, path) as server:
        does_day(server)
    plain = without_keys(desk.minutes(path))
    expect(without_keys(site.minutes()), plain, "the minutes by the page")
