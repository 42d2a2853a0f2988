"""An upload of seven files: one row of a list, and one look and one answer for those of them that
are chosen, each with a vote of its own."""
from __future__ import annotations

import pytest

from checks.page.conftest import shots
from checks.page.looked import looked
from checks.page.site import CERTIFICATE, Site, signed, unsigned
from checks.support.browser import Browser
from checks.support.messages import said, token
from checks.support.says import expect
from checks.support.waits import until

FILES = ["amd64", "amd64 cloud", "amd64 rt", "arm64", "arm64 16k", "arm64 cloud", "arm64 rt"]
TITLE = "linux 6.12.118-1"
# The first of the upload's requests; a signed one is before it.
FIRST = 2


@pytest.fixture
def upload(site: Site) -> Site:
    """Seven files that wait, of which one name was signed before, and another image of raul's."""
    site.does("olga", "/db/certificates", CERTIFICATE)
    site.submits(unsigned(1), "linux 6.11.9-2 / amd64")
    for name in ("rita", "raul"):
        site.reviews(name, 1)
    site.does("sid", "/requests/1/return", signed(unsigned(1)))
    for number, name in enumerate(FILES, FIRST):
        site.submits(unsigned(number, 4), f"{TITLE} / {name}")
    site.submits(unsigned(50), "another loader", "raul")
    return site


def opens(browser: Browser, title: str = f"{TITLE} 7 files") -> None:
    browser.press(title)
    browser.sees(f"{TITLE} / arm64 16k")


def votes(site: Site) -> list[str]:
    """Who voted what on each file."""
    shown = [site.shows("olga", f"/requests/{FIRST + at}") for at in range(len(FILES))]
    return [" ".join(f"{one['reviewer']}:{one['vote']}" for one in request["votes"])
            for request in shown]


def opens_and_closes(browser: Browser) -> None:
    """The row of the upload: its files are shown where it is open, and not else."""
    browser.go("inbox")
    browser.sees(f"{TITLE} 7 files", "1 of 2 yes, by raul", "Review 7 files", "another loader")
    assert f"{TITLE} / amd64" not in browser.text(), browser.text()
    expect(len(browser.all("tbody tr")), 2, "rows of the view")
    opens(browser)
    expect(len(browser.all("tbody tr")), 9, "rows of the open view")
    focus = browser.script("return document.activeElement.textContent")
    expect(focus, f"{TITLE} 7 files", "where the focus stays")
    shots(browser, "upload-inbox")
    looked(browser, "an upload in the first view")
    browser.go("lists")
    browser.go("inbox")
    browser.sees(f"{TITLE} / amd64 cloud")
    browser.press(f"{TITLE} 7 files")
    until(20, "it is closed", lambda: len(browser.all("tbody tr")) == 2, browser.text)


def test_an_upload_is_one_row_that_opens(browser: Browser, upload: Site) -> None:
    """Counts are of requests, as before."""
    for at in range(len(FILES)):
        upload.reviews("raul", FIRST + at)
    browser.sign_in(token("rita"))
    opens_and_closes(browser)
    browser.sees("Waits for you 8")
    expect(browser.texts("#views a")[0], "For you 8", "the count at the link")
    opens(browser)
    browser.press(f"{TITLE} / arm64 16k", tag="a")
    browser.sees(f"Request {FIRST + 4}", "Your vote")
    # Where reviews differ each is told; a file that is barred is told though the row is closed.
    upload.reviews("rita", FIRST)
    facts = upload.shows("otto", f"/requests/{FIRST + 1}")
    proposal = upload.proposes(facts["digest"])
    upload.does("olga", f"/proposals/{proposal}/confirm", b"")
    browser.sign_in(token("olga"))
    browser.go("requests")
    browser.press("All 9")
    browser.sees("1 with 2 yes, by raul, rita; 6 with 1 of 2 yes, by raul", "1 barred today",
                 "6 Open", "1 Approved")
    assert "Review " not in browser.text(), browser.text()
    browser.fill("Filter by title, name, number or digest", "cloud")
    browser.sees(f"{TITLE} 2 files")


def cards_are_of_their_files(browser: Browser, upload: Site) -> None:
    """Each file has a card with its facts; the first one's says what changed."""
    cards = browser.texts("section.file")
    expect([card.split("\n")[0] for card in cards], FILES, "the files that are shown")
    for card, name, at in zip(cards, FILES, range(FIRST, 9)):
        request = upload.shows("olga", f"/requests/{at}")
        lacking = [text for text in (
            f"request {at}, ", name.split()[0], request["signing"], f"{request['length']:,} bytes",
        ) if text not in card]
        expect(lacking, [], f"what the card of {name} lacks")
    expect(["changed" in card for card in cards], [True] + [False] * 6, "what is marked")


def rejects_the_one_left_out(browser: Browser, upload: Site) -> None:
    browser.press("arm64", tag="label")
    browser.press("Vote no on 1 file")
    browser.asks("Reject request 5?", "One vote of no rejects request 5 for good.")
    browser.press("Vote no")
    browser.sees("Your vote of no is in on 1 file.", "No file of this upload waits for your vote.",
                 "Next: request 9, another loader; 1 waits for you.")
    expect(votes(upload)[3], "rita:no", "the vote on the one that was left out")


def test_six_of_seven_files_are_reviewed_in_one_look(browser: Browser, upload: Site) -> None:
    """What changed since the last signed one, and what is barred, is marked; one is left out."""
    for number in (FIRST, FIRST + 1):
        upload.reviews("raul", number)
    facts = upload.shows("otto", f"/requests/{FIRST + 3}")
    proposal = upload.proposes(facts["digest"])
    upload.does("olga", f"/proposals/{proposal}/confirm", b"")
    browser.sign_in(token("rita"))
    browser.press("Review 7 files", tag="a")
    browser.sees(
        "Review 7 files", TITLE, "1 file barred today: arm64", "1 file not as signed last: amd64",
        "6 files not signed before: amd64 cloud,", "request 1, linux 6.11.9-2 / amd64",
        "grub 4, before 3 changed", "sbat 1, as before", "Barred today: its digest is revoked.",
        "Yes: 2 files are approved, since one reviewer has agreed already; for",
    )
    cards_are_of_their_files(browser, upload)
    shots(browser, "upload-review")
    looked(browser, "the review of an upload")
    browser.press("arm64", tag="label")
    browser.fill("Note on each (if you like)", "read them all")
    browser.press("Vote yes on 6 files")
    browser.asks(
        "Vote yes on these 6 requests?", "arm64 rt; 1 file left out.",
        "request 2: One reviewer has agreed already: this yes approves request 2, and",
        "request 3: One reviewer has agreed already",
    )
    assert "barred" not in browser.one("dialog").text
    browser.press("Go back")
    browser.asks_no_more()
    expect(set(votes(upload)), {"raul:yes", ""}, "the votes behind a question that was left")
    browser.press("Vote yes on 6 files", "Vote yes")
    browser.sees("Your vote of yes is in on 6 files.", "yes on request 2, amd64: Approved",
                 "yes on request 8, arm64 rt: Open", "Next: request 9, another loader",
                 "; 2 wait for you.", "Review 1 file", "Vote yes on 0 files")
    expect(votes(upload), ["raul:yes rita:yes"] * 2 + ["rita:yes", ""] + ["rita:yes"] * 3, "votes")
    note = upload.shows("olga", f"/requests/{FIRST + 6}")["votes"][0]["note"]
    expect(note, "read them all", "the note")
    rejects_the_one_left_out(browser, upload)
    expect(browser.complaints()[:4], [], "what the browser complains of")


def test_a_vote_that_is_refused_is_named_and_none_goes_out_behind_it(
    browser: Browser, upload: Site
) -> None:
    """Another file has the third number than was shown; then one is withdrawn meanwhile, and one
    voted on from elsewhere."""

    def shows(path: str) -> bytes | None:
        """What waits, the third file's SHA-256 another one."""
        if path != "/waiting":
            return None
        waiting = upload.shows("rita", "/waiting")
        for one in waiting["requests"]:
            if one["number"] == FIRST + 2:
                one["file"] = "ab" * 32
        return said(waiting)

    browser.sign_in(token("rita"))
    upload.relay.shows = shows
    browser.press("Review 7 files", tag="a")
    browser.press("Vote yes on 7 files", "Vote yes")
    browser.sees("It stopped at request 4, amd64 rt.", "Refused: Mismatch (49).",
                 "Your vote of yes is in on 2 files.", "yes on request 3, amd64 cloud: Open",
                 "Nothing was sent for arm64, arm64 16k, arm64 cloud, arm64 rt.", "Review 5 files")
    expect(votes(upload), ["rita:yes"] * 2 + [""] * 5, "the votes")
    # What is shown anew is the desk's word.
    upload.relay.shows = lambda path: None
    browser.press("Look again")
    browser.sees("Review 5 files", "Vote yes on 5 files")
    upload.does("ann", f"/requests/{FIRST + 3}/withdraw", b"")
    browser.press("Vote yes on 5 files", "Vote yes")
    browser.sees("It stopped at request 5, arm64.", "Refused: WrongState (24).",
                 "Your vote of yes is in on 1 file.", "Review 3 files")
    upload.reviews("rita", FIRST + 4)
    browser.press("Vote yes on 3 files", "Vote yes")
    browser.sees("It stopped at request 6, arm64 16k.", "Refused: AlreadyReviewed (26).",
                 "Nothing was sent for arm64 cloud, arm64 rt.", "Review 2 files")
    expect(votes(upload), ["rita:yes"] * 3 + ["", "rita:yes", "", ""], "the votes")


def test_each_vote_is_a_command_of_its_own_about_its_file(browser: Browser, upload: Site) -> None:
    """An answer that is lost is asked for again with the same key, and nothing is taken twice."""
    browser.sign_in(token("rita"))
    browser.tries_at_once()
    upload.relay.plan = ["", "lose"]
    browser.press("Review 7 files", tag="a")
    browser.press("Vote yes on 7 files", "Vote yes")
    browser.sees("Your vote of yes is in on 7 files.")
    lines = [line.split("\t") for line in upload.minutes().decode().splitlines()]
    reviews = [(words[2], words[3]) for words in lines if words[1] == "rita"][1:]
    expect([text for _, text in reviews], [f"review {at} yes " for at in range(FIRST, 9)],
           "the calls")
    expect(len({key for key, _ in reviews}), 7, "the keys")
