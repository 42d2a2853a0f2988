"""10,000 requests, and 100,000 calls: the first screen comes within a second of its bytes, and the
page never stands still for long. What the desk shows of them is made here.

Whatever else the machine does takes its time too, so the best of three tries counts."""
from __future__ import annotations

import functools
import re
import time
from typing import Callable, Iterator

import pytest

from checks.page.site import Site, unsigned
from checks.support.browser import Browser
from checks.support.images import sha256
from checks.support.messages import said, token
from checks.support.says import expect
from checks.support.steps import shown
from checks.support.waits import until

REQUESTS, CALLS = 10_000, 100_000
# How late the first screen may be, in milliseconds, and how long the page may stand still.
LATE, STILL = 1000, {"requests": 1000, "history": 500}
# Notes when the first row stood, and the longest time between two frames.
WATCH = """
const row = arguments[0];
performance.clearResourceTimings();
window.watched = {row: 0, gap: 0, last: performance.now()};
const frame = () => {
    const now = performance.now();
    watched.gap = Math.max(watched.gap, now - watched.last);
    watched.last = now;
    requestAnimationFrame(frame);
};
requestAnimationFrame(frame);
new MutationObserver(() => {
    if (watched.row || !document.querySelector(row)) return;
    requestAnimationFrame(() => (watched.row ||= performance.now()));
}).observe(document.body, {childList: true, subtree: true});
"""
# All calls were put into words, the first one last, while nothing else was to be done; a search
# types a letter after the other, and waits for what the last one finds.
IN_WORDS = """return import('/page/desk/calls.js').then(({ minutes }) =>
    minutes().words[0] !== undefined)"""
SEARCH = """return (async (text, told) => {
const field = document.querySelector('input[type=search]');
for (let at = 1; at <= text.length; at += 1) {
    field.value = text.slice(0, at);
    field.dispatchEvent(new Event('input'));
    await new Promise((typed) => setTimeout(typed, 20));
}
const last = performance.now();
while (!document.body.textContent.includes(told)) {
    await new Promise((drawn) => setTimeout(drawn, 5));
}
return performance.now() - last;
})(...arguments)"""
ENDED = "return performance.getEntriesByName(location.origin + arguments[0]).pop().responseEnd"
Tried = tuple[float, float]


def first_screen(browser: Browser, view: str, row: str, told: str, path: str) -> float:
    """After how many milliseconds the first row stood, once what is read at the path was whole."""
    browser.go("check")
    browser.script(WATCH, row)
    browser.script("location.hash = arguments[0]", f"#/{view}")
    browser.sees(told, seconds=120)
    stood = browser.has("the first row is noted", "return watched.row", 60)
    return float(stood - browser.script(ENDED, path))


def still(browser: Browser) -> float:
    return float(browser.script("return watched.gap"))


def searched(browser: Browser, text: str, count: str) -> float:
    """After how many milliseconds so many calls are found, of a search that is typed anew."""
    return float(browser.script(SEARCH, text, f"{count} of {CALLS:,} calls."))


def in_time(view: str, tries: Callable[[], Tried]) -> None:
    """One of three tries is in time."""
    found = []
    for _ in range(3):
        late, gap = tries()
        found.append(f"{late:.0f} ms late, still for {gap:.0f} ms")
        if late <= LATE and gap <= STILL[view]:
            return
    expect(found, f"at most {LATE} and {STILL[view]} ms", f"the first screen of {view}")


def made_requests(path: str) -> bytes | None:
    """What GET /requests/from/N gives, in the desk's form."""
    asked = re.fullmatch("/requests/from/([0-9]+)", path)
    if not asked:
        return None
    first = int(asked[1])
    return said([
        shown(number, "ann", f"package {number}", "open", [], image=unsigned(number))
        for number in range(first, min(first + 1000, REQUESTS + 1))
    ])


@pytest.mark.long(60)
def test_ten_thousand_requests_are_shown_in_time(browser: Browser, site: Site) -> None:
    site.relay.shows = functools.cache(made_requests)
    browser.sign_in(token("olga"))

    def tries() -> Tried:
        told = f"of {REQUESTS:,}"
        late = first_screen(browser, "requests", "td.title a", told, "/requests/from/1")
        return late, still(browser)

    in_time("requests", tries)
    expect(len(browser.all("tbody tr")), 100, "the rows of the first screen")
    browser.press("Last")
    browser.sees(f"9,901 to 10,000 of {REQUESTS:,}")
    browser.fill("Filter by title, name, number or digest", "package 7777")
    browser.sees("package 7777")
    expect(len(browser.all("tbody tr")), 1, "the rows that the filter leaves")


def calls() -> Iterator[bytes]:
    """Lines of the minutes, six for each image."""
    number = 0
    while True:
        image, file = (sha256(f"{what} {number // 6 + 1}".encode()) for what in ("image", "file"))
        each = number // 6 + 1
        facts = f"951296 0 {file} {image} {image} - 1:sbat,4:shim,1:shim.debian"
        for caller, text, reply in (
            ("ann", f"submit {facts} shim 16.1-{each} amd64", f"submitted {each}"),
            ("rita", f"review {each} yes built it again: the same bytes", f"reviewed {each} open"),
            ("raul", f"review {each} yes ", f"reviewed {each} approved"),
            ("sid", f"return {each} {facts}", f"returned {each}"),
            ("olga", f"revoke-digest {image}", f"proposed {each}"),
            ("otto", f"confirm {each}", f"confirmed {each} 1 0 0 0"),
        ):
            number += 1
            when = time.strftime("%Y%m%dT%H%M%SZ", time.gmtime(1_700_000_000 + 60 * number))
            row = (str(number), caller, f"{when}-{number:016x}", text, reply)
            yield ("\t".join(row) + "\n").encode()


@pytest.mark.long(60)
def test_a_hundred_thousand_calls_are_shown_filtered_and_asked_about_in_time(
    browser: Browser, site: Site
) -> None:
    """By a person who signs in anew for each try."""
    lines = [line for _, line in zip(range(CALLS), calls())]

    def shows(path: str) -> bytes | None:
        if path == "/report":
            return b"people                  7\ncommands                %d\n" % CALLS
        if not path.startswith("/minutes/"):
            return None
        first = int(path.removeprefix("/minutes/")) - 1
        return b"".join(lines[first : first + 1000])

    def tries() -> Tried:
        browser.sign_in(token("olga"))
        newest = f"/minutes/{CALLS - 999}"
        late = first_screen(browser, "history", "td.words", f"{CALLS:,} calls.", newest)
        label = "Filter by text, name or digest"
        browser.has("each call is in words", IN_WORDS, 60)
        late = max(late, searched(browser, "voted yes on request 777, now approved", "1"))
        browser.sees(f"1 of {CALLS:,} calls.")
        browser.fill(label, "")
        until(30, "100 calls", lambda: len(browser.all("tbody tr")) == 100, browser.text)
        browser.fill("Why? A SHA-256, or a component", sha256(b"image 9000"))
        browser.press("Ask why")
        browser.sees("is revoked by proposal 9000 (call 54000).", "shim 16.1-9000 amd64")
        return late, still(browser)

    site.relay.shows = shows
    in_time("history", tries)
