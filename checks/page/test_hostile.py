"""What must not work: wrong tokens, texts that look like markup, pages of other origins."""
from __future__ import annotations

import re

from checks.page.site import Elsewhere, Site, unsigned
from checks.support.browser import Browser
from checks.support.messages import token
from checks.support.says import expect
from checks.support.waits import until

LONG = "W" * 120
MARKUP = "<img src=x onerror=\"document.title='taken'\"><b>bold</b>"
POLICY = (
    "default-src 'none'", "script-src 'self'", "style-src 'self'", "img-src 'self'",
    "connect-src 'self'", "frame-ancestors 'none'",
)
# A page of another origin that knows ann's token: it frames the page, reads, and acts by a script
# and by a form.
OTHER = """<!DOCTYPE html><title>other</title><iframe id="frame" src="BASE/"></iframe>
<form id="form" method="post" action="BASE/requests/1/withdraw" target="sink" enctype="text/plain">
</form><iframe name="sink"></iframe>
<script>
window.found = [];
const say = (what) => window.found.push(what);
const fields = {'Desk-Token': 'TOKEN', 'Desk-Key': 'other'};
const withdraw = (how, done, not) => fetch(
    'BASE/requests/1/withdraw', {method: 'POST', body: '', headers: fields, ...how}
).then(() => say(done), () => say(not));
fetch('BASE/level', {headers: {'Desk-Token': 'TOKEN'}})
    .then((answer) => say(`read ${answer.status}`), () => say('no level'));
withdraw({}, 'acted', 'no act');
withdraw({mode: 'no-cors'}, 'no-cors', 'no-cors');
document.getElementById('form').submit();
</script>"""


def test_the_pages_own_fields_forbid_scripts_frames_and_referrers_elsewhere(site: Site) -> None:
    policy = site.through_proxy("", "/").head
    expect([part for part in POLICY if part not in policy], [], f"what isn’t in {policy}")
    fields = site.through_proxy("", "/page/main.js").head
    for field in ("X-Content-Type-Options: nosniff", "Referrer-Policy: no-referrer"):
        assert field in fields, fields
    nowhere = site.through_proxy("ann", "/nowhere").json()
    expect(nowhere, {"name": "NoRoute", "refused": 53}, "/nowhere")


def test_a_wrong_token_is_refused_in_words_and_a_right_one_is_kept_nowhere(
    browser: Browser, site: Site
) -> None:
    """A reload forgets it."""
    browser.open()
    for typed, told in (
        ("short", "at least 16 characters"),
        ("a-token-of-nobody-at-all", "Nobody has that name or token."),
    ):
        browser.fill("Your token", typed)
        browser.press("Sign in")
        browser.sees(told)
    browser.sign_in(token("ann"))
    kept = "[localStorage.length, sessionStorage.length, document.cookie, location.href]"
    expect(browser.script(f"return {kept}"), [0, 0, "", f"{site.base}/"], "what the page keeps")
    assert token("ann") not in browser.script("return document.documentElement.outerHTML")
    browser.driver.refresh()
    browser.one("#token")


def test_a_title_and_a_note_are_shown_as_they_are_whatever_they_look_like(
    browser: Browser, site: Site
) -> None:
    site.submits(unsigned(101), MARKUP)
    site.reviews("raul", 1, note=MARKUP)
    browser.sign_in(token("rita"))
    for view, count in (("requests", 1), ("requests/1", 2)):
        browser.go(view)
        browser.sees(MARKUP)
        expect(browser.text().count(MARKUP), count, f"how often it stands at {view}")
        assert not browser.all("main img, main b") and browser.driver.title != "taken"


def test_a_page_of_another_origin_reads_nothing_and_changes_nothing(
    browser: Browser, site: Site
) -> None:
    """Nor does it show the page in a frame."""
    site.submits(unsigned(101), "to be withdrawn by nobody")
    before, at = site.minutes(), len(site.proxy.log)
    page = OTHER.replace("BASE", site.base).replace("TOKEN", token("ann"))
    with Elsewhere(page) as other:
        browser.driver.get(other.base)
        tried = "return window.found"
        until(30, "all is tried", lambda: len(browser.script(tried)) == 3, browser.text)
        expect(sorted(browser.script(tried)), ["no act", "no level", "no-cors"], "what it got")
        browser.driver.switch_to.frame(browser.driver.find_element("id", "frame"))
        assert not browser.all("#token")
        browser.driver.switch_to.default_content()
        form = " POST /requests/1/withdraw 401 "
        until(30, "the form is sent", lambda: form in site.proxy.log, lambda: site.proxy.log)
    answered = re.findall(r"(?:GET|POST) /(?:level|requests/1/withdraw) 200 ", site.proxy.log[at:])
    expect(answered, [], "what another origin was answered")
    expect(site.minutes(), before, "the minutes")
    # Where a proxy sets Desk-Token itself, by a client's certificate, a form still has no Desk-Key.
    answer = site.ask("ann", "POST", "/requests/1/withdraw")
    expect((answer.status, answer.json()["name"]), (400, "BadField"), "a command without a key")


def test_a_long_title_makes_no_view_wider_than_a_phone(browser: Browser, site: Site) -> None:
    site.submits(unsigned(102), LONG)
    browser.sign_in(token("rita"))
    browser.width(360)
    for view in ("requests", "requests/1"):
        browser.go(view)
        browser.sees(LONG)
        wide = "document.documentElement.scrollWidth > document.documentElement.clientWidth"
        assert not browser.script(f"return {wide}"), view
