"""Forms: what is wrong stands at its field, is heard with it, and goes as the field changes. Whom
the site knows by a certificate signs in without a press."""
from __future__ import annotations

from typing import Any

import pytest

from checks.page.looked import looked
from checks.page.site import Site, unsigned
from checks.support.browser import Browser
from checks.support.messages import token
from checks.support.says import expect, fail

# Who, on which view, presses which button, and what is then wrong, by the labels of the fields.
FORMS = [
    ("ann", "submit", "Submit", {
        "Title": "Give it a title.", "EFI image": "Choose the image’s file."}),
    ("rita", "check", "Check it", {"EFI image": "Choose the image’s file."}),
    ("sid", "requests/1", "Return it", {"Signed file": "Choose the signed file."}),
    ("olga", "propose", "Propose", {"Digests, one a line": "Give a digest."}),
    ("olga", "propose/certificate", "Propose", {
        "Or the SHA-256 of its TBSCertificate": "Choose a certificate’s file, or give 64"}),
    ("olga", "propose/level", "Propose", {
        "Component": "A component’s name has no space", "Generation": "A generation is a number"}),
    ("olga", "propose/import", "Propose this import", {"File": "Choose a file."}),
    ("olga", "lists", "List this certificate", {"Certificate": "Choose a certificate’s file."}),
    ("olga", "lists", "List this digest", {"Digest of an image": "A digest is 64 hexadecimal"}),
    ("olga", "history", "Ask why", {"Why? A SHA-256, or a component": "A SHA-256 has 64"}),
]


# (behind a click a browser shows it at fields of text alone)
SEEN = """
const one = document.activeElement;
return one.type === 'file' || getComputedStyle(one).outlineWidth === '3px';
"""


def heard(browser: Browser) -> dict[str, tuple[str, bool]]:
    """What is wrong, as the accessibility tree has it: each invalid field's name with its
    description, and whether it has the focus."""
    found = {}
    for node in browser.devtools("Accessibility.getFullAXTree")["nodes"]:
        told: dict[str, Any] = {one["name"]: one["value"].get("value")
                                for one in node.get("properties", [])}
        if told.get("invalid") == "true":
            description = str(node.get("description", {}).get("value", ""))
            found[node["name"]["value"].split(":")[0]] = (description, bool(told.get("focused")))
    return found


def says(browser: Browser, faults: dict[str, str]) -> None:
    found = heard(browser)
    first = next(iter(faults))
    for label, fault in faults.items():
        at = next((one for one in found if one.startswith(label)), "")
        description, has_focus = found.get(at, ("", False))
        if fault not in description or has_focus != (label == first):
            fail(f"“{fault}” isn’t heard at {label}, or the focus is wrong: {found}")
    expect(len(found), len(faults), f"the fields with a fault: {found}")
    assert browser.script(SEEN), f"the focus isn’t seen at {first}"


@pytest.mark.long(60)
def test_what_is_wrong_stands_at_its_field_until_that_changes(browser: Browser, site: Site) -> None:
    site.submits(unsigned(120), "to be returned")
    for name in ("rita", "raul"):
        site.reviews(name, 1)
    browser.open()
    expect(browser.one("#token").get_attribute("autocomplete"), "current-password", "the token’s")
    browser.fill("Your token", "too short")
    browser.press("Sign in")
    says(browser, {"Your token": "A token has no spaces"})
    person = ""
    for name, view, button, faults in FORMS:
        if name != person:
            browser.sign_in(token(name))
            person = name
        browser.go("inbox")
        browser.go(view)
        if view == "propose/level":
            browser.sees("The level has the stamp")
        if view == "lists":
            browser.press("List a certificate or a digest", tag="summary")
        browser.press(button)
        says(browser, faults)
    looked(browser, "a form with a fault")
    browser.fill("Why? A SHA-256, or a component", "grub")
    expect(heard(browser), {}, "what is wrong once the field changes")


def test_whom_the_site_knows_by_a_certificate_signs_in_without_a_press(
    browser: Browser, site: Site
) -> None:
    """The proxy knows rita, and sends her token. Once signed out she stays so."""
    site.relay.token = token("rita")
    browser.driver.get(f"{site.base}/#/requests")
    browser.sees("rita, reviewer", "Requests")
    browser.press("Sign out")
    browser.one("#token")
    browser.press("Sign in")
    browser.sees("rita, reviewer")
