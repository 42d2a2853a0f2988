"""A token that leaked is nobody's, whatever stands about it."""
from __future__ import annotations

import pytest

from checks.proxy.site import LEVEL, Answer, Proxied, Site, refusal, with_oscar
from checks.support.images import digest
from checks.support.messages import request, token
from checks.support.nginx import SITE
from checks.support.program import Program, copy_of
from checks.support.says import expect
from checks.support.steps import named

LEAKED, GOOD = token("otto"), token("olga")
FORMS = (
    "{}", "{}\t", "\t{}", "\t\t{} \t ", "{} \t", "{}\1", "\1{}", "{},", "x {}", "{0};{0}", '"{}"'
)


def sends(site: Site, path: str, *tokens: tuple[str, str], confirms: bool = False) -> Answer:
    """With these fields."""
    words = [word for name, text in tokens for word in ("-H", f"{name}: {text}")]
    more = ["-H", "Desk-Key: leaked", "-d", ""] if confirms else []
    return site.sent(f"https://{SITE}:{site.nginx.port}{path}", *words, *more)


@pytest.fixture
def leaked(site: Site) -> Site:
    """A proposal of olga's, and otto's token in the list."""
    site.post("olga", "k", "/dbx/digests", named(digest("aa")))
    site.lists("leaked", (LEAKED, ""))
    site.nginx.reload()
    return site


CONFIRM = "/proposals/1/confirm"


def is_open(site: Site) -> None:
    assert b'"state":"open"' in site.ask("olga", "/proposals/1").body


def test_a_leaked_token_is_nobodys_in_any_form(leaked: Site) -> None:
    for form in FORMS:
        given = ("Desk-Token", form.format(LEAKED))
        expect(sends(leaked, "/report", given)[:2], refusal(20), repr(form))
        expect(sends(leaked, CONFIRM, given, confirms=True)[:2], refusal(20), repr(form))
    is_open(leaked)


@pytest.mark.parametrize("second", ("Desk-Token", "desk-token", "DESK-TOKEN", "Desk_Token"))
def test_of_two_fields_the_one_that_is_asked_about_is_sent(leaked: Site, second: str) -> None:
    found = sends(leaked, "/report", ("Desk-Token", LEAKED), (second, GOOD))
    expect(found[:2], refusal(20), f"{second} behind a leaked token")
    found = sends(leaked, CONFIRM, ("Desk-Token", GOOD), (second, LEAKED), confirms=True)
    assert found[:2] in (refusal(20), refusal(38)), found
    is_open(leaked)


@pytest.mark.parametrize("form", ("{}\t", "\t{}", "{}\1"))
def test_other_bytes_about_a_good_token_make_it_none(leaked: Site, form: str) -> None:
    """So nobody has a count for each form."""
    expect(sends(leaked, "/level", ("Desk-Token", form.format(GOOD)))[:2], refusal(20), form)


@pytest.mark.parametrize("mark", ('"', "\\"))
def test_a_token_that_the_list_cannot_name_is_nobodys(
    desk: Program, proxied: Proxied, mark: str
) -> None:
    """Though the desk knows it: else it would stay good once it leaks."""
    path = copy_of(with_oscar(desk, "marks.db"), desk.at("desk.db"))
    given = f"quoted{mark}E-token-of-otto"
    desk.gives("person", path, "quoted", "officer", "k-quoted", given=f"{given}\n".encode())
    site = proxied(path=path)
    asked = request("GET", "/level", [("Desk-Token", given)])
    assert b" 200 OK" in site.server.ask(asked)
    expect(sends(site, "/level", ("Desk-Token", given))[:2], refusal(20), given)


def test_a_backup_of_the_list_is_not_read(leaked: Site) -> None:
    assert leaked.ask("otto", "/level").status == 401
    at = leaked.room / "kovelamiru-desk.leaked"
    at.rename(leaked.room / "kovelamiru-desk.leaked~")
    at.touch()
    leaked.nginx.reload()
    expect(leaked.ask("otto", "/level")[:2], (200, LEVEL), "a token that is no more in the list")
