"""What a stranger gets, what is too long, and what a closed site and that of maintenance say."""
from __future__ import annotations

import pytest

from checks.proxy.site import AT_ONCE, LEVEL, Proxied, Site, refusal
from checks.support.images import digest
from checks.support.messages import token
from checks.support.says import expect
from checks.support.steps import named
from checks.support.tools import ROOT
from checks.support.waits import until
from checks.support.wire import filled, wire

MOST_IMAGE, MOST_BODY = 134_217_728, 4_194_304


def test_nothing_of_a_strangers_body_is_kept(site: Site) -> None:
    longest, four = site.of_size("longest", MOST_IMAGE), site.of_size("four", 4_000_000)
    before = site.kept()
    found = site.ask("nobody", "/verdict", *AT_ONCE, "--data-binary", longest)
    expect(found[:2], refusal(20), "a stranger's long body")
    found.strictly()
    assert "WWW-Authenticate: Desk" in found.fields
    for _ in range(10):
        words = (*AT_ONCE, "-H", "Desk-Key: k", "--data-binary", four)
        found = site.ask("nobody", "/requests", *words)
        expect(found[:2], refusal(20), "a stranger's body")
    for method in ("PUT", "DELETE", "OPTIONS", "PATCH"):
        found = site.ask("ann", "/requests", *AT_ONCE, "-X", method, "--data-binary", four)
        expect(found[:2], refusal(54), method)
        found.strictly()
        assert "Allow: GET, POST" in found.fields
    expect(site.kept(), before, "the time of the last file of a body")
    words = ("-H", "Desk-Key: k", "-H", "Desk-Title: long", "--data-binary", longest)
    expect(site.ask("ann", "/requests", *words)[:2], refusal(2), "zeros as an image")
    assert site.kept() != before, "nobody's body was ever kept: this sees none"


@pytest.mark.parametrize("path, most", (("/dbx/digests", MOST_BODY), ("/requests", MOST_IMAGE)))
def test_a_body_that_is_too_long_is_refused(site: Site, path: str, most: int) -> None:
    words = ("-H", "Desk-Key: k", "-H", "Desk-Title: long", "--data-binary")
    assert site.ask("olga", path, *words, site.of_size("body", most)).status != 413
    assert site.ask("olga", path, *words, site.of_size("body", most + 1)).status == 413


def test_each_response_forbids_http_without_tls(site: Site) -> None:
    for who, path, words in (
        ("olga", "/", ()), ("olga", "/page/main.js", ()), ("olga", "/level", ()),
        ("olga", "/nowhere", ()), ("nobody", "/level", ()), ("olga", "/level", ("-X", "PUT")),
        ("olga", "/no-where", ()),
    ):
        site.ask(who, path, *words).strictly()


def test_each_file_of_the_page_is_there(site: Site) -> None:
    """Each has a name that the logs take for no token."""
    files = [one for one in (ROOT / "page").rglob("*") if one.suffix in (".js", ".css", ".html")]
    words = []
    for one in files:
        words += ["-o", "/dev/null", f"{site.nginx.base}/{one.relative_to(ROOT)}"]
    assert len(files) > 50
    expect(site.flood([words]), {200: len(files)}, "its files")


def test_each_path_of_the_desks_goes_to_it(site: Site) -> None:
    paths = wire("openapi")["paths"]
    assert len(paths) > 30
    for path in paths:
        found = site.ask("olga", filled(path, "100000"))
        assert not found.body.startswith(b"<html>"), (path, found)


def test_a_token_in_a_path_is_in_no_log(site: Site) -> None:
    """Also where it is refused as one of too many; the fixture looks."""
    text = token("ann")
    paths = (text, f"page/{text}", f"page/views/{text}.js", f"level?{text}", f"level%2F{text}",
             f"requests/{text}/review", f"%6Cevel/{text}")
    for path in paths:
        expect(site.ask("olga", f"/{path}").status, 404, path)
    words = ["-Z", "--parallel-max", "10", "-o", "/dev/null"]
    clients = [[*words, f"{site.nginx.base}/{path}#[1-30]"] for path in paths]
    expect(set(site.flood(clients)), {404}, "many")


def test_the_log_has_no_digest_that_is_searched_for(site: Site) -> None:
    """A token of `openssl rand -hex 32` has its form. (error.log has raw paths.)"""
    digests = ["ab" * 32, "AB" * 32]
    for one in digests:
        expect(site.ask("olga", f"/requests/with/{one}").body, b"[]", one)
    line = " GET /requests/with/ 200 "
    until(10, "both in the log", lambda: site.nginx.log.count(line) == 2, lambda: site.nginx.log)
    expect([one for one in digests if one in site.nginx.log], [], "digests in the log")


def test_a_closed_site_answers_nobody_and_keeps_nothing(site: Site) -> None:
    """At once, also where nginx remembers which files there are."""
    site.nginx.stop()
    site.nginx.more += " open_file_cache max=1000; open_file_cache_errors on;"
    site.nginx.start()
    expect(site.ask("olga", "/level")[:2], (200, LEVEL), "an open site")
    closed, before = site.room / "kovelamiru-desk.closed", site.kept()
    closed.touch()
    for path in ("/", "/page/main.js", "/level"):
        assert site.ask("olga", path).status == 503
    longest = site.of_size("longest", MOST_IMAGE)
    words = (*AT_ONCE, "-H", "Desk-Key: k", "--data-binary", longest)
    assert site.ask("olga", "/dbx/digests", *words).status == 503
    expect(site.kept(), before, "the time of the last file of a body")
    closed.unlink()
    expect(site.ask("olga", "/level")[:2], (200, LEVEL), "a site that is open again")


def test_the_site_of_maintenance_is_the_way_in_without_a_limit_of_a_token(proxied: Proxied) -> None:
    site = proxied(sites=("nginx-maintenance.conf",))
    (site.room / "kovelamiru-desk.closed").touch()
    back = site.nginx.back
    assert site.ask("olga", "/level").status == 503
    expect(site.ask("nobody", "/level", port=back)[:2], refusal(20), "a stranger")
    expect(site.ask("olga", "/level", port=back)[:2], (200, LEVEL), "the level")
    body = named(digest("aa")).decode()
    words = ("-H", "Desk-Key: k", "--data-binary", body)
    assert site.ask("olga", "/dbx/digests", *words, port=back).status == 200
    for _ in range(20):
        found = site.ask("oscar", "/db/digests", "-d", "x", port=back)
        expect(found[:2], refusal(51), "a list of entries that are listed again")
