"""The sites of packaging/ are whole: nginx takes each, alone or beside the others, and says
nothing; and what they pack."""
from __future__ import annotations

import subprocess

import pytest

from checks.proxy.site import Proxied, Site
from checks.support.images import SIGNED
from checks.support.says import expect

CERTIFICATES, MAINTENANCE = "nginx-certificates.conf", "nginx-maintenance.conf"


def quiet(site: Site) -> None:
    """nginx finds no fault and no doubt in what was written."""
    words = f"nginx -t -q -p {site.room}/ -e {site.room}/error.log -c nginx.conf".split()
    done = subprocess.run(words, capture_output=True, timeout=60, check=False)
    expect((done.returncode, done.stdout, done.stderr), (0, b"", b""), "nginx -t")
    expect(site.nginx.errors, "", "error.log")


@pytest.mark.parametrize(
    "sites", ((), (CERTIFICATES,), (MAINTENANCE,), (CERTIFICATES, MAINTENANCE))
)
def test_nginx_takes_the_sites_and_says_nothing(proxied: Proxied, sites: tuple[str, ...]) -> None:
    quiet(proxied(sites=sites, people=""))


def test_the_site_for_people_stands_beside_the_names_of_the_other(proxied: Proxied) -> None:
    site = proxied(sites=(CERTIFICATES,), people="")
    other = site.room / "site-nginx.conf"
    other.write_text(other.read_text().split("\nserver {", 1)[0])
    quiet(site)


def test_the_pages_files_are_packed_and_no_answer_of_the_desk(proxied: Proxied) -> None:
    """Where nginx packs by itself, too. (The minutes and the requests are long enough.)"""
    site = proxied()
    for number in range(8):
        title = ("-H", f"Desk-Title: a loader {number}")
        reply = {"reply": "submitted", "request": number + 1}
        site.accepts("ann", f"k{number}", "/requests", SIGNED, reply, *title)
    site.nginx.stop()
    site.nginx.more += " gzip on; gzip_types *;"
    site.nginx.start()
    asks = ("-H", "Accept-Encoding: gzip")
    for who, path, is_packed in (
        (None, "/", True), (None, "/page/main.js", True), (None, "/page/wire/refusals.json", True),
        ("rita", "/requests", False), ("rita", "/requests/from/1", False),
        ("olga", "/minutes/1", False), ("rita", "/waiting", False),
    ):
        found = site.ask(who, path, *asks)
        packed = "content-encoding: gzip" in found.fields.lower()
        expect((found.status, packed), (200, is_packed), path)
