"""deskctl says where what a caller saw of a desk last is gone: one that was restored, or a promoted
standby."""
from __future__ import annotations

from typing import Callable

from checks.support.between import Between, shown
from checks.support.deskctl import Office
from checks.support.images import PLAIN
from checks.support.messages import posted
from checks.support.says import expect
from checks.support.server import Server
from checks.support.steps import vote

LOST = "This desk isn't the one that you looked at, or it lost its last calls: "
ROLES = ("ann", "rita", "sid", "olga")


def looks(office: Office, name: str, line: str = "inbox") -> str:
    """What is said of it, if anything."""
    found = office[name].run(line)
    assert found.status == 0, found
    return found.err


def posts(office: Office, port: int, name: str, path: str, body: bytes, *fields: str) -> None:
    given = posted(name, f"key-{path}", path, body, *[("Desk-Title", one) for one in fields])
    own, office.server.port = office.server.port, port
    expect(office.server.ask(given)[:12], b"HTTP/1.1 200", f"{name} posts to {path}")
    office.server.port = own


def test_whoever_looks_hears_once_that_calls_are_gone(
    office: Office, between: Between, serve: Callable[..., Server]
) -> None:
    posts(office, office.server.port, "ann", "/requests", PLAIN, "shim")
    older = serve(office.desk.copied(office.server.desk, "older.db"))
    posts(office, office.server.port, "rita", "/requests/1/review", vote("yes"))
    count = office.minutes().count(b"\n")
    for name in ROLES:
        office[name].at(between.url)
        assert [looks(office, name) for _ in range(2)] == ["", ""]
        office[name].does("watch --once")
    between.desk = older.port
    for name in ROLES:
        what = "change 2" if name == "ann" else f"call {count}"
        said = f"deskctl: {LOST}{what} of those that you saw isn't there any more.\n"
        assert [looks(office, name) for _ in range(2)] == [said, ""], name
        assert [looks(office, name, "watch --once") for _ in range(2)] == [said, ""], name


def test_an_officer_hears_that_the_last_line_is_another_one(
    office: Office, between: Between
) -> None:
    """Whatever came behind it."""
    lines = [f"{at}\tx\tx\tx\tx\n".encode() for at in range(1, 3001)]
    officer = office["olga"].at(between.url)
    for changes, odd in ((900, 0), (901, 0), (2500, 901), (2500, 0), (2501, 2500), (2501, 0)):
        if odd:
            lines[odd - 1] = f"{odd}\ty\ty\ty\ty\n".encode()
        between.history = lines[:changes]
        between.shows["/changes"] = shown({"changes": changes})
        said = officer.run("inbox").err
        assert said == (f"deskctl: {LOST}call {odd} of those that you saw isn't there any more.\n"
                        if odd else ""), (changes, said)
