"""A desk that is full, of people, requests, proposals, listed and revoked entries, names of the
level, and accepted calls: the last is taken, and one more is Full. sqlite3 fills each up to one
below its limit."""
from __future__ import annotations

from typing import Protocol

import pytest

from checks.conftest import NewDesk
from checks.support.images import CERTIFICATE, PLAIN, authenticode, digest, digest_list, sha256
from checks.support.messages import PEOPLE, line, octets, ok, refused, text
from checks.support.program import Program
from checks.support.says import expect
from checks.support.server import serves
from checks.support.steps import (
    Step, again, closes, confirms, lists, minutes, named, proposes, reads, refuses, submits, takes,
)
from checks.support.tools import ran

pytestmark = [pytest.mark.needs("sqlite3"), pytest.mark.long(100)]

FULL = (1, b"", line(36))
AA, BB = named(digest("aa")), named(digest("bb"))


def blob(number: int) -> str:
    """The digest that sqlite3 makes of this number: see BLOB."""
    return f"{number:032}".encode().hex()


BLOB = "CAST(printf('%032d', i) AS BLOB)"


class Filled(Protocol):
    def __call__(self, *rows: str) -> str: ...


@pytest.fixture
def filled(new_desk: NewDesk) -> Filled:
    """A desk with more rows. Each text inserts one for each of the numbers `i`, from 1 to its first
    word."""

    def made(*rows: str) -> str:
        path = new_desk()
        script = ["PRAGMA synchronous = OFF; BEGIN;"]
        for row in rows:
            most, insert = row.split(" ", 1)
            script.append(
                "WITH RECURSIVE n(i) AS (SELECT 1 UNION ALL SELECT i + 1 FROM n"
                f" WHERE i < {most}) INSERT INTO {insert} FROM n;"
            )
        ran("sqlite3", path, given="\n".join([*script, "COMMIT;"]).encode(), seconds=200)
        return path

    return made


def test_a_desk_has_a_thousand_people(desk: Program, filled: Filled) -> None:
    path = filled(f"992 people SELECT printf('p%04d', i), 'submitter', {BLOB}")
    last, more = ("last", "signer", "k1"), ("more", "signer", "k2")
    added = (0, b"added last\n", b"")
    desk.ends(*added, "person", path, *last, given=b"last-token-000001\n")
    desk.ends(*FULL, "person", path, *more, given=b"more-token-000001\n")
    desk.ends(*FULL, "enrol", path, *more, given=f"{digest('aa')}\n".encode())
    desk.ends(*added, "person", path, *last, given=b"last-token-000001\n")
    people = {**PEOPLE, **{f"p{number:04}": "submitter" for number in range(1, 993)}}
    rows = [
        {"name": name, "role": role} for name, role in sorted({**people, "last": "signer"}.items())
    ]
    serves(desk, path, [reads("olga", "/people", ok(rows))], "1,000 people")


def shown_row(
    number: int, submitter: str, title: str, digests: tuple[str, str]
) -> dict[str, object]:
    """A request of an image of 1,024 bytes, with its file's SHA-256 and its digest."""
    file, hashed = digests
    return {
        "carried": [], "components": [], "digest": hashed, "file": file, "gap": 0, "length": 1024,
        "number": number, "returned": None, "signing": hashed, "state": "open",
        "submitter": submitter, "title": title, "votes": [],
    }


def test_a_desk_has_100_000_requests(desk: Program, filled: Filled) -> None:
    path = filled(
        "99999 requests"
        f" SELECT i, 'rosa', 'title ' || i, 1024, 0, {BLOB}, {BLOB}, X'{digest('ab')}', 'open'"
    )
    mine = shown_row(100_000, "ann", "the last", (sha256(PLAIN), authenticode(PLAIN)))
    title = ("Desk-Title", "the last")
    submitted: dict[str, object] = {"reply": "submitted", "request": 100_000}
    others = [
        shown_row(number, "rosa", f"title {number}", (blob(number), blob(number)))
        | {"signing": digest("ab")} for number in range(1, 100_000)
    ]
    steps = [
        submits("ann", "k1", PLAIN, "the last", 100_000),
        refuses(36, "ann", "k2", "/requests", PLAIN, ("Desk-Title", "more")),
        again("ann", "k1", "/requests", PLAIN, submitted, title),
        reads("ann", "/requests", ok([mine])),
        reads("rita", "/requests", ok([*others, mine])),
        reads("rita", "/requests/from/99000", ok(others[-1000:])),
        reads("rita", f"/requests/with/{digest('ab')}", ok(others[:1000])),
        reads("rita", f"/requests/with/{blob(99_999)}", ok(others[-1:])),
        reads("ann", f"/requests/with/{digest('ab')}", ok([])),
        takes(
            "ann", "k3", "/requests/100000/withdraw", b"",
            {"reply": "withdrawn", "request": 100_000},
        ),
    ]
    serves(desk, path, steps, "100,000 requests", ends=False)


# What a desk has all but one of, by rows that sqlite3 makes; then the command that takes the last
# and one that is refused, each with its key.
LAST: dict[str, tuple[tuple[str, ...], list[Step]]] = {
    "100,000 proposals": (
        ("99999 proposals SELECT i, 'otto', 'digest', 0, 0, 'open'",
         f"99999 proposal_items SELECT i, 0, 'digest', {BLOB}, '', 0"),
        [proposes("olga", "k1", "/dbx/digests", AA, 100_000),
         refuses(36, "olga", "k2", "/dbx/digests", BB), confirms("otto", "k1", 100_000, 1, 0, 0, 0),
         refuses(36, "olga", "k2", "/dbx/digests", BB)],
    ),
    "10,000 listed entries": (
        (f"5000 listed SELECT 'digest', {BLOB}, X''",
         f"4999 listed SELECT 'certificate', {BLOB}, {BLOB}"),
        [lists("olga", "k1", digest("aa")), refuses(36, "olga", "k2", "/db/digests", BB),
         refuses(36, "olga", "k2", "/db/certificates", CERTIFICATE),
         takes("olga", "k2", "/db/unlist", named(digest("aa"), kind="digest"),
               {"reply": "unlisted"}),
         takes("olga", "k3", "/db/certificates", CERTIFICATE, {"reply": "listed"})],
    ),
}


@pytest.mark.parametrize("what", LAST)
def test_a_desk_takes_the_last_and_refuses_one_more(
    desk: Program, filled: Filled, what: str
) -> None:
    made, steps = LAST[what]
    serves(desk, filled(*made), steps, what, ends=False)


def test_a_desk_revokes_100_000_digests(desk: Program, filled: Filled) -> None:
    path = filled(f"99999 revoked_digests SELECT {BLOB}")
    entries = digest_list([*(blob(number) for number in range(1, 100_000)), digest("aa")])
    steps = [
        proposes("olga", "k1", "/dbx/digests", AA, 1),
        proposes("olga", "k2", "/dbx/digests", BB, 2),
        confirms("otto", "k1", 1, 1, 0, 0, 0),
        reads("otto", "/proposals/2/impact", refused(36)),
        closes(36, "confirm", "otto", "k2", 2),
        reads("ann", "/dbx", octets(entries)),
    ]
    serves(desk, path, steps, "100,000 revoked digests", ends=False)
    desk.ends(*FULL, "impact", path, "2")


def test_a_desk_has_1_000_000_calls(desk: Program, filled: Filled) -> None:
    first = len(PEOPLE)
    path = filled(
        f"{999_999 - first} calls"
        f" SELECT i + {first}, 'olga', 'f' || i, 'unlist digest ' || i, 'unlisted'"
    )
    calls = [
        ("olga", f"f{number}", f"unlist digest {number}", "unlisted")
        for number in range(1, 1_000_000 - first)
    ]
    calls.append(("olga", "k1", f"list-digest {digest('aa')}", "listed"))
    steps = [
        lists("olga", "k1", digest("aa")),
        refuses(36, "olga", "k2", "/db/digests", BB),
        again("olga", "k1", "/db/digests", AA, {"reply": "listed"}),
        reads("olga", f"/minutes/{first + 1}", text(minutes(first + 1, *calls[:1_000]))),
        reads("olga", "/minutes/999001", text(minutes(999_001, *calls[-1_000:]))),
        reads("olga", "/minutes/999002", text(minutes(999_002, *calls[-999:]))),
        reads("olga", "/minutes/1000000", text(minutes(1_000_000, calls[-1]))),
        reads("olga", "/minutes/1000001", text("")),
    ]
    serves(desk, path, steps, "1,000,000 calls", ends=False)
    desk.ends(*FULL, "person", path, "more", "signer", "k1", given=b"more-token-000001\n")
    written = desk.minutes(path)
    wanted = minutes(first + 1, *calls).encode()[-100_000:]
    expect(written[-100_000:], wanted, "the last of 1,000,000 minutes")
    expect(written.count(b"\n"), 1_000_000, "1,000,000 minutes")
