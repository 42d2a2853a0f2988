"""Rows that no desk writes, put into a closed desk's file.

Into each table sqlite3 puts such a row: a role, a state, a kind or a vote that isn't one, a digest
of one byte, a name or a key that isn't in its form, a generation of 0, a count below 0, a number or
a place that leaves a gap, a call's text or reply that says something else. A request or a
subcommand that needs it is Store, ends the program with status 3, and changes nothing; an export
has written what stands before the row. Without the row each request is answered, and no subcommand
fails so. To each subcommand a row or a view that marks no desk is NotADesk, an unknown version is
Version, and `init` finds that the names are taken."""
from __future__ import annotations

import contextlib
import sqlite3
from pathlib import Path
from typing import NamedTuple

import pytest

from checks.support.images import (
    CERTIFICATE, OWNER, PLAIN, TABLE, authenticode, certificate_list, digest, digest_list, sha256,
    with_table, with_text
)
from checks.support.messages import got, posted, response, said, token
from checks.support.program import Program, Ran, copy_of, dump
from checks.support.says import expect
from checks.support.server import Server
from checks.support.steps import (
    confirms, lists, named, proposes, raising, reason, returns, reviews, submits, takes, vote
)
from checks.support.wire import filled, wire

pytestmark = pytest.mark.needs("sqlite3")

STORE, LINE = response(503, said({"name": "Store", "refused": 41})), b"device 41 Store\n"
AA, BB, CC, DD = (digest(one) for one in ("aa", "bb", "cc", "dd"))
IMAGE = with_text(PLAIN, b"sbat,1,a,b,1,u\nshim,4,a,b,1,u\n")
HASHED = authenticode(IMAGE)
CSV = f"kind,value,generation\nx509_sha256,{CC},\nx509_sha256,{DD},\n".encode()
RETURN = returns("sid", "k1", 1, with_table(IMAGE, TABLE))
# The day before: requests of an image, votes, a listing, a returned file, a raised level, revoked
# digests and certificates, and an open proposal of that image's digest.
DAY = [
    submits("ann", "k1", IMAGE, "A", 1), submits("rita", "k1", PLAIN, "B", 2),
    reviews("rita", "k2", 1, "yes", "open"), reviews("raul", "k1", 1, "yes", "approved"),
    lists("olga", "k1", HASHED), RETURN,
    proposes("olga", "k2", "/level", raising("shim", 3, 2024010100), 1),
    confirms("otto", "k1", 1, 0, 0, 1, 0), proposes("olga", "k3", "/dbx/digests", named(AA), 2),
    confirms("otto", "k2", 2, 1, 0, 0, 0), proposes("olga", "k4", "/dbx/digests", named(BB), 3),
    confirms("otto", "k3", 3, 1, 0, 0, 0), proposes("olga", "k5", "/dbx/digests", named(HASHED), 4),
    takes("olga", "k6", "/db/digests", named(AA), {"reply": "listed"}),
    proposes("olga", "k7", "/imports/csv", CSV, 5), confirms("otto", "k4", 5, 0, 2, 0, 0)
]
REVIEW = posted("rosa", "new", "/requests/2/review", vote("yes"))
WITHDRAW = posted("rita", "new", "/requests/2/withdraw", b"")
CONFIRM = posted("otto", "new", "/proposals/4/confirm", b"")
DROP = posted("otto", "new", "/proposals/4/drop", b"")
EXPLAIN = posted("otto", "new", "/proposals/4/explain", reason("lost"))
SHOWN = [got("ann", f"/requests{one}") for one in ("", "/1", f"/with/{HASHED}")]
LISTING = posted("olga", "new", "/db/digests", named(BB))
VERDICT = posted("ann", "unused", "/verdict", IMAGE)
ROUTES = [
    (method, path) for path, has in wire("openapi")["paths"].items() for method in has
    if method in ("get", "post")
]
# A request of each route, which needs its caller's row, and which the desk answers with 200: of its
# fourth proposal, and of the first of what else has a number.
EACH = [
    *(
        got("olga", filled(path, "4" if "proposals" in path else "1", HASHED))
        for method, path in ROUTES if method == "get"
    ),
    posted("ann", "new", "/requests", PLAIN, ("Desk-Title", "C")), REVIEW, WITHDRAW, RETURN.given,
    posted("olga", "new", "/db/certificates", CERTIFICATE), LISTING,
    posted("olga", "new", "/db/unlist", named(AA, kind="digest")),
    posted("olga", "new", "/dbx/digests", named(CC)),
    posted("olga", "new", "/dbx/certificates", named(AA)),
    posted("olga", "new", "/level", raising("shim", 4, 2024010101)),
    posted("olga", "new", "/imports/dbx", digest_list([CC])),
    posted("olga", "new", "/imports/csv", CSV),
    posted("olga", "new", "/imports/level", b"sbat,1,2024010101\nshim,4\n"), CONFIRM, DROP,
    EXPLAIN, VERDICT,
    posted("ann", "unused", "/facts", IMAGE)
]
# What `person` and `enrol` read.
TYPED = {
    "person": f"{token('eva')}\n".encode(), "enrol": f"{sha256(token('eva').encode())}\n".encode()
}


class Row(NamedTuple):
    """A change of the file in SQL, the requests that need what it spoils, and the words of such
    subcommands, with what each writes before; `DB`, `IMAGE` and `MINUTES` are files, the last one
    of the desk's own."""

    sql: str
    requests: list[bytes]
    runs: dict[str, bytes] = {}


def adds(name: str, key: str) -> dict[str, bytes]:
    """The words that add a person, who may be there."""
    return {f"{subcommand} DB {name} submitter {key}": b"" for subcommand in TYPED}


FOLLOWS = {"follow DB OWNER MINUTES": b""}
# (of all subcommands `follow` alone reads `migrated`)
ROWS = [
    Row("UPDATE people SET role = 'king'", EACH, adds("rosa", "new")),
    Row(
        "UPDATE people SET role = 'king' WHERE name = 'rosa'", [got("olga", "/people")],
        adds("rosa", "new")
    ),
    Row(
        "UPDATE people SET token = x'02' WHERE name = 'rosa'", [got("olga", "/people")],
        adds("rosa", "new")
    ),
    Row("UPDATE calls SET reply = 'taken' WHERE caller = 'ann'", [DAY[0].given]),
    Row("UPDATE calls SET reply = 'taken' WHERE caller = 'console'", [], adds("rosa", "k-rosa")),
    Row("UPDATE calls SET no = 24 WHERE no = 23", [LISTING], adds("eva", "new")),
    Row("UPDATE calls SET no = -1 WHERE no = 23", [], {"minutes DB": b""}),
    Row("UPDATE calls SET key = 'a key' WHERE no = 3", [got("olga", "/minutes/1")], FOLLOWS),
    Row(
        "UPDATE calls SET text = 'list-certificate ' || text WHERE caller = 'ann'", [],
        {"shim DB": digest_list([AA, BB])}
    ),
    Row(
        "UPDATE proposals SET kind = 'king' WHERE no = 4",
        [CONFIRM, DROP, EXPLAIN, got("otto", "/proposals/4")], {"impact DB 4": b""}
    ),
    Row(
        "UPDATE proposals SET state = 'closed' WHERE no = 4", [CONFIRM, got("otto", "/proposals")],
        {"impact DB 4": b""}
    ),
    Row(
        "UPDATE proposal_items SET place = 1 WHERE proposal = 4",
        [CONFIRM, got("otto", "/proposals/4")], {"impact DB 4": b""}
    ),
    Row(
        "UPDATE proposal_items SET digest = x'02' WHERE proposal = 4", [CONFIRM, DROP],
        {"impact DB 4": b""}
    ),
    Row(
        "UPDATE calls SET text = 'submit ' || text WHERE caller = 'ann'",
        [got("otto", "/proposals/4/impact")], {"impact DB 4": b""}
    ),
    Row("UPDATE requests SET state = 'opened' WHERE no = 1", SHOWN, {"impact DB 4": b""}),
    Row("UPDATE requests SET signing = x'02'", [REVIEW, WITHDRAW, RETURN.given]),
    Row("INSERT INTO request_certificates (request, digest) VALUES (1, x'01')", SHOWN),
    Row("UPDATE request_components SET place = 2 WHERE place = 1", [got("ann", "/requests/1")]),
    Row("UPDATE votes SET vote = 'perhaps'", [*SHOWN, RETURN.given]),
    Row("UPDATE returns SET digest = x'02'", SHOWN),
    Row("UPDATE returns SET signer = 'Sid'", SHOWN),
    Row(
        "UPDATE components SET generation = 0", [VERDICT, got("ann", "/level")],
        {"verdict DB IMAGE": b"", "level DB": b"sbat,1,2024010100\n", **FOLLOWS}
    ),
    Row(
        "UPDATE revoked_digests SET digest = x'bb' WHERE digest > x'ba'", [got("ann", "/dbx")],
        {"dbx DB": digest_list([AA, BB])[:76], "shim DB": digest_list([AA, BB])[:76], **FOLLOWS}
    ),
    Row(
        "UPDATE revoked_certificates SET digest = x'dd' WHERE digest > x'dc'", [got("ann", "/dbx")],
        {
            "dbx DB": digest_list([AA, BB]) + certificate_list([CC, DD])[:92],
            "shim DB": digest_list([AA, BB]), **FOLLOWS
        }
    ),
    Row(
        f"UPDATE listed SET digest = x'aa' WHERE digest = x'{AA}'", [got("ann", "/db")],
        {"db DB": digest_list([HASHED, AA])[:76], **FOLLOWS}
    ),
    Row("UPDATE migrated SET calls = -1", [], FOLLOWS),
    Row("DELETE FROM migrated", [], FOLLOWS)
]
# What is no desk, or one of an unknown version: by SQL, with the line.
STORES = {
    "UPDATE desk SET mark = 'boot'": b"refused 43 NotADesk\n",
    "UPDATE desk SET stamp = 202103021": b"refused 43 NotADesk\n",
    "UPDATE desk SET stamp = 20210302180": b"refused 43 NotADesk\n",
    "UPDATE desk SET owner = x'07'": b"refused 43 NotADesk\n",
    "UPDATE desk SET version = 1": b"refused 43 NotADesk\n",
    "UPDATE desk SET version = 3": b"refused 44 Version\n",
    "UPDATE desk SET version = -1": b"refused 44 Version\n",
    "ALTER TABLE desk RENAME TO kept; CREATE VIEW desk AS SELECT * FROM kept":
        b"refused 43 NotADesk\n",
}
# The words of each subcommand that opens a desk: one is here once or more.
SUBCOMMANDS = sorted(
    {
        "answer DB", "serve DB 20000 1", "init DB OWNER",
        *(words for row in ROWS for words in row.runs)
    }
)


def changes(path: str, sql: str) -> None:
    """Changes the file of a closed desk."""
    with contextlib.closing(sqlite3.connect(path, isolation_level=None)) as store:
        store.executescript(sql)


@pytest.fixture(scope="session")
def sound(program_path: Path, session_room: Path) -> str:
    """A desk after DAY, to be copied."""
    desk = Program(program_path, session_room)
    path = desk.founded("sound.db")
    for step in DAY:
        desk.answers(path, step.given, step.due, f"before: {step.given[:60]!r}")
    return path


class Runs:
    """Runs of words in which DB, IMAGE, MINUTES and OWNER stand for files and the owner."""

    def __init__(self, desk: Program, sound: str) -> None:
        self.desk, self.sound = desk, sound
        self.files = {
            "IMAGE": desk.file("image", IMAGE), "OWNER": OWNER,
            "MINUTES": desk.file("minutes", desk.minutes(self.copied("minutes.db"))),
        }

    def copied(self, name: str) -> str:
        return copy_of(self.sound, self.desk.at(name))

    def run(self, path: str, words: str, given: bytes = b"") -> Ran:
        """How a run of these words ends."""
        named_by = {**self.files, "DB": path}
        subcommand, *others = words.split()
        given = given or TYPED.get(subcommand, b"")
        return self.desk.run(subcommand, *(named_by.get(one, one) for one in others), given=given)


@pytest.fixture
def runs(desk: Program, sound: str) -> Runs:
    return Runs(desk, sound)


@pytest.mark.long(10)
@pytest.mark.parametrize("row", ROWS, ids=[row.sql for row in ROWS])
def test_what_needs_a_spoilt_row_is_store_and_nothing_changes(runs: Runs, row: Row) -> None:
    """Each request and each run, and `serve`, which ends; another desk answers each."""
    path = runs.copied("spoilt.db")
    changes(path, row.sql)
    found = dump(path)
    for given in row.requests:
        expect(runs.run(path, "answer DB", given), Ran(3, STORE, LINE), f"answer: {given[:60]!r}")
    for words, due in row.runs.items():
        expect(runs.run(path, words), Ran(3, due, LINE), f"desk {words}")
    for given in row.requests[:1]:
        with Server(runs.desk, path) as server:
            server.answers(given, STORE, f"served: {given[:60]!r}")
            server.ended(3, LINE)
    expect(dump(path), found, "the tables")
    for given in row.requests:
        came = runs.desk.gives("answer", runs.copied("again.db"), given=given)
        expect(came[:15], b"HTTP/1.1 200 OK", f"without the row: {given[:60]!r}")
    for words in row.runs:
        ran = runs.run(runs.copied("again.db"), words)
        assert ran.status != 3, f"without the row: desk {words}: {ran}"


@pytest.mark.parametrize("sql", STORES)
def test_each_subcommand_finds_no_desk_or_another_version(runs: Runs, sql: str) -> None:
    path = runs.copied("other.db")
    changes(path, sql)
    for words in SUBCOMMANDS:
        wanted = b"refused 46 Exists\n" if words.startswith("init ") else STORES[sql]
        expect(runs.run(path, words), Ran(1, b"", wanted), f"desk {words}")
