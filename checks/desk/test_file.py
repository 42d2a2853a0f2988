"""A desk's file, as sqlite3 reads it: its schema, and each row of each table behind a morning of
calls. A desk stands beside others' tables, which stay."""
from __future__ import annotations

import contextlib
import sqlite3

import pytest

from checks.conftest import NewDesk
from checks.support.console import FIRST_LEVEL, typed
from checks.support.images import (
    CERTIFICATE, OWNER, PLAIN, STORED, TABLE, TBS, authenticode, digest, sha256, signing,
    with_table, with_text,
)
from checks.support.messages import PEOPLE, token
from checks.support.program import Program
from checks.support.says import expect
from checks.support.steps import confirms, named, proposes, returns, reviews, submits, takes
from checks.support.tools import ROOT, ran

pytestmark = pytest.mark.needs("sqlite3")

AA, BB, CC = (digest(one) for one in ("aa", "bb", "cc"))
IMAGE = with_table(with_text(PLAIN, b"sbat,1,a,b,1,u\ngrub,3,a,b,1,u\n"), TABLE)
FILE, HASHED, SIGNING = sha256(IMAGE), authenticode(IMAGE), signing(IMAGE)
CSV = f"kind,value,generation\nsha256,{AA},\nx509_sha256,{BB},\nsbat,grub,2\n".encode()
MORNING = [
    submits("ann", "k1", IMAGE, "boot loader", 1), reviews("rita", "k1", 1, "yes", "open"),
    reviews("raul", "k1", 1, "yes", "approved"),
    takes("olga", "k1", "/db/certificates", CERTIFICATE, {"reply": "listed"}),
    returns("sid", "k1", 1, IMAGE),
    proposes("olga", "k2", "/imports/csv", CSV, 1, ("Desk-Stamp", "2024010100")),
    confirms("otto", "k1", 1, 1, 1, 1, 0),
    proposes("otto", "k2", "/dbx/digests", named(CC), 2),
]
# The rows of each table but of `calls`, digests in hexadecimal digits.
HOLDS = {
    "desk": [f"1|boot-desk|2|{STORED.hex()}|2024010100"],
    "people": [f"{name}|{role}|{sha256(token(name).encode())}"
               for name, role in sorted(PEOPLE.items())],
    "requests": [f"1|ann|boot loader|{len(IMAGE)}|0|{FILE}|{HASHED}|{SIGNING}|signed"],
    "request_certificates": [f"1|{TBS}"], "request_components": ["1|0|sbat|1", "1|1|grub|3"],
    "votes": ["1|raul|yes|", "1|rita|yes|"],
    "returns": [f"1|sid|{len(IMAGE)}|{FILE}|{HASHED}"],
    "listed": [f"certificate|{TBS}|{CERTIFICATE.hex()}"], "revoked_digests": [AA],
    "revoked_certificates": [BB], "components": ["grub|2"],
    "proposals": ["1|olga|import|2024010100|0|confirmed", "2|otto|digest|0|0|open"],
    "proposal_items": [
        f"1|0|digest|{AA}||0", f"1|1|certificate|{BB}||0", "1|2|component||grub|2",
        f"2|0|digest|{CC}||0",
    ],
    "migrated": ["1|0"],
}


def rows(path: str, sql: str) -> list[str]:
    """Each row, with what is a BLOB in hexadecimal digits."""
    with contextlib.closing(sqlite3.connect(path)) as store:
        return ["|".join(one.hex() if isinstance(one, bytes) else str(one) for one in row)
                for row in store.execute(sql)]


def does(path: str, sql: str) -> None:
    with contextlib.closing(sqlite3.connect(path, isolation_level=None)) as store:
        store.executescript(sql)


def test_sqlite3_reads_the_schema_and_each_row(desk: Program, new_desk: NewDesk) -> None:
    path = new_desk()
    for step in MORNING:
        desk.answers(path, step.given, step.due, f"{step.given[:60]!r}")
    minutes = desk.minutes(path).decode()
    expect(rows(path, "PRAGMA integrity_check"), ["ok"], "sqlite3's own check")
    tables = ROOT / "checks" / "tables"
    found = ran("sqlite3", path, given=(tables / "schema.sql").read_bytes())
    expect(found, (tables / "schema.txt").read_bytes(), "the schema")
    calls = minutes.replace("\t", "|").splitlines()
    expect(rows(path, "SELECT * FROM calls ORDER BY no"), calls, "calls")
    expect({one: sorted(rows(path, f"SELECT * FROM {one}")) for one in HOLDS}, HOLDS, "the rows")
    named_tables = {*rows(path, "SELECT name FROM sqlite_schema WHERE type = 'table'")}
    expect(named_tables, {*HOLDS, "calls"}, "the tables")


# ---- a desk beside other tables

NOTES = """
CREATE TABLE note (id INTEGER PRIMARY KEY, body TEXT); CREATE INDEX notes ON note (body);
INSERT INTO note VALUES (1, 'kept');
"""
LATER = """
CREATE TABLE later (id INTEGER PRIMARY KEY, body TEXT); CREATE INDEX laters ON later (body);
CREATE INDEX callers ON calls (caller); CREATE VIEW lately AS SELECT body FROM later;
INSERT INTO later VALUES (1, 'kept');
"""


@pytest.mark.parametrize(
    "taken",
    (
        "TABLE Desk (id INTEGER)", "INDEX calls ON note (body)",
        "VIEW migrated AS SELECT body FROM note",
    ),
)
def test_no_desk_is_made_where_a_name_of_its_own_is_taken(desk: Program, taken: str) -> None:
    """By a table, an index or a view, in any case."""
    path = desk.at("barred.db")
    does(path, f"{NOTES} CREATE {taken};")
    desk.ends(1, b"", b"refused 46 Exists\n", "init", path, OWNER)


def test_a_desk_is_made_beside_other_tables_which_stay(desk: Program) -> None:
    """What others make after the desk stays too, and the desk goes on."""
    path = desk.at("other.db")
    does(path, NOTES)
    desk.ends(1, b"", b"refused 43 NotADesk\n", "verdict", path, "missing.efi")
    desk.ends(0, b"", b"", "init", path, OWNER)
    desk.ends(1, b"", b"refused 46 Exists\n", "init", path, OWNER)
    desk.ends(0, FIRST_LEVEL, b"", "level", path)
    desk.ends(0, b"", b"", "minutes", path)
    does(path, LATER)
    for _ in range(2):
        given = typed("ann")
        words = ("person", path, "ann", "submitter", "k1")
        desk.ends(0, b"added ann\n", b"", *words, given=given)
    desk.ends(0, FIRST_LEVEL, b"", "level", path)
    expect(rows(path, "PRAGMA integrity_check"), ["ok"], "sqlite3's own check")
    found = rows(
        path, "SELECT n.body, l.body, v.body, no, key FROM note n, later l, lately v, calls"
    )
    expect(found, ["kept|kept|kept|1|k1"], "the tables of others")
