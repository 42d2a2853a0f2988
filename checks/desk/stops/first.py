"""A file of version 1, made here: a desk of one officer, six people, and an import of 300
digests."""
from __future__ import annotations

import contextlib
import gzip
import sqlite3
from typing import Any

from checks.desk.stops.cases import PEOPLE, TINY_DIGEST, csv_of
from checks.desk.stops.places import Files, place
from checks.support.images import STORED, digest_list, sha256
from checks.support.messages import token
from checks.support.tools import EXAMPLES

KEPT = EXAMPLES / "version-1"
# The digests that one officer imported while the file was of version 1: that of an image, and of
# each number its two bytes, little-endian, and 30 zero bytes.
FIRST_DIGESTS = [
    TINY_DIGEST, *((number.to_bytes(2, "little") + bytes(30)).hex() for number in range(1, 300))
]
FIRST_CSV = csv_of(FIRST_DIGESTS)
FIRST_PEOPLE = [*PEOPLE[:3], ("rosa", "reviewer"), *PEOPLE[3:5]]
# The file that a program of version 1 made.
EXAMPLE = Files(gzip.decompress((KEPT / "desk.db.gz").read_bytes()))
# The three names that version 2 adds.
ADDED = ("migrated", "proposal_items", "proposals")


def first_calls() -> list[tuple[str, str, str, str]]:
    """The calls of that file: caller, key, text and reply."""
    people = [
        (
            "console", f"p{number}", f"add-person {name} {role} {sha256(token(name).encode())}",
            f"added {name}"
        )
        for number, (name, role) in enumerate(FIRST_PEOPLE, 1)
    ]
    return [
        *people, ("olga", "o1", f"import 0 0 {','.join(FIRST_DIGESTS)} - -", "imported 300 0 0 0")
    ]


def executed(data: bytes, *statements: tuple[Any, ...]) -> bytes:
    """The bytes of a database file once these statements were executed in it."""
    place().put(Files(data))
    with contextlib.closing(sqlite3.connect(place().desk)) as base, base:
        for statement in statements:
            base.execute(*statement)
    return place().left().db or b""


def first_file() -> bytes:
    """A file of version 1, of a desk of one officer: the tables of examples/version-1, six people,
    and an import of 300 digests."""
    place().put(EXAMPLE)
    with contextlib.closing(sqlite3.connect(place().desk)) as base:
        tables = base.execute(
            "SELECT sql FROM sqlite_schema WHERE type = 'table' ORDER BY rowid"
        ).fetchall()
    desk = ("INSERT INTO desk VALUES (1, 'boot-desk', 1, ?, 2021030218)", (STORED,))
    people = [
        (
            "INSERT INTO people VALUES (?, ?, ?)",
            (name, role, bytes.fromhex(sha256(token(name).encode())))
        )
        for name, role in FIRST_PEOPLE
    ]
    digests = [
        ("INSERT INTO revoked_digests VALUES (?)", (bytes.fromhex(one),)) for one in FIRST_DIGESTS
    ]
    calls = [
        ("INSERT INTO calls VALUES (?, ?, ?, ?, ?)", (number, *one))
        for number, one in enumerate(first_calls(), 1)
    ]
    return executed(b"", ("PRAGMA journal_mode = WAL",), *tables, desk, *people, *digests, *calls)


def first_exports() -> dict[str, bytes]:
    """What its desk exports."""
    minutes = "".join(
        "\t".join((str(number), *one)) + "\n" for number, one in enumerate(first_calls(), 1)
    ).encode()
    dbx = digest_list(sorted(FIRST_DIGESTS))
    return {"minutes": minutes, "dbx": dbx, "shim": dbx, "db": b"", "level": b"sbat,1,2021030218\n"}


