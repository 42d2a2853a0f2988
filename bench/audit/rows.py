"""Desks of many calls, whose file and minutes are written row by row, without the desk."""
import hashlib
import itertools
import sqlite3
from typing import Iterator, NamedTuple

from checks.support.images import CERTIFICATE, OWNER, TBS
from checks.support.messages import PEOPLE, token
from checks.support.program import Program

STAMP = 2024010100


def digest_of(kind: str, number: int) -> bytes:
    return hashlib.sha256(f"{kind} {number}".encode()).digest()


class Line(NamedTuple):
    caller: str
    text: str
    reply: str


class History:
    """The calls of a desk, in their order, and the rows that they leave in each table but that of
    the calls. A state that changes is a list of one."""

    def __init__(self) -> None:
        self.requests, self.proposals, self.listed = 0, 0, 0
        self.rows: dict[str, list[tuple]] = {}

    def row(self, table: str, *values: object) -> None:
        self.rows.setdefault(table, []).append(values)

    def first(self) -> Iterator[Line]:
        for name, role in PEOPLE.items():
            hashed = hashlib.sha256(token(name).encode()).digest()
            self.row("people", name, role, hashed)
            yield Line("console", f"add-person {name} {role} {hashed.hex()}", f"added {name}")
        self.row("listed", "certificate", bytes.fromhex(TBS), CERTIFICATE)
        yield Line("olga", f"list-certificate {TBS} {CERTIFICATE.hex()}", "listed")
        self.proposals = 1
        state = ["open"]
        self.row("proposals", 1, "olga", "level", STAMP, 0, state)
        self.row("proposal_items", 1, 0, "component", b"", "grub", 3)
        yield Line("olga", f"raise grub 3 {STAMP}", "proposed 1")
        state[0] = "confirmed"
        self.row("components", "grub", 3)
        yield Line("otto", "confirm 1", "confirmed 1 0 0 1 0")

    def proposal(self, confirmed: bool) -> Iterator[Line]:
        self.proposals += 1
        number = self.proposals
        named = digest_of("proposed", number)
        state = ["open"]
        self.row("proposals", number, "olga", "digest", 0, 0, state)
        self.row("proposal_items", number, 0, "digest", named, "", 0)
        yield Line("olga", f"revoke-digest {named.hex()}", f"proposed {number}")
        if confirmed:
            state[0] = "confirmed"
            self.row("revoked_digests", named)
            yield Line("otto", f"confirm {number}", f"confirmed {number} 1 0 0 0")
        else:
            state[0] = "dropped"
            yield Line("otto", f"drop {number}", f"dropped {number}")

    def request(self) -> Iterator[Line]:
        self.requests += 1
        number = self.requests
        file, image, returned = (digest_of(it, number) for it in ("file", "image", "returned"))
        state = ["open"]
        self.row(
            "requests", number, "ann", f"shim 15.8-{number}", 1024, 0, file, image, image, state
        )
        self.row("request_components", number, 0, "sbat", 1)
        self.row("request_components", number, 1, "shim", 4)
        components = "1:sbat,4:shim"
        yield Line(
            "ann",
            f"submit 1024 0 {file.hex()} {image.hex()} {image.hex()} - {components} shim"
            f" 15.8-{number}",
            f"submitted {number}"
        )
        for reviewer, after in (("rita", "open"), ("raul", "approved")):
            state[0] = after
            self.row("votes", number, reviewer, "yes", "built again, the same bytes")
            yield Line(
                reviewer, f"review {number} yes built again, the same bytes",
                f"reviewed {number} {after}"
            )
        state[0] = "signed"
        self.row("returns", number, "sid", 1080, returned, image)
        yield Line(
            "sid",
            f"return {number} 1080 0 {returned.hex()} {image.hex()} {image.hex()} {TBS}"
            f" {components}",
            f"returned {number}"
        )

    def listing(self) -> Iterator[Line]:
        self.listed += 1
        named = digest_of("listed", self.listed)
        self.row("listed", "digest", named, b"")
        yield Line("olga", f"list-digest {named.hex()}", "listed")
        self.rows["listed"].pop()
        yield Line("otto", f"unlist digest {named.hex()}", "unlisted")

    def all(self) -> Iterator[Line]:
        yield from self.first()
        while True:
            for it in range(10):
                yield from self.proposal(it != 9)
                yield from self.request()
                yield from self.listing()
                yield from self.listing()


def calls(minutes: str, history: History, count: int | None) -> Iterator[tuple]:
    """The rows of so many calls, which are written as minutes, too."""
    with open(minutes, "w", encoding="ascii", newline="\n") as file:
        for number, line in enumerate(itertools.islice(history.all(), count), 1):
            row = (number, line.caller, f"20261128T0700-{number:07}", line.text, line.reply)
            file.write("\t".join(map(str, row)) + "\n")
            yield row


def filled(
    program: Program, path: str, minutes: str, history: History, count: int | None = None
) -> None:
    """The desk of so many calls of a history, or of all, in a file, and their minutes."""
    program.gives("init", path, OWNER)
    connection = sqlite3.connect(path)
    connection.executemany("INSERT INTO calls VALUES(?,?,?,?,?)", calls(minutes, history, count))
    for table, rows in history.rows.items():
        if rows:
            plain = ([it[0] if isinstance(it, list) else it for it in row] for row in rows)
            connection.executemany(
                f"INSERT INTO {table} VALUES({','.join('?' * len(rows[0]))})", plain
            )
    if "components" in history.rows:
        connection.execute("UPDATE desk SET stamp = ?", (STAMP,))
    connection.commit()
    connection.close()
