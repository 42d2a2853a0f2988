"""What a request asks for, and the files that it imports."""
from __future__ import annotations

import json
import re
import struct
from typing import Any, NamedTuple, Optional

from checks.model.commands import (
    Command, Confirm, Drop, Explain, ListEntry, Propose, Return, Review, Submit, Unlist, Withdraw
)
from checks.model.facts import Refusal, facts_of, refuse_if, rows_of, tbs_of
from checks.model.held import Entries
from checks.support.images import SHA256_KIND, X509_KIND, X509_SHA256_KIND

# ---- what a request asks for


class Asked(NamedTuple):
    """A request: its token, its method and path, its key if it is a command, its title and stamp,
    its body, and each If-Match."""

    token: str
    method: str
    path: str
    key: Optional[str] = None
    title: str = ""
    stamp: Optional[int] = None
    body: bytes = b""
    match: tuple[str, ...] = ()

    def parts(self) -> tuple[str, Optional[str], Optional[str]]:
        """The first part of the path, its number, and the part behind that."""
        what, number, part, *_ = [*self.path[1:].split("/"), None, None]
        return str(what), number, part

    def tag(self) -> Optional[str]:
        """The tag that the command is to be about, if If-Match gives one: at any other command, or
        a read, the field has no effect."""
        what, _, part = self.parts()
        if not self.match or (what, part) not in CONDITIONAL:
            return None
        found = re.fullmatch('"([0-9a-f]{64})"', self.match[0])
        if len(self.match) > 1 or found is None:
            raise Refusal("BadField")
        return found[1]


# The commands that name a request or a proposal.
CONDITIONAL = [
    ("requests", "review"), ("requests", "withdraw"), ("requests", "return"),
    ("proposals", "confirm"), ("proposals", "drop"), ("proposals", "explain")
]


def numbered(word: Optional[str], why: str) -> int:
    """The number in a path."""
    refuse_if(re.fullmatch("[1-9][0-9]{0,5}", word or "") is None, why)
    return int(word or 0)


FORMS: dict[str, Any] = {
    "component": lambda one: isinstance(one, str) and re.fullmatch("[!-+\\--~]{1,128}", one),
    "digest": lambda one: isinstance(one, str) and re.fullmatch("[0-9A-Fa-f]{64}", one),
    "generation": lambda one: type(one) is int and 1 <= one <= 4_294_967_295,
    "kind": lambda one: one in ("digest", "certificate"),
    "note": lambda one: isinstance(one, str) and re.fullmatch("[ -~]{0,200}", one),
    "text": lambda one: isinstance(one, str) and re.fullmatch("[ -~]{1,200}", one) and (
        one == one.strip()
    ),
    "stamp": lambda one: type(one) is int and 1_000_000_000 <= one <= 9_999_999_999,
    "vote": lambda one: one in ("yes", "no"),
}


def members(body: bytes, *names: str) -> list[Any]:
    """The members of an object with exactly these keys."""
    try:
        found = json.loads(body)
    except ValueError:
        found = None
    refuse_if(
        not isinstance(found, dict) or {*found} != {*names} or not all(
            FORMS[one](found[one]) for one in names
        ),
        "BadBody"
    )
    return [found[one].lower() if one == "digest" else found[one] for one in names]


def certificate_of(body: bytes) -> ListEntry:
    tbs = tbs_of(body)
    if tbs is None:
        raise Refusal("Der")
    return ListEntry("certificate", tbs, body)


def named_by(path: str, asked: Asked) -> Entries:
    """The entries that a request names to be revoked or raised."""
    if path == "/dbx/digests":
        return Entries("digest", digests=tuple(members(asked.body, "digest")))
    if path == "/dbx/certificates":
        return Entries("certificate", certificates=tuple(members(asked.body, "digest")))
    if path == "/level":
        name, generation, stamp = members(asked.body, "component", "generation", "stamp")
        return Entries("level", components=((name, generation),), stamp=stamp)
    if path == "/imports/dbx":
        return imported(None, entries_of(asked.body))
    if path == "/imports/csv":
        return imported(asked.stamp, records_of(asked.body))
    return level_of(asked.body)


def command_of(asked: Asked) -> Command:
    """The command of a request. The form of If-Match comes after that of the number, and before
    the body's."""
    what, number, part = asked.parts()
    if what == "proposals":
        chosen = numbered(number, "NoSuchProposal")
        asked.tag()
        if part == "explain":
            return Explain(chosen, *members(asked.body, "text"))
        return Confirm(chosen) if part == "confirm" else Drop(chosen)
    if what == "requests" and number is None:
        return Submit(facts_of(asked.body), asked.title)
    if what == "requests":
        chosen = numbered(number, "NoSuchRequest")
        asked.tag()
        if part == "review":
            vote, note = members(asked.body, "vote", "note")
            return Review(chosen, vote, note)
        return Withdraw(chosen) if part == "withdraw" else Return(chosen, facts_of(asked.body))
    if asked.path == "/db/certificates":
        return certificate_of(asked.body)
    if asked.path == "/db/digests":
        return ListEntry("digest", *members(asked.body, "digest"))
    if asked.path == "/db/unlist":
        return Unlist(*members(asked.body, "kind", "digest"))
    return Propose(named_by(asked.path, asked))


# ---- imports

# An entry of an import: `digest`, `certificate`, `component`, or `passed` for one that is skipped,
# and what it names.
Entry = tuple[str, Any]


def imported(stamp: Optional[int], entries: list[Entry]) -> Entries:
    """All entries of an import, in their order."""
    names = {
        kind: tuple(one for of, one in entries if of == kind)
        for kind in ("digest", "certificate", "component", "passed")
    }
    return Entries(
        "import", names["digest"], names["certificate"], names["component"], stamp,
        len(names["passed"])
    )


def entry_of(kind: bytes, body: bytes) -> Entry:
    """An entry of a signature list of this type."""
    if kind == SHA256_KIND:
        return "digest", body.hex()
    if kind == X509_SHA256_KIND:
        return "certificate", body[:32].hex()
    tbs = tbs_of(body) if kind == X509_KIND else None
    return ("passed", None) if tbs is None else ("certificate", tbs)


def entries_of(data: bytes) -> list[Entry]:
    """The entries of signature lists."""
    found, at = [], 0
    while at < len(data):
        if len(data) - at < 28:
            raise Refusal("List", at)
        kind, (size, header, each) = data[at : at + 16], struct.unpack_from("<III", data, at + 16)
        is_known = kind in (SHA256_KIND, X509_KIND, X509_SHA256_KIND)
        if size < 28 + header or at + size > len(data) or is_known and header > 0:
            raise Refusal("List", at)
        wanted = {SHA256_KIND: each == 48, X509_KIND: each >= 17, X509_SHA256_KIND: each == 64}
        if each < 16 or not wanted.get(kind, True) or (size - 28 - header) % each:
            raise Refusal("EntrySize", at)
        begins = range(at + 28 + header, at + size, each)
        found += [entry_of(kind, data[one + 16 : one + each]) for one in begins]
        at += size
    return found


def component_of(fields: list[str]) -> Optional[tuple[str, int]]:
    """A name other than `sbat` and a generation."""
    if len(fields) < 2 or not FORMS[
        "component"
    ](fields[0]) or fields[0] == "sbat" or not re.fullmatch("[0-9]{1,10}", fields[1]):
        return None
    return (fields[0], int(fields[1])) if FORMS["generation"](int(fields[1])) else None


def record_of(fields: list[str]) -> Optional[Entry]:
    """The entry of a record of CSV."""
    if len(fields) != 3:
        return None
    kind, value, generation = fields
    if kind == "sbat":
        component = component_of([value, generation])
        return None if component is None else ("component", component)
    kinds = {"sha256": "digest", "x509_sha256": "certificate"}
    return (
        kinds[kind], value.lower()
    ) if kind in kinds and FORMS["digest"](value) and not generation else None


def records_of(data: bytes) -> list[Entry]:
    """The entries of a CSV file without quotes."""
    text = data.removeprefix(b"\xef\xbb\xbf").decode("latin-1")
    lines = [line for line in re.split("\r\n|\r|\n", text) if line]
    if not lines or lines[0] != "kind,value,generation":
        raise Refusal("CsvRow", 0)
    found = []
    for number, line in enumerate(lines[1:], 1):
        entry = record_of(line.split(","))
        if entry is None:
            raise Refusal("CsvRow", number)
        found.append(entry)
    return found


def level_of(data: bytes) -> Entries:
    """The names of a level's text, ascending, each with its greatest generation, and its stamp."""
    rows = rows_of(data)
    number, first = rows[0] if rows else (1, [])
    is_begun = len(first) >= 3 and first[0] == "sbat" and re.fullmatch(
        "0{0,9}1", first[1]
    ) and re.fullmatch("[1-9][0-9]{9}", first[2])
    if not is_begun:
        raise Refusal("SbatRow", number)
    greatest: dict[str, int] = {}
    for number, fields in rows[1:]:
        component = component_of(fields)
        if component is None:
            raise Refusal("SbatRow", number)
        greatest[component[0]] = max(component[1], greatest.get(component[0], 0))
    return Entries("import", components=tuple(sorted(greatest.items())), stamp=int(first[2]))
