"""The rules between what was published and what is to be."""
from __future__ import annotations

import argparse
import os
import re
from dataclasses import replace
from typing import Iterator, Optional

from ..faults import broken, wrong
from ..programs import audited, refused, unsigned
from .desk import Found, audit_of, digest, entries, level_of, lines
from .files import read

# What a signature of consent is for, by its namespace.
CONSENT = "kovelamiru-consent"


def follows(program: str, owner: str, found: Found, minutes: str) -> bytes:
    """`desk audit` passes the minutes, and what the desk exports follows from them: its lines."""
    said = audited(program, owner, minutes)
    told = audit_of(said)
    for name, value in found.audit().items():
        if told.get(name) != value:
            refused("audit",
                    f"{name} of the desk is {value}, and by its minutes {told.get(name, 'none')}")
    return said


def db_follows(program: str, owner: str, found: Found) -> bytes:
    """A db that was consented to earlier follows from the calls of then: the audit's lines."""
    said = audited(program, owner, "-", given=b"".join(lines(found.minutes)[:found.db_calls]))
    if audit_of(said).get("db") != digest(found.db):
        refused("audit", f"db isn't that of call {found.db_calls}, with which it was published")
    return said


def extends(last: Found, found: Found) -> None:
    """Nothing that was published is gone."""
    if not found.minutes.startswith(last.minutes):
        pairs = enumerate(zip(lines(last.minutes), lines(found.minutes)), 1)
        at = next((number for number, (old_line, line) in pairs if old_line != line), 0)
        refused("minutes", f"they differ from those published at call {at}" if at else
                f"they have {found.calls} calls, and those published {last.calls}")
    nothing_gone(last.dbx, last.level, found.dbx, found.level)


def nothing_gone(old_dbx: bytes, old_level: bytes, dbx: bytes, level: bytes) -> None:
    """No entry that dbx had, and no generation of the level."""
    gone = set(entries(old_dbx, "the published dbx")) - set(entries(dbx, "dbx"))
    if gone:
        one = min(entry for _, entry in gone)[16:].hex()
        refused("dbx", f"{len(gone)} published entries are gone, as {one}")
    (stamp, old), (now, new) = level_of(old_level), level_of(level)
    if now < stamp:
        refused("level", f"its stamp is {now}, and {stamp} was published")
    for name, generation in sorted(old.items()):
        if new.get(name, 0) < generation:
            refused("level", f"{name} has {new.get(name, 0)}, and {generation} was published")


# ---- consent


def parts_of(minutes: bytes) -> Iterator[tuple[int, str, list[str]]]:
    """The number, the caller and the command's words of each line."""
    for number, line in enumerate(lines(minutes), 1):
        parts = line.decode(errors="replace").rstrip("\n").split("\t")
        if len(parts) != 5:
            broken(f"line {number} of the minutes isn't one")
        yield number, parts[1], parts[3].split(" ")


def consented(words: argparse.Namespace, last: Optional[Found], found: Found) -> str:
    """Another officer than those who changed db has looked at it since, and signed that: nothing,
    or what isn't so."""
    if found.db == (last.db if last else b""):
        return ""
    changes = [(number, caller) for number, caller, text in parts_of(found.minutes)
               if text[0] in ("list-digest", "list-certificate", "unlist")]
    changed = {caller for number, caller in changes if number > (last.db_calls if last else 0)}
    wanted = f"{digest(found.db)} {changes[-1][0] if changes else 0}"
    text = f"db changed by {', '.join(sorted(changed))}; {words.consent} "
    if not os.path.lexists(words.consent):
        return text + f"isn't there, and takes a line `{wanted} NAME`"
    data = read(words.consent)
    line = re.fullmatch(rb"([0-9a-f]{64} [0-9]+) ([a-z][a-z0-9-]{0,31})\n", data)
    if not line or line[1].decode() != wanted:
        return text + f"isn't the line `{wanted} NAME`"
    name = line[2].decode()
    officers = {text[1] for _, _, text in parts_of(found.minutes)
                if text[0] == "add-person" and text[2:3] == ["officer"]}
    if name not in officers - changed:
        return text + f"names {name}: it takes an officer who didn't change db"
    kept(words.signers)
    said = unsigned(words.signers, name, CONSENT, f"{words.consent}.sig", data)
    return text + f"isn't signed by {name}: {said}" if said else ""


def kept(path: str) -> None:
    """Nobody but root or this user writes the file."""
    try:
        found = os.stat(path)
    except OSError as error:
        broken(f"{path}: {error.strerror}")
    if found.st_uid not in (0, os.geteuid()) or found.st_mode & 0o022:
        wrong(f"others can write {path}")


def judged(words: argparse.Namespace, last: Optional[Found], found: Found) -> tuple[Found, str]:
    """What may be published, and why its db isn't the desk's, if it is the one that was consented
    to last. Ends the run where a rule doesn't hold; those of a new folder's files come with it."""
    if last is not None:
        extends(last, found)
    waits = consented(words, last, found) if words.consent else ""
    if waits:
        found = replace(found, db=last.db if last else b"", held=last.db_calls if last else 0)
    return found, waits
