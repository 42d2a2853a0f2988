"""The folder that is published: what it had, and a new one in its place by one rename."""
from __future__ import annotations

import argparse
import os
import re
import shutil
import stat
import time
from typing import NoReturn, Optional

from ..checkpoints import PUBLISHED, Checkpoint
from ..faults import Unreadable, broken
from ..programs import audited, public_line, refused, signature, unsigned_by
from ..shim import NAME as SHIM, difference
from ..update import efi_time
from .desk import LISTS, Found, audit_of, digest
from .files import read, synced, write
from .page import Before, Publication, dbx_json, firsts_of, index
from .rules import db_follows, follows
from .sums import NAME as SUMS, day, sums_of
from .testimony import came, published_testimonies, testimonies
from .updates import update

# What the signature of SHA256SUMS is for, by its namespace.
PUBLISH = "kovelamiru-publish"
PAGE, JSON, CHECKPOINT = "index.html", "dbx.json", "checkpoint.txt"
# Of the calls from which db follows, where a later change of it waits for consent.
DB_AUDIT = "audit-db.txt"


def unpublished(link: str, name: str, text: str) -> NoReturn:
    broken(f"{os.path.join(link, name)} isn't what was published: {text}")


def published(link: str) -> Before:
    """What was published last: it is what the next one is judged by. Its own sums must be right."""
    at = os.path.realpath(link)
    try:
        said = sums_of(read(os.path.join(at, SUMS)))
    except Unreadable as fault:
        unpublished(link, SUMS, str(fault))
    sums, date = said.files, said.date
    names = {*sums, *LISTS, "audit.txt", "minutes.txt"}
    data = {name: read(os.path.join(at, name)) for name in names}
    of_db = audit_of(data.get(DB_AUDIT, b""))
    dbx, db, level = (data[name] for name in LISTS)
    found = Found(data["minutes.txt"], dbx, db, level, int(of_db["calls"]) if of_db else None)
    for name in sorted({*sums, *LISTS, "audit.txt"}):
        if sums.get(name) != digest(data[name]):
            unpublished(link, name, "its SHA-256 is another one")
    told = audit_of(data["audit.txt"])
    if any(told.get(name) != value for name, value in found.audit().items()):
        unpublished(link, "minutes.txt", "audit.txt is of other files")
    if of_db and of_db.get("db") != digest(found.db):
        unpublished(link, "db.esl", f"{DB_AUDIT} is of another one")
    return Before(found, date, firsts_of(data[JSON]) if JSON in data else {}, times_of(link))


def times_of(link: str) -> dict[str, Optional[str]]:
    """The time of the last update of each list: that of the newest folder that has one."""
    found = {}
    for one in folders(link):
        for name in ("dbx", "db"):
            path = os.path.join(os.path.dirname(link), one, f"{name}.auth")
            if os.path.lexists(path):
                found[name] = efi_time(read(path))
    return found


def folders(link: str) -> list[str]:
    """The names of the publications beside the link, the oldest first: of one date, where a clock
    was ahead, that with fewer calls."""
    folder, name = os.path.split(link)
    found = (re.fullmatch(re.escape(name) + r"\.(\d{8}T\d{6}Z)-calls-(\d+)", one)
             for one in os.listdir(folder))
    return [one[0] for one in sorted(filter(None, found), key=lambda one: (one[1], int(one[2])))]


def current(link: str) -> str:
    """The name of the published one."""
    return os.path.basename(os.readlink(link)) if os.path.islink(link) else ""


def hidden(link: str) -> None:
    """Minutes that were public are for this user alone."""
    for one in folders(link):
        path = os.path.join(os.path.dirname(link), one, "minutes.txt")
        if os.path.isfile(path) and os.stat(path).st_mode & stat.S_IROTH:
            os.chmod(path, 0o600)


def swept(link: str, keep: int) -> None:
    """Takes away what a broken run left, and old folders."""
    for left in (f"{link}.new", f"{link}.sign", f"{link}.old"):
        if os.path.lexists(left):
            shutil.rmtree(left)
    if os.path.lexists(f"{link}.link"):
        os.unlink(f"{link}.link")
    for old in folders(link)[:-keep]:
        if old != current(link):
            shutil.rmtree(os.path.join(os.path.dirname(link), old))


def settled(words: argparse.Namespace, link: str) -> bool:
    """What is published stands, where the desk has nothing new: --key signed it, and each witness
    that signed it by now is there."""
    sums, sign = (os.path.join(os.path.realpath(link), f"{SUMS}{end}") for end in ("", ".sig"))
    if words.key and (not os.path.lexists(sign) or unsigned_by(
            public_line(words.key), PUBLISH, read(sign), read(sums))):
        return False
    return not words.witnesses or not came(words, link)


def pages(words: argparse.Namespace, files: dict[str, bytes], found: Found, now: int,
          last: Optional[Before]) -> dict[str, bytes]:
    """What people and programs read of these files."""
    updates = [name for name in files if name.endswith(".auth")]
    made = Publication(words.owner, found, now, files["audit.txt"], files[SHIM], bool(words.key),
                       words.public_minutes, words.public_reasons, updates, last)
    return {PAGE: index(made), JSON: dbx_json(made)}


def filled(words: argparse.Namespace, link: str, whole: str, now: int, found: Found,
           last: Optional[Before]) -> None:
    """Writes the new folder, and gives it to the disk."""
    new = f"{link}.new"
    write(os.path.join(new, "minutes.txt"), found.minutes, 0o644 if words.public_minutes else 0o600)
    minutes = os.path.join(new, "minutes.txt")
    files = {**found.lists(), "audit.txt": follows(words.program, words.owner, found, minutes)}
    if found.held is not None:
        files[DB_AUDIT] = db_follows(words.program, words.owner, found)
    files[SHIM] = audited(words.program, words.owner, minutes, "shim")
    odd = difference(files[SHIM], words.owner, found.minutes, found.dbx)
    if odd:
        refused("shim", f"{SHIM} wouldn't revoke what dbx does: {odd}")
    if words.sign:
        for name, data in (("dbx", found.dbx), ("db", found.db)):
            if data:
                files[f"{name}.auth"] = update(words, name, data, f"{link}.sign", last)
    told = audit_of(files["audit.txt"])
    check = Checkpoint(words.owner.lower(), found.calls, told["minutes"], told["dbx"],
                       digest(files[SHIM]), told["db"], told["level"])
    files[CHECKPOINT] = check.text()
    if words.key:
        files[f"{CHECKPOINT}.sig"] = signature(words.key, PUBLISHED, files[CHECKPOINT])
    if words.witnesses:
        files.update(testimonies(words, check))
        # (a later word of a witness says less)
        files.update(published_testimonies(link, files[CHECKPOINT]))
    files.update(pages(words, files, found, now, last))
    sums = f"# calls {found.calls}\n# date {day(now)}\n# folder {os.path.basename(whole)}\n"
    sums += "".join(f"{digest(data)}  {name}\n" for name, data in sorted(files.items()))
    files[SUMS] = sums.encode()
    if words.key:
        files[f"{SUMS}.sig"] = signature(words.key, PUBLISH, files[SUMS])
    for name, data in files.items():
        write(os.path.join(new, name), data, 0o644)
    os.chmod(new, 0o755)
    for name in [*files, "minutes.txt"]:
        synced(os.path.join(new, name))
    synced(new)


def named(link: str, now: int, found: Found) -> str:
    """The folder of a publication."""
    return f"{link}.{time.strftime('%Y%m%dT%H%M%SZ', time.gmtime(now))}-calls-{found.calls}"


def linked(link: str, whole: str) -> None:
    """The new folder gets its name, and the link goes to it by one rename."""
    if os.path.lexists(whole):
        # Of a run that was killed within this second, before its link.
        shutil.rmtree(whole)
    os.rename(f"{link}.new", whole)
    os.symlink(os.path.basename(whole), f"{link}.link")
    synced(os.path.dirname(link))
    os.rename(f"{link}.link", link)
    synced(os.path.dirname(link))
