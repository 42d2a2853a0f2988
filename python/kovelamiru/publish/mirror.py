"""kovelamiru-mirror: what a desk publishes, fetched, checked, and put in place whole."""
from __future__ import annotations

import argparse
import hashlib
import os
import re
import shutil
import sys
import tempfile
import time
from typing import Callable, Optional

from ..checkpoints import (
    NAME as CHECKPOINT, Checkpoint, checkpoint_of, unwitnessed, witnesses_in)
from ..faults import DONE, NoAnswer, Unreadable, broken, wrong
from ..fetch import fetched
from ..programs import refused, unsigned
from ..reader import ended
from ..shim import NAME as SHIM
from ..words import tell
from .desk import LISTS, audit_of, digest
from .files import read, synced, write
from .folder import DB_AUDIT, current, linked, swept
from .rules import kept, nothing_gone
from .sums import NAME as SUMS, Sums, day, sums_of
from .updates import ends_with

PROGRAM = "kovelamiru-mirror"
# What firmware and shim take, by the words of a checkpoint.
TAKEN = {**dict(zip(("dbx", "db", "level"), LISTS)), "shim": SHIM}
# How long SHA256SUMS with its signature may take, and each be.
SUMS_SECONDS, SUMS_BYTES = 60, 1 << 20
# How long all files may take, and each be; how often it is said how much of one came.
FILE_SECONDS, FILE_BYTES, SAID_SECONDS = 3600, 1 << 30, 10.0
ABOUT = """\
Fetches the folder that desk-publish published at URL, checks it, and makes FOLDER a link to a copy,
by one rename: whoever reads FOLDER finds the old files or the new ones, whole. A file that didn't
change is kept. The folder that SHA256SUMS names stands beside FOLDER, as it does at URL.

Nothing changes, and the line on standard error begins with `kovelamiru-mirror: refused RULE`, where

  signature  SHA256SUMS isn't signed by NAME with a key of SIGNERS
  calls      it has fewer calls than the copy here: an older publication
  date       its date is earlier than that of the copy here, or ahead of this clock by a day
  witnesses  fewer than -k of --witnesses signed its checkpoint, or a later one with its lists
  sums       a file isn't that of its sum
  checkpoint audit.txt, a list, an update's list or minutes.txt isn't that of checkpoint.txt; while
             a change of db waits for consent, db.esl is that of the copy here, or of audit-db.txt
             without --witnesses
  dbx        it lacks an entry that the copy here has
  level      a generation or the stamp is below that of the copy here
  age        --oldest, and the date is older (the copy is made nevertheless)

SIGNERS has a line `NAME KEY`, the public key of whoever publishes, by another way than from URL. So
a mirror in between can't change a file or go back; --oldest finds one that stands still, where
desk-publish has --renew. Who publishes can change no list without -k of WITNESSES; the page and
dbx.json are theirs alone.

The options stand in /etc/default/kovelamiru-mirror, for kovelamiru-mirror.timer:

  MIRROR="--url https://desk.example.org/published --signers /etc/kovelamiru.signers \\
      --name desk.example.org --oldest 48 --first"

Exit status: 0 mirrored, or nothing new; 1 refused; 2 wrong words; 3 a file, host or program failed
"""


def asked(words: argparse.Namespace, url: str, until: float, most: int = FILE_BYTES,
          heard: Callable[[int], None] = lambda _: None) -> bytes:
    """What is at this URL."""
    try:
        return fetched(url, words.ca, PROGRAM, until - time.monotonic(), most, heard).data()
    except (NoAnswer, Unreadable) as fault:
        broken(f"{url}: {fault}")


def shown(words: argparse.Namespace) -> tuple[dict[str, bytes], Sums]:
    """The signed SHA256SUMS there, with its signature, and what it says."""
    signs, until = f"{SUMS}.sig", time.monotonic() + SUMS_SECONDS
    files = {name: asked(words, f"{words.url}/{name}", until, SUMS_BYTES) for name in (SUMS, signs)}
    kept(words.signers)
    with tempfile.NamedTemporaryFile() as at:
        at.write(files[signs])
        at.flush()
        odd = unsigned(words.signers, words.name, "kovelamiru-publish", at.name, files[SUMS])
    if odd:
        refused("signature", f"{words.url}/{SUMS} isn't signed by {words.name}: {odd}")
    try:
        found = sums_of(files[SUMS])
    except Unreadable as fault:
        broken(f"{words.url}/{SUMS}: {fault}")
    name = os.path.basename(words.folder)
    if not re.fullmatch(re.escape(name) + r"\.\d{8}T\d{6}Z-calls-\d+", found.folder):
        wrong(f"{words.folder}: what is published is in {found.folder or 'no folder'}, and FOLDER"
              " has that name up to its date")
    return files, found


def own(folder: str) -> Optional[Sums]:
    """What the copy here says."""
    if not os.path.islink(folder):
        return None
    try:
        return sums_of(read(os.path.join(os.path.realpath(folder), SUMS)))
    except Unreadable as fault:
        broken(f"{folder}/{SUMS}: {fault}")


def forward(last: Sums, now: Sums) -> None:
    """It doesn't go back behind the copy here."""
    if now.calls < last.calls:
        refused("calls", f"it has {now.calls} calls, and the copy here {last.calls}")
    if now.date < last.date:
        refused("date", f"it is of {day(now.date)}, and the copy here of {day(last.date)}")


def sum_of(path: str) -> str:
    """The SHA-256 of a file; nothing if it can't be read."""
    try:
        return hashlib.sha256(read(path)).hexdigest()
    except Exception:  # pylint: disable=broad-except
        return ""


def telling(name: str) -> Callable[[int], None]:
    """Says now and then how much of a file came."""
    last = [time.monotonic()]

    def heard(size: int) -> None:
        if time.monotonic() - last[0] >= SAID_SECONDS:
            last[0] = time.monotonic()
            tell(f"  {name}: {size:,} bytes so far", sys.stdout)

    return heard


def filled(words: argparse.Namespace, new: str, files: dict[str, bytes], now: Sums,
           last: Optional[Sums]) -> None:
    """Each file, of the copy here where it is the same, given to the disk."""
    base, until = f"{words.url.rpartition('/')[0]}/{now.folder}", time.monotonic() + FILE_SECONDS
    for name, due in sorted(now.files.items()):
        path, old = os.path.join(new, name), os.path.join(os.path.realpath(words.folder), name)
        if sum_of(old) == due:
            os.link(old, path)
            continue
        data = asked(words, f"{base}/{name}", until, heard=telling(name))
        tell(f"  {name}: {len(data):,} bytes", sys.stdout)
        if hashlib.sha256(data).hexdigest() != due:
            refused("sums", f"{base}/{name} isn't the file of its sum")
        write(path, data, 0o644)
    check = held(words, new, now, last)
    if words.witnesses:
        witnessed(words, new, now, check)
    if words.minutes:
        data = asked(words, f"{base}/minutes.txt", until, heard=telling("minutes.txt"))
        if digest(data) != check.minutes:
            refused("checkpoint", f"{base}/minutes.txt isn't that of {CHECKPOINT}")
        files = {**files, "minutes.txt": data}
    for name, data in files.items():
        write(os.path.join(new, name), data, 0o644)
    for name in os.listdir(new):
        synced(os.path.join(new, name))
    os.chmod(new, 0o755)
    synced(new)


def held(words: argparse.Namespace, new: str, now: Sums, last: Optional[Sums]) -> Checkpoint:
    """The checkpoint. What firmware takes is what it names, and goes on from the copy here."""
    def own(name: str) -> str:
        return os.path.join(os.path.realpath(words.folder), name)

    names = {CHECKPOINT, "audit.txt", *TAKEN.values()}
    if names - now.files.keys():
        refused("checkpoint", f"there is no {min(names - now.files.keys())}")
    data = {name: read(os.path.join(new, name)) for name in now.files}
    try:
        due = checkpoint_of(data[CHECKPOINT])
    except Unreadable as fault:
        refused("checkpoint", f"{CHECKPOINT}: {fault}")
    told = audit_of(data["audit.txt"])
    if any(told.get(name) != str(getattr(due, name))
           for name in ("calls", "minutes", "dbx", "db", "level")) or due.calls != now.calls:
        refused("checkpoint", f"audit.txt or {SUMS} isn't that of {CHECKPOINT}")
    for word, name in TAKEN.items():
        before = audit_of(data.get(DB_AUDIT, b"")).get("db") if not words.witnesses else ""
        waits = name == "db.esl" and now.files[name] in (sum_of(own(name)), before)
        if now.files[name] != getattr(due, word) and not waits:
            refused("checkpoint", f"{name} isn't that of {CHECKPOINT}")
        update = data.get(f"{word}.auth")
        if update is not None and not ends_with(update, data[name]):
            refused("checkpoint", f"{word}.auth is an update with another list")
    if last:
        was = {}
        for name in ("dbx.esl", "level.csv"):
            same = last.files.get(name) == now.files[name]
            if not same and sum_of(own(name)) != last.files.get(name):
                broken(f"{own(name)} is damaged, and nothing can be held against it")
            was[name] = data[name] if same else read(own(name))
        nothing_gone(was["dbx.esl"], was["level.csv"], data["dbx.esl"], data["level.csv"])
    return due


def witnessed(words: argparse.Namespace, new: str, now: Sums, due: Checkpoint) -> None:
    """So many witnesses signed the checkpoint, or a later one with its lists, which says nothing of
    the minutes."""
    def said(name: str) -> bytes:
        return read(os.path.join(new, name)) if name in now.files else b""

    names = [one.name for one in witnesses_in(words.witnesses)
             if not unwitnessed(one, said(one.file), said(f"{one.file}.sig"), due)
             and (not words.minutes or said(one.file) == due.text())]
    if len(names) < words.k:
        refused("witnesses", f"{len(names)} of {words.k} signed its {CHECKPOINT}")


def replaced(words: argparse.Namespace, files: dict[str, bytes], now: Sums,
             last: Optional[Sums]) -> None:
    """The new copy gets its name, and the link goes to it."""
    new, whole = f"{words.folder}.new", os.path.join(os.path.dirname(words.folder), now.folder)
    os.mkdir(new, 0o700)
    try:
        filled(words, new, files, now, last)
        if now.folder == current(words.folder):
            # A damaged copy makes room for a moment.
            os.rename(whole, f"{words.folder}.old")
    except BaseException:
        shutil.rmtree(new)
        raise
    linked(words.folder, whole)


def is_whole(folder: str, now: Sums, minutes: bool) -> bool:
    """The copy here is that publication, and no file is damaged."""
    at = os.path.realpath(folder)
    return (all(sum_of(os.path.join(at, name)) == due for name, due in now.files.items())
            and (not minutes or os.path.exists(os.path.join(at, "minutes.txt"))))


def mirrored(words: argparse.Namespace) -> str:
    if os.path.lexists(words.folder) and not os.path.islink(words.folder):
        wrong(f"{words.folder} isn't a link that {PROGRAM} made")
    last = own(words.folder)
    if last is None and not words.first:
        broken(f"{words.folder} isn't there: the first copy takes --first")
    swept(words.folder, words.keep)
    files, now = shown(words)
    if last:
        forward(last, now)
    if now.date > time.time() + 86400:
        refused("date", f"it is of {day(now.date)}, ahead of this clock: no later one could follow")
    text = f"calls {now.calls} of {day(now.date)}"
    if last == now and is_whole(words.folder, now, words.minutes):
        said = f"{text}: nothing new"
    else:
        tell(f"{text}: fetching", sys.stdout)
        replaced(words, files, now, last)
        swept(words.folder, words.keep)
        said = f"{text}: mirrored in {now.folder}"
    hours = (time.time() - now.date) / 3600
    if words.oldest and hours > words.oldest:
        refused("age", f"{said}, and that is {int(hours)} hours old")
    return said


def words_of(arguments: list[str]) -> argparse.Namespace:
    parser = argparse.ArgumentParser(prog=PROGRAM, description=ABOUT, allow_abbrev=False,
                                     formatter_class=argparse.RawDescriptionHelpFormatter)
    parser.add_argument("folder", metavar="FOLDER", help="what is served: a link that this makes")
    for name, word, default, text in (
        ("--url", "URL", ..., "the published folder, as https://desk.example.org/published"),
        ("--signers", "FILE", ..., "whose keys count: lines `NAME KEY`"),
        ("--name", "NAME", ..., "who publishes, by SIGNERS"),
        ("--ca", "FILE", None, "certificates that the site's has to come from, in PEM"),
        ("--witnesses", "FILE", None, "who signs the checkpoint, too: lines `NAME - KEY`"),
        ("-k", "N", 1, "how many of them have to (1)"),
        ("--oldest", "HOURS", 0, "fail where the date is older"),
        ("--keep", "N", 10, "how many folders stay (10)")):
        parser.add_argument(name, metavar=word, required=default is ..., default=default, help=text,
                            type=int if isinstance(default, int) else str)
    parser.add_argument("--minutes", action="store_true", help="minutes.txt, too, if it is public")
    parser.add_argument("--first", action="store_true", help="FOLDER isn't there yet")
    words = parser.parse_args(arguments)
    words.folder, words.url = os.path.abspath(words.folder), words.url.rstrip("/")
    if not re.fullmatch(r"https?://[^/]+/.*", words.url):
        parser.error("--url is the published folder's, and it has another one above it")
    if words.keep < 2:
        parser.error("--keep is 2 at least: readers may still be in the last one")
    return words


def main() -> int:
    os.umask(0o022)
    words = words_of(sys.argv[1:])

    def work() -> int:
        tell(mirrored(words), sys.stdout)
        return DONE

    return ended(PROGRAM, f"{words.folder}.lock", "mirroring", work)
