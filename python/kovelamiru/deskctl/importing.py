"""The command import: a file of revocations becomes proposals."""
from __future__ import annotations

import os
from dataclasses import dataclass
from typing import Callable, Optional, Sequence

from ..allowing import allow_doubts
from ..beside import level_lines
from ..csv import records
from ..doubts import certificate_words, known, level_doubts
from ..faults import Causes, Refused, wrong
from ..files import BODY_LIMIT, ENTRY_LIMIT
from ..http import Call
from ..proposals import open_doubts
from ..refusals import next_steps
from ..revocations import Revocations, revocations_of
from ..siglists import MICROSOFT
from ..standing import level_of, standing_of
from ..words import HEX, counted, printable
from .lists import csv_calls, proposed
from .run import Run


def list_calls(found: Revocations, what: str) -> list[Call]:
    """Imports of signature lists, each within the limits of one."""
    calls: list[Call] = []
    part, count = b"", 0
    for one in found.lists:
        entries, head = one.entries, 28 + len(one.header)
        if head + one.size > BODY_LIMIT:
            wrong(f"an entry of {one.size:,} bytes is longer than the desk takes")
        while entries:
            room = min(ENTRY_LIMIT - count, (BODY_LIMIT - len(part) - head) // one.size)
            if room > 0:
                part, count, entries = (part + one.bytes_of(entries[:room]),
                                        count + len(entries[:room]), entries[room:])
            if entries:
                calls.append(Call("POST", found.route, part, (), "proposed", what))
                part, count = b"", 0
    return calls + ([Call("POST", found.route, part, (), "proposed", what)] if part else [])


def import_calls(found: Revocations, stamp: Optional[int], path: str) -> list[Call]:
    """The requests of an import; one, with the file's own bytes, where the limits allow it."""
    what = f"import {path}: {found.kind}"
    if stamp and (found.route != "/imports/csv" or not found.components):
        wrong("--stamp is for a CSV that raises generations",
              "A level's text has its own stamp, and signature lists raise none.")
    whole = (found.body and (found.entries() <= ENTRY_LIMIT or found.route == "/imports/level")
             and len(found.body) <= BODY_LIMIT)
    if whole:
        return [
            Call("POST", found.route, found.body, (("Desk-Stamp", str(stamp)),) if stamp else (),
                 "proposed", what)]
    if found.route == "/imports/dbx":
        return list_calls(found, what)
    if found.route == "/imports/level":
        wrong(f"{path} has {len(found.body):,} bytes, and a level at most {BODY_LIMIT:,}")
    odd = [text for text in found.digests + found.certificates if not HEX.match(text)]
    if odd or (found.body and len(records(found.body)) - 1 != found.entries()):
        wrong(f"{path} has a wrong record{': ' + printable(odd[0]) if odd else ''}",
              *next_steps(19))
    return csv_calls(found.digests, found.certificates, found.components, stamp, what)


@dataclass(frozen=True)
class Force:
    """What is in force at the desk: the entries of dbx by kind, the owners of its lists, the
    generations of the level and its stamp."""

    entries: dict[str, set[str]]
    owners: set[str]
    level: dict[str, int]
    stamp: int

    def new(self, found: Revocations) -> dict[str, int]:
        """How many entries of a file aren't in force yet."""
        return {
            "digests": len(set(found.digests) - self.entries["sha256"]),
            "certificates": len(set(found.certificates) - self.entries["x509_sha256"]),
            "components": len({
                name
                for name, generation in found.components if generation > self.level.get(name, 0)})}


def force_of(run: Run) -> Force:
    now = standing_of(run.desk)
    entries = {"sha256": now.revoked_digests, "x509_sha256": now.revoked_certificates}
    return Force(entries, now.owners, now.level, now.stamp)


def owner_lines(found: Revocations, force: Optional[Force]) -> list[str]:
    lines = []
    for owner, count in sorted(found.owners.items()):
        becomes = ("the desk's own" if force and owner in force.owners else
                   "the desk writes its own owner in its place")
        lines.append(
            f"  owner         {owner}{' (Microsoft)' if owner == MICROSOFT else ''}: {count:,};"
            f" {becomes}")
    return lines


# So many certificates are told one by one.
SHOWN = 20


def previewed(path: str, found: Revocations, calls: Sequence[Call],
              force: Optional[Force]) -> list[str]:
    """What is in a file of revocations, a fact a line."""
    new = force.new(found) if force else {}
    lines = [f"{printable(path)}: {found.kind}"]
    lines += [f"  {printable(note)}" for note in found.notes]
    for name in ("digests", "certificates", "components"):
        count = len(getattr(found, name))
        if count:
            lines.append(f"  {name:<13} {count:,}" + (f", {new[name]:,} new" if new else ""))
    if found.stamp is not None and force:
        beside = level_lines(found.stamp, dict(found.components), force.stamp, force.level)
        lines += [f"  level         {line}" for line in beside]
    lines += [f"  certificate   {certificate_words(one)}"
              for one in list(found.given.values())[:SHOWN]]
    if len(found.given) > SHOWN:
        lines.append(f"  certificate   and {len(found.given) - SHOWN:,} more")
    if found.timed:
        timed = counted(found.timed, "certificate")
        lines.append(
            f"  times         {timed} with a time of revocation: the desk revokes it whenever it"
            ' signed ("always")')
    lines += [
        f"  skipped       {count:,} {printable(kind)}: the desk has no such entries"
        for kind, count in sorted(found.passed.items())]
    lines += [
        f"  left out      {count:,} {printable(kind)}"
        for kind, count in sorted(found.aside.items())]
    lines += owner_lines(found, force)
    if len(calls) > 1:
        lines.append(
            f"  parts         {len(calls)}, each a proposal of its own: an import has at most"
            f" {ENTRY_LIMIT:,} entries")
    return lines


def import_doubts(run: Run, found: Revocations, stamp: Optional[int], force: Force) -> list[str]:
    """What looks like a slip of the hand in a file of revocations."""
    higher = [pair for pair in found.components if pair[1] > force.level.get(pair[0], 0)]
    seen = known(run.desk, found.digests, found.certificates, higher, found.given)
    doubts = seen.doubts + level_doubts(higher, stamp, force.level, seen.names)
    doubts += allow_doubts(os.path.basename(run.words.file), found, seen.now)
    doubts += open_doubts(run.desk, set(found.digests), set(found.certificates), higher)
    if found.entries() and not any(force.new(found).values()):
        doubts.append("Nothing in it is new: a Confirm would change nothing.")
    return doubts


def import_file(run: Run) -> None:
    path, words = run.words.file, run.words
    found = revocations_of(path, words.arch)
    calls = [] if found.names_nothing() else import_calls(found, words.stamp, path)
    stamp = words.stamp or found.stamp
    if words.dry_run and not run.settings.url:
        for line in previewed(path, found, calls, None) + [
                "  (no desk is named, so new ones aren't counted)"]:
            run.terminal.say(line)
        return

    def asks(taken: bool) -> None:
        tell: Callable[[str], None] = run.terminal.note
        if words.dry_run:
            tell = run.terminal.say
        force = force_of(run)
        for line in previewed(path, found, calls, force):
            tell(line)
        if taken:
            return
        doubts = import_doubts(run, found, stamp, force)
        if words.dry_run:
            for doubt in doubts:
                tell(f"! {doubt}")
        elif doubts:
            run.terminal.confirm(doubts, "Propose it all the same? Type yes:")

    if not calls:
        asks(True)
        wrong(f"{path} names nothing that the desk takes")
    if words.dry_run:
        asks(False)
        run.terminal.note("Nothing was sent.")
        return
    proposed(run, calls, asks, import_causes(run, found))


def import_causes(run: Run, found: Revocations) -> Causes:
    def present(_: Refused) -> list[str]:
        return [
            f"The level's stamp is {level_of(run.desk)[0]}" +
            ("." if found.stamp else "; a CSV that raises a generation needs --stamp.")]

    def record(refused: Refused) -> list[str]:
        lines = records(found.body)
        return [f"Record {refused.place}: {printable(','.join(lines[refused.place or 0]))}"]

    def line(refused: Refused) -> list[str]:
        lines = found.body.decode("utf-8-sig", "replace").split("\n")
        return [f"Line {refused.place}: {printable(lines[(refused.place or 1) - 1])}"]

    return {12: line, 19: record, 32: present}
