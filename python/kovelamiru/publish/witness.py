"""A mirror's checkpoint tells of an older copy of the desk, also of one that was restored together
with what it published. It stops a publication only if our own key signed it."""
from __future__ import annotations

import argparse
import time
from functools import partial
from typing import Optional

from ..checkpoints import NAME, PUBLISHED, Checkpoint, signed_at, sum_of
from ..faults import NoAnswer, Stop, Unreadable
from ..fetch import side_by_side
from ..programs import public_line, refused
from ..words import tell
from .desk import Found, lines
from .page import Before

# How long the mirrors may take, and how far behind one may be.
WITNESS_SECONDS, BEHIND_SECONDS = 30, 3600


def doubted(where: str, text: str) -> None:
    tell(f"desk-publish: the witness {where} stops nothing: {text}")


def believed(words: argparse.Namespace) -> dict[str, Checkpoint]:
    """The checkpoints of mirrors that our key signed; why another counts for nothing."""
    found: dict[str, Checkpoint] = {}
    why: dict[str, str] = {}
    key = public_line(words.key) if words.witness else ""

    def ask(where: str) -> None:
        try:
            found[where] = signed_at(where, key, PUBLISHED, words.ca, "desk-publish")
        except (NoAnswer, Stop, Unreadable) as fault:
            why[where] = f"{fault} (it takes a mirror's {NAME}, signed by --key)"

    side_by_side([partial(ask, where) for where in words.witness], WITNESS_SECONDS)
    for where in words.witness:
        one = found.get(where)
        if one and one.owner != words.owner.lower():
            why[where] = "it is of another owner's desk"
        if not one or where in why:
            doubted(where, why.get(where, f"no answer in {WITNESS_SECONDS} seconds"))
    return {where: one for where, one in {**found}.items() if where not in why}


def witnessed(words: argparse.Namespace, last: Optional[Before], found: Found) -> None:
    """Ends the run unless the minutes begin with those of each mirror's checkpoint."""
    for where, told in believed(words).items():
        if found.calls < told.calls:
            refused("witness", f"they have {found.calls} calls, and those of {where} {told.calls}:"
                    " an older copy of the desk")
        if sum_of(lines(found.minutes), told.calls) != told.minutes:
            refused("witness", f"their first {told.calls} calls aren't those of {where}: an older"
                    " copy of the desk, or another desk")
        if last and told.calls < last.found.calls and time.time() > last.date + BEHIND_SECONDS:
            doubted(where, f"it has {told.calls} calls, and {last.found.calls} were published at"
                    " least an hour ago: is the mirror up to date?")
