"""What witnesses signed for a publication: others whose own `desk follow` reached its
checkpoint."""
from __future__ import annotations

import argparse
import os
from functools import partial

from ..checkpoints import (
    NAME, SECONDS, Checkpoint, Witness, at, checkpoint_of, unwitnessed, witnesses_in)
from ..faults import NoAnswer, Stop, Unreadable
from ..fetch import side_by_side
from ..words import tell
from .files import read
from .sums import NAME as SUMS, sums_of


def testimonies(words: argparse.Namespace, due: Checkpoint) -> dict[str, bytes]:
    """Their words for this checkpoint, by the names of files. No publication waits for one, and no
    witness for another."""
    found: dict[str, bytes] = {}
    why: dict[str, str] = {}

    def ask(one: Witness) -> None:
        try:
            text, sign = (at(f"{one.where}{end}", words.ca, "desk-publish") for end in ("", ".sig"))
            why[one.name] = unwitnessed(one, text, sign, due)
        except (NoAnswer, Stop, Unreadable) as fault:
            why[one.name] = str(fault)
        if not why[one.name]:
            found.update({one.file: text, f"{one.file}.sig": sign})

    witnesses = witnesses_in(words.witnesses)
    side_by_side([partial(ask, one) for one in witnesses], SECONDS)
    for one in witnesses:
        said = why.get(one.name, f"no answer in {SECONDS} seconds")
        if said:
            tell(f"desk-publish: {one.name} hasn't signed calls {due.calls} yet: {said}")
    return {**found}


def published_testimonies(link: str, due: bytes) -> dict[str, bytes]:
    """Those that were published with the same checkpoint."""
    def one(name: str) -> bytes:
        return read(os.path.join(os.path.realpath(link), name))

    if not os.path.lexists(link) or one(NAME) != due:
        return {}
    return {name: one(name) for name in sums_of(one(SUMS)).files if name.startswith("witness-")}


def came(words: argparse.Namespace, link: str) -> bool:
    """Whether a witness has signed what is published since."""
    text = read(os.path.join(os.path.realpath(link), NAME))
    return not testimonies(words, checkpoint_of(text)).keys() <= published_testimonies(
        link, text).keys()
