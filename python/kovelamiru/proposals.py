"""What open proposals name: in the words of a list, and whether it is what is to be proposed."""
from __future__ import annotations

from typing import Any, Collection, Iterator, Optional, Sequence

from .answers import Counts, Impact, Proposal, proposal_in, shaped
from .described import WORDS
from .desk import Desk
from .faults import Refused
from .questions import QUESTIONS
from .standing import Standing, standing_of
from .words import kinds, printable, some_of

Components = Sequence[Sequence[Any]]
NAMES: dict[str, str] = WORDS["names"]
# Of so many open ones in a list it is read what they name.
DESCRIBED = 50


def open_proposals(desk: Desk, digests: Collection[str], certificates: Collection[str],
                   components: Components) -> Iterator[Proposal]:
    """The open proposals that may name some of these, each with all that it names."""
    for value in desk.listed("/proposals"):
        row = shaped(Counts, value)
        may = (row.digests and digests or row.certificates and certificates
               or row.components and components)
        if row.state == "open" and may:
            one = proposal_in(desk.get(f"/proposals/{row.number}").object())
            if one.state == "open":
                yield one


def open_question(one: Proposal, digests: Collection[str], certificates: Collection[str],
                  components: Components) -> Optional[str]:
    """Where an open proposal names some of these; a generation names those below it."""
    raised = {name: generation for name, generation in one.components}
    some = [NAMES["hash"].format(kind=kind, hex=entry[:8])
            for kind, entries, wanted in (("digest", one.digests, digests),
                                          ("certificate", one.certificates, certificates))
            for entry in entries if entry in wanted]
    some += [NAMES["component"].format(name=printable(name), generation=generation)
             for name, generation in components if generation <= raised.get(name, 0)]
    if not some:
        return None
    return QUESTIONS["propose"]["open"].format(number=one.number, officer=printable(one.officer),
                                               what=some_of(some))


def open_doubts(desk: Desk, digests: Collection[str], certificates: Collection[str],
                components: Components) -> list[str]:
    """What open proposals of the desk name of these."""
    found = (open_question(one, digests, certificates, components)
             for one in open_proposals(desk, digests, certificates, components))
    return [text for text in found if text]


def names_words(one: Proposal, now: Standing, bars: Optional[Sequence[dict[str, Any]]]) -> str:
    """The one entry that a proposal names, in a list's words; `bars` is what it would newly bar,
    if that is known. Nothing where it names more."""
    if len(one.digests) + len(one.certificates) + len(one.components) != 1:
        return ""
    for name, generation in one.components:
        return NAMES["component"].format(name=printable(name), generation=generation)
    for tbs in one.certificates:
        listed = now.certificates.get(tbs)
        return NAMES["certificate"].format(name=listed.called) if listed else NAMES["hash"].format(
            kind="certificate", hex=tbs[:8])
    words = NAMES["hash"].format(kind="digest", hex=one.digests[0][:8])
    if bars is None:
        return words
    barred = sorted(bars, key=lambda each: not each["allowed"])
    if not barred:
        return f"{words}, {NAMES['none']}"
    today = NAMES["allowed" if barred[0]["allowed"] else "refused"]
    return NAMES["image"].format(what=words, title=printable(barred[0]["title"]),
                                 number=barred[0]["request"], today=today)


def counts_words(row: Counts) -> str:
    """How many entries of each kind a proposal names."""
    return kinds({name: count for name, count in row.named().items() if count})


def described(desk: Desk, row: Counts, now: Standing) -> str:
    """The same of an open proposal in a list, as the desk says it; nothing where it names more, or
    is open no more."""
    if row.state != "open" or sum(row.named().values()) != 1:
        return ""
    path = f"/proposals/{row.number}"
    try:
        one = proposal_in(desk.get(path).object())
    except Refused:
        # It is another desk now.
        return ""
    try:
        found = desk.get(f"{path}/impact").object() if row.digests else None
    except Refused:
        found = None
    return names_words(one, now, shaped(Impact, found).bars if found else None)


def names_of(desk: Desk, rows: Sequence[Counts]) -> dict[int, str]:
    """What the first open ones of a list name, by their numbers."""
    first = [row for row in rows if row.state == "open" and sum(row.named().values()) == 1]
    now = standing_of(desk) if any(row.certificates for row in first) else Standing()
    return {row.number: described(desk, row, now) for row in first[:DESCRIBED]}
