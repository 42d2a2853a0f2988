"""Whether a file of revocations looks like a list of what is allowed: db, or a MokList."""
from __future__ import annotations

import re

from .questions import QUESTIONS
from .revocations import Revocations
from .standing import Standing
from .words import printable, some_of

# How such a file is named: db.esl, MokListRT, KEK-8be4df61-.. of efivarfs; not dbx, nor MokListX.
NAMES = re.compile(r"(?:^|[^a-z])(?:db|kek|pk|moklist)(?:rt|default|update)?(?![a-z])", re.I)


def is_whole(found: Revocations) -> bool:
    """Whether every entry is a whole certificate."""
    return bool(found.given) and found.entries() == len(found.certificates) and (
        found.given.keys() == set(found.certificates))


def allow_doubts(name: str, found: Revocations, now: Standing) -> list[str]:
    """What makes a file of this name look so."""
    asks = QUESTIONS["import"]
    entries = set(found.digests) | set(found.certificates)
    listed = sorted(entries & (now.digests | now.certificates.keys()))
    lacks = len(entries - now.revoked_digests - now.revoked_certificates)
    doubts = [asks["name"].format(name=printable(name))] if NAMES.search(name) else []
    doubts += [asks["whole"]] if is_whole(found) else []
    if found.owners and now.owners >= found.owners.keys() and lacks:
        doubts.append(asks["own"].format(count=f"{lacks:,}"))
    if listed:
        doubts.append(asks["listed"].format(names=some_of([now.called(one) for one in listed])))
    return doubts
