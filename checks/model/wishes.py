"""What is to come in a walk, and how often."""
from __future__ import annotations

import re
from typing import NamedTuple

from checks.model.asking import Asked
from checks.support.wire import COMMANDS

# Every so many requests the server ends, and the desk is compared.
EACH = 100
# How often each command is to be accepted: in the first half, which brings the requests, and in the
# second.
ACCEPTED = {
    "submit": (330, 30), "review": (170, 60), "withdraw": (12, 8), "return": (30, 25),
    "list-certificate": (30, 15), "list-digest": (25, 15), "unlist": (15, 15),
    "revoke-digest": (30, 85), "revoke-certificate": (15, 45), "raise": (20, 60),
    "import": (35, 85), "confirm": (35, 105), "drop": (12, 35),
    "explain": (15, 30)
}
# The refusals of If-Match.
MATCH = ["BadField", "Mismatch"]
# The refusals of each command, besides UnknownCaller, NotYourRole and KeyReused; each is to come so
# often in a half.
REFUSED = {
    "submit": ["Revoked"],
    "review": ["NoSuchRequest", *MATCH, "WrongState", "OwnRequest", "AlreadyReviewed"],
    "withdraw": ["NoSuchRequest", *MATCH, "WrongState"],
    "return": ["NoSuchRequest", *MATCH, "WrongState", "DigestDiffers", "Revoked", "NotListed"],
    "list-certificate": ["AlreadyListed"], "list-digest": ["AlreadyListed"], "unlist": ["NotThere"],
    "revoke-digest": ["AlreadyRevoked"], "revoke-certificate": ["AlreadyRevoked"],
    "raise": ["NotHigher", "StampNotLater"], "import": ["StampNotLater"],
    "confirm": [
        "NoSuchProposal", *MATCH, "ProposalClosed", "OwnProposal", "AlreadyRevoked", "NotHigher",
        "StampNotLater"
    ],
    "drop": ["NoSuchProposal", *MATCH, "ProposalClosed"],
    "explain": ["NoSuchProposal", *MATCH, "BadBody"]
}
TIMES = 4
# The route of each command, or its routes, and how often one that was accepted there is to be
# repeated.
ROUTES = COMMANDS
REPEATS, READS, IMPACTS = (3, 4), (90, 110), (10, 60)
IMPACT_REFUSALS = ["NotYourRole", "NoSuchProposal", "ProposalClosed", *REFUSED["confirm"][5:]]
# What is to come at least: proposals, requests to sign, and impacts over so many of these.
PROPOSALS, OVER, FORESEEN = 300, 300, 10
NAMES = ["fwupd", "grub", "grub.debian", "kernel", "shim", "systemd-boot", "u-boot", "xen"]
CALLERS = ("submitter", "reviewer", "officer", "signer")
# Others' tables, an index and a view, which stand in the file before the desk.
OTHERS = """
CREATE TABLE note (id INTEGER PRIMARY KEY, caller TEXT NOT NULL, body TEXT);
CREATE INDEX notes ON note (caller);
CREATE VIEW noted AS SELECT caller FROM note;
INSERT INTO note VALUES (1, 'olga', 'first'), (2, 'otto', 'second');
CREATE TABLE other_calls (digest BLOB NOT NULL PRIMARY KEY) STRICT;
INSERT INTO other_calls VALUES (x'cc');
"""
ROWS = """SELECT n.id, n.caller, n.body, v.caller, hex(o.digest)
FROM note n, noted v USING (caller), other_calls o ORDER BY n.id"""


class Wish(NamedTuple):
    """A command or `impact`, and the outcome that it is to have; `repeat`, and a route; or
    `read`."""

    kind: str
    outcome: str = ""


def wishes(half: int) -> list[Wish]:
    """What is to come in this half, in no order."""
    found = [
        Wish(kind, "accepted") for kind, counts in ACCEPTED.items() for _ in range(counts[half])
    ]
    for kind, own in REFUSED.items():
        found += [
            Wish(kind, why) for why in ["UnknownCaller", "NotYourRole", "KeyReused", *own]
            for _ in range(TIMES)
        ]
    found += [Wish("impact", why) for why in IMPACT_REFUSALS for _ in range(TIMES)]
    found += [Wish("repeat", route) for route in ROUTES] * REPEATS[half]
    found += [Wish("read")] * READS[half] + [Wish("impact", "accepted")] * IMPACTS[half]
    return found


def route_of(asked: Asked) -> str:
    return re.sub(r"/\d+", "/{no}", asked.path)
