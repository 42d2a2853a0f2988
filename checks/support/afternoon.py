"""A desk with an afternoon of calls, made once for a test process."""
from __future__ import annotations

from checks.support.images import OWNER
from checks.support.program import Program
from checks.support.steps import (
    confirms, named, proposes, raising, returns, reviews, submits, takes,
)
from checks.support.tools import EXAMPLES

PEOPLE = (
    "ann/submitter", "rita/reviewer", "raul/reviewer", "sid/signer", "olga/officer", "otto/officer"
)
IMAGE = (EXAMPLES / "signed.efi").read_bytes()
CERTIFICATE = (EXAMPLES / "certificate.der").read_bytes()
SEVEN = f"{7:064}"


def afternoon(desk: Program, name: str) -> str:
    """Six people, a request, its reviews and its return, a listing, and a digest and a generation
    that two officers revoked."""
    path = desk.at(name)
    desk.gives("init", path, OWNER)
    for person in PEOPLE:
        desk.add(path, *person.split("/"))
    for step in (
        submits("ann", "k1", IMAGE, "a signed loader", 1),
        reviews("rita", "k1", 1, "yes", "open"),
        reviews("raul", "k1", 1, "yes", "approved"),
        takes("olga", "k1", "/db/certificates", CERTIFICATE, {"reply": "listed"}),
        returns("sid", "k1", 1, IMAGE),
        proposes("olga", "k2", "/dbx/digests", named(SEVEN), 1),
        confirms("otto", "k1", 1, 1, 0, 0, 0),
        proposes("olga", "k3", "/level", raising("grub", 3, 2024010100), 2),
        confirms("otto", "k2", 2, 0, 0, 1, 0),
    ):
        desk.answers(path, step.given, step.due, f"the afternoon: {step.given[:40]!r}")
    return path
