"""Days at a desk of seven people, two of them officers: who asks for what, and every byte of the
answer that is due."""
from __future__ import annotations

from checks.support.images import (
    CERTIFICATE, PLAIN, SIGNED, TBS, THREE_LISTS, X509_KIND, authenticode, certificate_list,
    changed, digest, digest_list, sha256, signature_list,
)
from checks.support.largest import LARGEST
from checks.support.messages import octets, ok, refused, text, token
from checks.support.readings import READINGS
from checks.support.steps import (
    Step, again, closes, confirms, drops, grub, judges, lists, named, proposal, proposes, raising,
    reads, refuses, returns, reviews, shown, submits, takes, vote
)
from checks.support.tags import TAGS

YES = [("raul", "yes", ""), ("rita", "yes", "")]
APPROVED = shown(1, "ann", "A", "approved", YES)
REJECTED = shown(2, "rita", "B", "rejected", [("rosa", "no", "")])
EMPTY_LEVEL = "sbat,1,2021030218\n"

# ---- days

# Who may review, and when; what a submitter is shown.
REVIEWS = [
    submits("ann", "k1", PLAIN, "A", 1),
    refuses(21, "ann", "k2", "/requests/1/review", vote("yes")),
    reviews("rita", "k1", 1, "yes", "open"),
    refuses(26, "rita", "k2", "/requests/1/review", vote("yes")),
    reviews("raul", "k1", 1, "yes", "approved"),
    refuses(24, "rosa", "k1", "/requests/1/review", vote("yes")),
    submits("rita", "k2", PLAIN, "B", 2),
    refuses(25, "rita", "k3", "/requests/2/review", vote("yes")),
    reviews("rosa", "k1", 2, "no", "rejected"),
    reads("ann", "/requests/2", refused(23)),
    reads("ann", "/requests/1", ok(APPROVED)),
    reads("ann", "/requests", ok([APPROVED])),
    reads("rita", "/requests", ok([APPROVED, REJECTED])),
]

# What is returned has to be listed, and to be the image that was approved; then verdicts, and a
# revoked certificate.
SIGNED_REQUEST = shown(1, "ann", "A", "signed", YES, sha256(SIGNED))
RETURNS = [
    *REVIEWS,
    refuses(29, "sid", "k1", "/requests/1/return", SIGNED),
    takes("olga", "k1", "/db/certificates", CERTIFICATE, {"reply": "listed"}),
    refuses(33, "olga", "k2", "/db/certificates", CERTIFICATE),
    refuses(27, "sid", "k1", "/requests/1/return", changed(SIGNED, (600, "01"))),
    returns("sid", "k1", 1, SIGNED),
    refuses(24, "sid", "k2", "/requests/1/return", SIGNED),
    reads("ann", "/requests/1", ok(SIGNED_REQUEST)),
    reads("ann", "/db", octets(signature_list(X509_KIND, [CERTIFICATE]))),
    judges("ann", SIGNED, {"verdict": "allowed"}),
    judges("ann", PLAIN, {"verdict": "not-listed"}),
    proposes("olga", "k2", "/dbx/certificates", named(TBS), 1),
    judges("ann", SIGNED, {"verdict": "allowed"}),
    confirms("otto", "k1", 1, 0, 1, 0, 0),
    judges("ann", SIGNED, {"verdict": "dbx-certificate"}),
    takes("olga", "k3", "/db/unlist", named(TBS, kind="certificate"), {"reply": "unlisted"}),
    refuses(34, "olga", "k4", "/db/unlist", named(TBS, kind="certificate")),
    judges("ann", SIGNED, {"verdict": "dbx-certificate"}),
    refuses(30, "olga", "k4", "/dbx/certificates", named(TBS)),
    reads("ann", "/dbx", octets(certificate_list([TBS]))),
]

# The level rises, and the verdict on an image with a component follows it.
LEVELS = [
    reads("ann", "/level", text(EMPTY_LEVEL)),
    reads("ann", "/dbx", octets(b"")),
    *(
        lists("olga", f"k{number}", authenticode(grub(generation)))
        for number, generation in enumerate((2, 3, 4294967295), 1)
    ),
    judges("ann", grub(2), {"verdict": "allowed"}),
    proposes("olga", "k4", "/level", raising("grub", 3, 2024010100), 1),
    reads("ann", "/level", text(EMPTY_LEVEL)),
    confirms("otto", "k1", 1, 0, 0, 1, 0),
    reads("ann", "/level", text("sbat,1,2024010100\ngrub,3\n")),
    refuses(31, "olga", "k5", "/level", raising("grub", 2, 2024010101)),
    refuses(32, "olga", "k5", "/level", raising("grub", 4, 2024010100)),
    refuses(31, "olga", "k5", "/level", raising("sbat", 2, 2024010101)),
    judges("ann", grub(2), {"component": "grub", "generation": 2, "level": 3, "verdict": "sbat"}),
    judges("ann", grub(3), {"verdict": "allowed"}),
    judges("ann", grub(4294967295), {"verdict": "allowed"})
]

# Signature lists are imported; a second time nothing is new.
IMPORTED = digest_list([digest("aa")]) + certificate_list([digest("bb")])
LISTS = [
    refuses(15, "olga", "k1", "/imports/dbx", THREE_LISTS[:215], at=168),
    reads("olga", "/proposals", ok([])),
    proposes("olga", "k1", "/imports/dbx", THREE_LISTS, 1),
    reads("ann", "/dbx", octets(b"")),
    confirms("otto", "k1", 1, 1, 1, 0, 1),
    proposes("olga", "k2", "/imports/dbx", THREE_LISTS, 2),
    confirms("otto", "k2", 2, 0, 0, 0, 1),
    reads("ann", "/dbx", octets(IMPORTED)),
    again("olga", "k1", "/imports/dbx", THREE_LISTS, {"proposal": 1, "reply": "proposed"}),
]

# A file of CSV is imported: without a stamp only where it raises nothing. Then a level's text, an
# entry off the list, a withdrawal, and the report.
REPORT = {
    "people": 7, "requests": 1, "open": 0, "approved": 0, "rejected": 0, "withdrawn": 1,
    "signed": 0, "listed digests": 0, "listed certificates": 0, "revoked digests": 1,
    "revoked certificates": 0, "level components": 1, "commands": 16, "stamp": 2024010100,
}
CSV = f"kind,value,generation\nsha256,{digest('aa')},\nsbat,grub,2\nsbat,grub,3\n".encode()
FILES = [
    refuses(32, "olga", "k1", "/imports/csv", CSV),
    refuses(19, "olga", "k1", "/imports/csv", b"kind,value\n", at=0),
    refuses(
        19, "olga", "k1", "/imports/csv", b"kind,value,generation\nsbat,sbat,2\n",
        ("Desk-Stamp", "2024010100"), at=1
    ),
    reads("ann", "/level", text(EMPTY_LEVEL)),
    reads("olga", "/proposals", ok([])),
    proposes("olga", "k1", "/imports/csv", CSV, 1, ("Desk-Stamp", "2024010100")),
    confirms("otto", "k1", 1, 1, 0, 1, 0),
    reads("ann", "/level", text("sbat,1,2024010100\ngrub,3\n")),
    reads("ann", "/dbx", octets(digest_list([digest("aa")]))),
    proposes("olga", "k2", "/imports/csv", CSV, 2),
    confirms("otto", "k2", 2, 0, 0, 0, 0),
    reads("ann", "/level", text("sbat,1,2024010100\ngrub,3\n")),
    proposes("olga", "k3", "/imports/level", b"sbat,1,2024010101\nshim,4\n", 3),
    lists("olga", "k4", digest("bb")),
    takes("olga", "k5", "/db/unlist", named(digest("bb"), kind="digest"), {"reply": "unlisted"}),
    submits("ann", "k1", PLAIN, "A", 1),
    takes("ann", "k2", "/requests/1/withdraw", b"", {"reply": "withdrawn", "request": 1}),
    reads("ann", "/report", refused(21)),
    reads("olga", "/report", text("".join(
        f"{name}{value:>{34 - len(name)}}\n" for name, value in REPORT.items()))),
]

# Two proposals of one digest, and two of one component: what is refused when it is confirmed stays
# open, and is dropped.
TWO_PROPOSALS = [
    proposes("olga", "k1", "/dbx/digests", named(digest("bb")), 1),
    proposes("olga", "k2", "/dbx/digests", named(digest("bb")), 2),
    confirms("otto", "k1", 1, 1, 0, 0, 0),
    closes(30, "confirm", "otto", "k2", 2),
    drops("olga", "k3", 2),
    closes(39, "drop", "otto", "k2", 2),
    closes(37, "drop", "otto", "k2", 3),
    proposes("olga", "k4", "/level", raising("grub", 3, 2024010100), 3),
    proposes("olga", "k5", "/level", raising("grub", 4, 2024010101), 4),
    confirms("otto", "k2", 4, 0, 0, 1, 0),
    closes(31, "confirm", "otto", "k3", 3),
    reads(
        "otto", "/proposals",
        ok(
            [
                proposal(1, "olga", "confirmed", digests=1),
                proposal(2, "olga", "dropped", digests=1),
                proposal(3, "olga", "open", components=1),
                proposal(4, "olga", "confirmed", components=1)
            ]
        )
    )
]

# The first requests of a desk: one with a token, one without, one whose body is a byte short, one
# without a byte.
FIRST_REQUESTS = [
    Step(
        b"GET /level HTTP/1.1\r\nDesk-Token: %s\r\n\r\n" % token("olga").encode(),
        b"HTTP/1.1 200 OK\r\nContent-Type: text/plain\r\nContent-Length: 18\r\n"
        b"Connection: close\r\n\r\nsbat,1,2021030218\n"
    ),
    Step(
        b"GET /level HTTP/1.1\r\n\r\n",
        b"HTTP/1.1 401 Unauthorized\r\nContent-Type: application/json\r\nContent-Length: 37\r\n"
        b'WWW-Authenticate: Desk\r\nConnection: close\r\n\r\n{"name":"UnknownCaller","refused":20}'
    ),
    Step(
        submits("ann", "k1", PLAIN, "A", 1).given[:-1],
        b"HTTP/1.1 400 Bad Request\r\nContent-Type: application/json\r\nContent-Length: 31\r\n"
        b'Connection: close\r\n\r\n{"name":"BadHead","refused":50}'
    ),
    Step(b"", b""),
    reads("ann", "/requests", ok([])),
    Step(
        submits("ann", "k1", PLAIN, "A", 1).given,
        b"HTTP/1.1 200 OK\r\nContent-Type: application/json\r\nContent-Length: 33\r\n"
        b'Connection: close\r\n\r\n{"reply":"submitted","request":1}',
        True
    )
]

# By name. Each begins on a desk of the people alone. The model (checks/model) has the rest.
DAYS = {
    "reviews": REVIEWS, "returns": RETURNS, "levels": LEVELS, "lists": LISTS, "files": FILES,
    "two proposals": TWO_PROPOSALS, "readings": READINGS, "tags": TAGS,
    "first requests": FIRST_REQUESTS, "the largest": LARGEST,
}
