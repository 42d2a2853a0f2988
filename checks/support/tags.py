"""A day of commands with the tag of what was looked at, or of something else; and of reasons."""
from __future__ import annotations

from checks.support.images import PLAIN, authenticode, digest, sha256
from checks.support.messages import PEOPLE, ok, text
from checks.support.steps import (
    again, explains, if_match, minutes, named, proposes, reads, reason, refuses, submits, tag_of,
    takes, vote, whole
)

PROPOSED = if_match(tag_of([digest("aa")], [], [], None, 0))
OTHER, FILE = if_match(digest("bb")), if_match(sha256(PLAIN))
REVIEW = ("/requests/1/review", vote("yes"))
REVIEWED = {"reply": "reviewed", "request": 1, "state": "open"}
CONFIRM, DROP = ("/proposals/1/confirm", b""), ("/proposals/1/drop", b"")
CONFIRMED = {
    "certificates": 0, "components": 0, "digests": 1, "passed": 0, "proposal": 1,
    "reply": "confirmed"
}
BECAUSE = "CVE-2023-40547, see https://example.org/15.8"
EXPLAIN = "/proposals/1/explain"
TAGS = [
    submits("ann", "k1", PLAIN, "A", 1),
    refuses(49, "rita", "k1", *REVIEW, if_match(authenticode(PLAIN))),
    refuses(51, "rita", "k1", *REVIEW, ("If-Match", "*")),
    takes("rita", "k1", *REVIEW, REVIEWED, FILE),
    again("rita", "k1", *REVIEW, REVIEWED, FILE),
    refuses(49, "ann", "k2", "/requests/1/withdraw", b"", OTHER),
    refuses(49, "sid", "k1", "/requests/1/return", bytes(64), OTHER),
    proposes("olga", "k1", "/dbx/digests", named(digest("aa")), 1, OTHER),
    explains("olga", "k2", 1, BECAUSE),
    again("olga", "k2", EXPLAIN, reason(BECAUSE), {"proposal": 1, "reply": "explained"}),
    refuses(52, "olga", "k3", EXPLAIN, reason("a ")),
    refuses(21, "ann", "k2", EXPLAIN, reason("a")),
    refuses(49, "otto", "k1", *CONFIRM, OTHER),
    refuses(49, "olga", "k3", *DROP, OTHER),
    refuses(38, "olga", "k3", *CONFIRM, PROPOSED),
    takes("otto", "k1", *CONFIRM, CONFIRMED, PROPOSED),
    explains("otto", "k2", 1, "~" * 200),
    refuses(39, "olga", "k3", *DROP, PROPOSED),
    reads("otto", "/proposals/1", ok(whole(1, "olga", "digest", "confirmed", [digest("aa")]))),
    reads("olga", f"/minutes/{len(PEOPLE) + 4}", text(minutes(
        len(PEOPLE) + 4, ("olga", "k2", f"explain 1 {BECAUSE}", "explained 1"),
        ("otto", "k1", "confirm 1", "confirmed 1 1 0 0 0"),
        ("otto", "k2", f"explain 1 {'~' * 200}", "explained 1"),
    ))),
]
