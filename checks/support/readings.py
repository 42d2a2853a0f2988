"""A day on which each reading is asked for by who may have it, and by who may not: the proposal
whole with what it would bar, what waits, the lists in parts, searches by a digest, the minutes, the
people, and the facts of an image. The model (checks/model) has each after some 2,300 requests."""
from __future__ import annotations

from checks.support.images import (
    CERTIFICATE, PLAIN, TABLE, TBS, authenticode, digest, sha256, signing, with_table
)
from checks.support.messages import PEOPLE, ok, refused, text, token, waiting
from checks.support.steps import (
    Shown, Step, bars, confirms, drops, grub, impact, minutes, named, proposal, proposes, reads,
    refuses, returns, reviews, shown, submits, takes, tells, whole
)

# ann's image has another digest once it is padded. rita's is that one, padded, and carries a
# certificate; so does the file that is returned for ann's.
ODD = PLAIN + bytes(5)
PADDED, RETURNED = with_table(ODD + bytes(3), TABLE), with_table(ODD, TABLE)
TITLE = 'a "title" \\ of <it>'
ADDED = [
    (
        "console", f"k-{name}", f"add-person {name} {role} {sha256(token(name).encode())}",
        f"added {name}",
    )
    for name, role in PEOPLE.items()
]
BY_RITA, YES = [("rita", "yes", "")], [("raul", "yes", ""), ("rita", "yes", "")]
OPEN = shown(1, "ann", TITLE, "open", [], image=ODD)
OWN: Shown = {**shown(2, "rita", "B", "open", [], image=PADDED), "carried": [TBS]}
VOTED = shown(1, "ann", TITLE, "open", BY_RITA, image=ODD)
APPROVED = shown(1, "ann", TITLE, "approved", YES, image=ODD)
SIGNED = shown(1, "ann", TITLE, "signed", YES, sha256(RETURNED), ODD)
CSV = f"kind,value,generation\nsha256,{authenticode(ODD)},\nx509_sha256,{TBS},\n".encode()
BARRED = [
    bars(1, "submitted", "signed", "ann", TITLE, False, verdict="dbx-digest"),
    bars(2, "submitted", "open", "rita", "B", True, verdict="dbx-certificate"),
    bars(1, "returned", "signed", "ann", TITLE, True, verdict="dbx-digest"),
]
FOUND: dict[str, list[Shown]] = {
    sha256(ODD): [SIGNED], authenticode(ODD): [SIGNED], signing(ODD): [SIGNED, OWN],
    sha256(RETURNED): [SIGNED], TBS: [OWN], sha256(CERTIFICATE): [],
}


def waits(name: str, requests: list[Shown], proposals: list[Shown] | None = None) -> Step:
    return reads(name, "/waiting", waiting(requests, proposals or []))


def counts(name: str, number: int) -> Step:
    return reads(name, "/changes", ok({"changes": number}))


def proposed(state: str) -> Shown:
    return whole(1, "olga", "import", state, [authenticode(ODD)], [TBS])


READINGS = [
    reads("olga", "/minutes/1", text(minutes(1, *ADDED))),
    reads("olga", "/people", ok([{"name": name, "role": PEOPLE[name]} for name in sorted(PEOPLE)])),
    *(reads(name, "/me", ok({"name": name, "role": role})) for name, role in PEOPLE.items()),
    tells("ann", ODD), tells("sid", with_table(PLAIN, TABLE), [TBS]),
    tells("olga", grub(2), components=[("sbat", 1), ("grub", 2)]),
    refuses(2, "rita", "unused", "/facts", bytes(64)),
    submits("ann", "k1", ODD, TITLE, 1), submits("rita", "k1", PADDED, "B", 2),
    # A reviewer's own request waits while it is under way; others' wait until the vote is given.
    waits("ann", [OPEN]), waits("rita", [OPEN, OWN]), waits("raul", [OPEN, OWN]), waits("sid", []),
    counts("ann", 1), counts("rita", len(ADDED) + 2),
    reviews("rita", "k2", 1, "yes", "open"), waits("ann", [VOTED]), waits("rita", [OWN]),
    reviews("raul", "k1", 1, "yes", "approved"),
    # What is approved waits for a signer and its submitter.
    waits("ann", [APPROVED]), waits("sid", [APPROVED]), waits("raul", [OWN]),
    takes("olga", "k1", "/db/certificates", CERTIFICATE, {"reply": "listed"}),
    returns("sid", "k1", 1, RETURNED),
    reads("rita", "/requests/from/1", ok([SIGNED, OWN])), reads("sid", "/requests/from/3", ok([])),
    reads("ann", "/requests/from/1", ok([SIGNED])), reads("ann", "/requests/from/2", ok([])),
    *(reads("rosa", f"/requests/with/{one}", ok(rows)) for one, rows in FOUND.items()),
    # A submitter is shown own ones alone.
    reads("ann", f"/requests/with/{signing(ODD)}", ok([SIGNED])),
    reads("ann", f"/requests/with/{TBS}", ok([])),
    reads("rosa", f"/requests/with/{signing(ODD).upper()}", ok([SIGNED, OWN])),
    reads("nobody", f"/requests/with/{TBS}", refused(20)),
    proposes("olga", "k3", "/imports/csv", CSV, 1),
    reads("otto", "/proposals/1", ok(proposed("open"))),
    reads("otto", "/proposals/1/impact", ok(impact(1, BARRED, 168, 1, 1))),
    # A proposal waits for the other officer.
    waits("olga", []), waits("otto", [], [proposal(1, "olga", "open", 1, 1)]),
    *(
        reads("sid", path, refused(21)) for path in (
            "/proposals/1", "/proposals/1/impact", "/proposals/from/1", "/minutes/1", "/people",
        )
    ),
    *(reads("otto", path, refused(37)) for path in ("/proposals/2", "/proposals/2/impact")),
    *(
        reads("olga", path, refused(53)) for path in (
            "/requests/from/0", "/proposals/from/x", "/requests/from/", f"/requests/with/{TBS[1:]}",
        )
    ),
    proposes("otto", "k1", "/dbx/digests", named(digest("aa")), 2),
    reads("olga", "/proposals/from/2", ok([proposal(2, "otto", "open", digests=1)])),
    reads("olga", "/proposals/from/3", ok([])),
    confirms("otto", "k2", 1, 1, 1, 0, 0), drops("olga", "k4", 2),
    reads("otto", "/proposals/1", ok(proposed("confirmed"))),
    reads("otto", "/proposals/1/impact", refused(39)),
    counts("otto", len(ADDED) + 10), waits("otto", []),
    reads("otto", f"/minutes/{len(ADDED) + 9}", text(minutes(
        len(ADDED) + 9, ("otto", "k2", "confirm 1", "confirmed 1 1 1 0 0"),
        ("olga", "k4", "drop 2", "dropped 2"),
    ))),
    reads("otto", "/minutes/1000000", text("")),
]
