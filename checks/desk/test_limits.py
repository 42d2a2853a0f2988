"""The limits of docs/FORMATS.md: at each the greatest that is allowed is taken, and one more
refused.

Over HTTP, and on the command line where there is a subcommand for it: names, tokens, keys, titles,
notes and numbers; bodies and parts of the minutes. Memory is ample, so nothing is NoMemory. Limits
of heads are in test_cuts.py, of images in test_limits_of_images.py, full desks in
test_full_desks.py; an import of 10,000 entries and of one more is on the largest of the days."""
from __future__ import annotations

import pytest

from checks.conftest import NewDesk
from checks.support.images import CERTIFICATE, PLAIN, X509_KIND, digest, sha256, signature_list
from checks.support.largest import der
from checks.support.messages import Field, octets, ok, posted, refused, request, text, token
from checks.support.program import Program
from checks.support.server import serves
from checks.support.steps import (
    Step, confirms, drops, named, proposes, raising, reads, refuses, submits, takes, too_large,
    vote, whole,
)

BODY_LIMIT = 4_194_304


def csv(rows: list[str]) -> bytes:
    return "\n".join(["kind,value,generation", *rows, ""]).encode()


# ---- texts

LONGEST_NAME, LONGEST_KEY = "n" * 32, "k" * 64


@pytest.mark.parametrize(
    "name, key, secret, bad",
    [
        (LONGEST_NAME, LONGEST_KEY, "t" * 128, None), ("n", "k", "s" * 16, None),
        (LONGEST_NAME + "n", LONGEST_KEY, "u" * 128, "NAME"),
        (LONGEST_NAME, LONGEST_KEY + "k", "u" * 128, "KEY"),
        (LONGEST_NAME, LONGEST_KEY, "u" * 129, "TOKEN"),
        (LONGEST_NAME, LONGEST_KEY, "u" * 15, "TOKEN"),
    ],
    ids=["longest", "shortest", "a longer name", "a longer key", "a longer token", "a short token"],
)
def test_a_person_has_a_name_a_key_and_a_token_within_their_limits(
    desk: Program, new_desk: NewDesk, name: str, key: str, secret: str, bad: str | None
) -> None:
    path = new_desk()
    due = (0, f"added {name}\n".encode(), b"")
    if bad:
        due = (2, b"", f"bad {bad}\n".encode())
    desk.ends(*due, "person", path, name, "officer", key, given=f"{secret}\n".encode())
    if bad != "TOKEN":
        hashed = f"{sha256(secret.encode())}\n".encode()
        desk.ends(*due, "enrol", path, name, "officer", key, given=hashed)


def title(length: int) -> Field:
    return ("Desk-Title", "t" * length)


def certificate(size: int) -> bytes:
    """A certificate of so many bytes."""
    return der(0x30, CERTIFICATE[2:].ljust(size - 6, b"\0"))


def by(secret: str, path: str) -> bytes:
    return request("GET", path, [("Desk-Token", secret)])


AA, BB = named(digest("aa")), named(digest("bb"))


def with_length(length: str) -> bytes:
    """A revocation of BB whose length is spelled so."""
    fields = [("Desk-Token", token("olga")), ("Desk-Key", "k2"), ("Content-Length", length)]
    return request("POST", "/dbx/digests", fields) + BB


def texts() -> list[Step]:
    """Tokens, keys, bodies, titles and notes."""
    longest = [("Desk-Token", "t" * 128), ("Desk-Key", LONGEST_KEY)]
    by_longest = request("POST", "/dbx/digests", longest, AA)
    filled_drop = posted("olga", "k5", "/proposals/4/drop", bytes(BODY_LIMIT))
    level_text = text("sbat,1,2021030218\n")
    reviewed: dict[str, object] = {"reply": "reviewed", "request": 1, "state": "open"}
    return [
        Step(by("t" * 128, "/level"), level_text),
        Step(by("s" * 16, "/level"), level_text),
        Step(by("t" * 129, "/level"), refused(20)),
        Step(by_longest, ok({"proposal": 1, "reply": "proposed"})),
        reads("olga", "/proposals/1", ok(whole(1, LONGEST_NAME, "digest", "open", [digest("aa")]))),
        refuses(51, "olga", LONGEST_KEY + "k", "/dbx/digests", BB),
        Step(with_length(f"{len(BB):011}"), refused(51)),
        Step(with_length(f"{len(BB):010}"), ok({"proposal": 2, "reply": "proposed"})),
        # (a body that is longer than a hundred bytes, and one at its limit)
        proposes("olga", "k3", "/dbx/digests", named(digest("cc")).ljust(400), 3),
        proposes("olga", "k4", "/dbx/digests", named(digest("dd")).ljust(BODY_LIMIT), 4),
        too_large("olga", "k5", "/dbx/digests", BODY_LIMIT + 1),
        drops("olga", "k5", 4)._replace(given=filled_drop),
        too_large("olga", "k6", "/proposals/3/drop", BODY_LIMIT + 1),
        submits("ann", LONGEST_KEY, PLAIN, "t" * 120, 1),
        refuses(51, "ann", "k2", "/requests", PLAIN, title(121)),
        refuses(51, "ann", "k2", "/requests", PLAIN, title(0)),
        takes("rita", "k1", "/requests/1/review", vote("yes", "n" * 200), reviewed),
        refuses(52, "raul", "k1", "/requests/1/review", vote("yes", "n" * 201)),
    ]


def numbers() -> list[Step]:
    """Numbers, components and certificates, at a desk with those texts."""
    component = "n" * 128
    return [
        *(reads("ann", f"/requests/{number}", refused(23)) for number in (999999, 1000000)),
        *(reads("olga", f"/proposals/{number}", refused(37)) for number in (999999, 1000000)),
        reads("olga", "/minutes/9999999", text("")),
        reads("olga", "/minutes/10000000", refused(53)),
        refuses(52, "olga", "k6", "/level", raising(component, 4294967296, 2024010100)),
        refuses(52, "olga", "k6", "/level", raising(component + "n", 1, 2024010100)),
        refuses(52, "olga", "k6", "/level", raising(component, 1, 10_000_000_000)),
        refuses(52, "olga", "k6", "/level", raising(component, 1, 999_999_999)),
        refuses(
            51, "olga", "k6", "/imports/csv", csv([f"sbat,{component},1"]),
            ("Desk-Stamp", "20240101000"),
        ),
        proposes("olga", "k6", "/level", raising(component, 4294967295, 9_999_999_999), 5),
        confirms("otto", "k1", 5, 0, 0, 1, 0),
        reads("ann", "/level", text(f"sbat,1,9999999999\n{component},4294967295\n")),
        refuses(13, "olga", "k7", "/db/certificates", certificate(65_537)),
        takes("olga", "k7", "/db/certificates", certificate(65_536), {"reply": "listed"}),
        reads("ann", "/db", octets(signature_list(X509_KIND, [certificate(65_536)]))),
    ]


def test_texts_and_numbers_over_http_have_their_limits(desk: Program, new_desk: NewDesk) -> None:
    """Each at its most and one more; names are those of the command line."""
    path = new_desk()
    for name, secret in ((LONGEST_NAME, "t" * 128), ("n", "s" * 16)):
        given = f"{secret}\n".encode()
        desk.gives("person", path, name, "officer", f"k-{secret[0]}", given=given)
    serves(desk, path, [*texts(), *numbers()], "texts and numbers", ends=False)
