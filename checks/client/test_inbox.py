"""deskctl inbox: what waits for each role, and one's own under way."""
from __future__ import annotations


import pytest

from checks.support.client_day import BOTH, ODD
from checks.support.deskctl import Office
from checks.support.images import PLAIN, authenticode
from checks.support.says import expect
from checks.support.steps import named, vote

# What each sees once rita has agreed to ann's first request, and one of raul's own is open. The
# image of the second one is barred.
DUE: dict[str, list[str]] = {
    "ann": ["yours request 1 linux 6.12 / amd64|ann|1 of 2 yes, by rita|-",
            "yours request 2 linux 6.12 / arm64|ann|0 of 2 yes|barred",
            "yours request 4 shim|ann|approved|-"],
    "rita": ["waits request 2 linux 6.12 / arm64|ann|0 of 2 yes|barred",
             "waits request 3 mine|raul|0 of 2 yes|-"],
    "raul": ["waits request 1 linux 6.12 / amd64|ann|1 of 2 yes, by rita|-",
             "waits request 2 linux 6.12 / arm64|ann|0 of 2 yes|barred",
             "yours request 3 mine|raul|0 of 2 yes|-"],
    "sid": ["waits request 4 shim|ann|approved|-"],
    "olga": ["yours proposal 2 2 digests, 1 certificate|olga|-"],
    "otto": ["waits proposal 2 2 digests, 1 certificate|olga|-"],
}


POSTS: list[tuple[str, str, bytes, str]] = [
    ("ann", "/requests", PLAIN, "linux 6.12 / amd64"),
    ("ann", "/requests", ODD, "linux 6.12 / arm64"),
    ("raul", "/requests", PLAIN, "mine"), ("ann", "/requests", PLAIN, "shim"),
    ("ann", "/requests", PLAIN, "gone"), ("ann", "/requests/5/withdraw", b"", ""),
    ("rita", "/requests/1/review", vote("yes"), ""),
    ("rita", "/requests/4/review", vote("yes"), ""),
    ("raul", "/requests/4/review", vote("yes"), ""),
    ("olga", "/dbx/digests", named(authenticode(ODD)), ""),
    ("otto", "/proposals/1/confirm", b"", ""), ("olga", "/imports/csv", BOTH, ""),
]


@pytest.fixture
def filled(office: Office) -> Office:
    for name, path, body, title in POSTS:
        office.server.does(name, path, body, *[("Desk-Title", one) for one in [title] if one])
    return office


def seen(office: Office, name: str, line: str = "inbox") -> list[str]:
    lines = office[name].does(line).splitlines()
    return [one.replace("\t", " ", 3).replace("\t", "|") for one in lines]


def test_each_role_sees_what_waits_for_it(filled: Office) -> None:
    """The same by `deskctl` alone."""
    for name in DUE:
        expect(seen(filled, name), DUE[name], f"what {name} sees")
    expect(seen(filled, "rita", ""), DUE["rita"], "deskctl alone")
    waits = filled["rita"].json("inbox")
    expect([one["number"] for one in waits["requests"]], [2, 3], "as JSON")


def test_a_terminal_of_80_columns_has_it(filled: Office) -> None:
    status, said = filled["raul"].asked("inbox", size=(24, 80))
    expect(filled["raul"].asked("", size=(24, 80)), (status, said), "deskctl alone")
    expect((status, said.splitlines()), (0, [
        "Waits for you: 2", "REQUEST  TITLE    BY   STATE                TODAY",
        "linux 6.12: 1 2", "1          amd64  ann  1 of 2 yes, by rita  -",
        "2          arm64  ann  0 of 2 yes           barred", "Yours under way: 1",
        "REQUEST  TITLE  BY    STATE       TODAY", "3        mine   raul  0 of 2 yes  -"]), "")
    status, said = filled["olga"].asked("inbox", size=(24, 80))
    expect((status, said.splitlines()), (0, [
        "Nothing waits for you.", "Yours under way: 1",
        "PROPOSAL  NAMES                     BY    AGE",
        "2         2 digests, 1 certificate  olga  -"]), "an officer whose proposal is open")
