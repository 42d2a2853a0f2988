"""deskctl requests and proposals: which rows are taken, in which order and in how many parts; what
a terminal shows of them."""
from __future__ import annotations

from typing import Any

import pytest

from checks.support.between import Between, shown
from checks.support.deskctl import Office, Person
from checks.support.images import digest
from checks.support.says import expect
from checks.support.wire import wire
from kovelamiru.search import proposal_matches, request_matches

SEARCH: dict[str, Any] = wire("cases/search")
STATES = ("open", "approved", "signed", "rejected")
TITLES = (
    "linux 6.12.118-1 / cloud-amd64", "linux 6.12.118-1 / cloud-arm64", "Shim 16.1-1 amd64",
    "a loader whose title is as long as a line of a narrow terminal, for amd64",
)
# As many as two parts of the desk have.
COUNT = 2000


def row(number: int) -> dict[str, Any]:
    return {
        "carried": [], "components": [], "digest": f"{number:064x}", "file": digest("ab"), "gap": 0,
        "length": 512, "number": number, "returned": None, "signing": f"{number:064x}",
        "state": STATES[number % 4], "submitter": ("ann", "rita")[number % 2],
        "title": TITLES[number % 4], "votes": [],
    }


@pytest.fixture
def rita(office: Office, between: Between) -> Person:
    """rita at a proxy that shows a long list in parts."""
    rows = [row(number) for number in range(1, COUNT + 1)]
    for first in (1, 1001, 1101, COUNT + 1):
        between.shows[f"/requests/from/{first}"] = shown(rows[first - 1 : first + 999])
    return office["rita"].at(between.url)


def numbers(person: Person, words: str) -> list[int]:
    return [int(line.split("\t")[0]) for line in person.does(f"requests {words}").splitlines()]


def asked(between: Between) -> list[str]:
    found = [head.split(b" ")[1].decode() for head in between.seen]
    between.seen.clear()
    return [path for path in found if path.startswith("/requests")]


@pytest.mark.parametrize("text, due", SEARCH["proposals"])
def test_a_search_takes_these_proposals(text: str, due: bool) -> None:
    assert proposal_matches(SEARCH["proposal"], text) == due


@pytest.mark.parametrize("text, due", SEARCH["cases"])
def test_a_search_takes_what_its_table_says(text: str, due: bool) -> None:
    assert request_matches(SEARCH["request"], text) == due


def test_a_list_is_read_in_parts_and_no_further_than_it_is_shown(
    rita: Person, between: Between
) -> None:
    one, two, three = (f"/requests/from/{first}" for first in (1, 1001, COUNT + 1))
    for words, due, paths in (
        ("--limit 3", [1, 2, 3], [one]), ("", [*range(1, COUNT + 1)], [one, two, three]),
        ("--from 1101 --limit 2 --state open", [1104, 1108], ["/requests/from/1101"]),
        ("--search 1500", [1500], [one, two, three]),
        ("--sort newest --limit 2", [2000, 1999], [one, two, three]),
        ("--mine --limit 2 --search SHIM", [], [one, two, three]),
        ("--mine --search 'arm64' --limit 2", [1, 5], [one]),
        ("--sort title --limit 1", [3], [one, two, three]),
        (f"--search {row(77)['digest'][:8]} --limit 1", [1], [one]),
    ):
        expect((numbers(rita, words), asked(between)), (due, paths), words)
    expect([one["number"] for one in rita.json("requests --limit 2 --from 1001")], [1001, 1002], "")
    expect(rita.json("requests --search 'no such title'"), [], "as JSON")
    rita.ends(2, "requests --limit 0", "no number")


@pytest.mark.parametrize("pager, due", [
    ("tr a-z A-Z", "  CLOUD-ARM64"), ("cat", "  cloud-arm64"), ("no-such-pager", "  cloud-arm64"),
])
def test_a_list_longer_than_the_terminal_goes_through_the_pager(
    rita: Person, pager: str, due: str
) -> None:
    rita.env["PAGER"] = pager
    assert due in rita.asked("requests --limit 30", size=(24, 120))[1]
    # What fits needs none, and a file or a pipe gets none.
    assert "  cloud-arm64" in rita.asked("requests --limit 5", size=(24, 120))[1]
    assert "linux 6.12.118-1 / cloud-arm64" in rita.does("requests --limit 30")
