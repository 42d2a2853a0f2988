"""An evening on which a desk's machine is lost with its last calls: whoever repeats a vote or a
Confirm with deskctl lands on what was looked at, or on nothing."""
from __future__ import annotations

import re
from typing import Callable, Sequence

import pytest

from checks.support.between import Ask, Between, unsent
from checks.support.deskctl import Office
from checks.support.images import digest
from checks.support.program import copy_of
from checks.support.says import expect
from checks.support.server import Server
from checks.support.tools import EXAMPLES

SWALLOWED = unsent(lambda request: b"")
VOTES = [("rita", "review 1 yes"), ("raul", "review 1 yes")]
CONFIRM = ("otto", "confirm 1 --bars 0")


class Evening:
    """Two histories of one desk, behind one address: the second goes on from the first's
    beginning."""

    def __init__(self, office: Office, between: Between, serve: Callable[..., Server]) -> None:
        self.office, self.between, self.serve = office, between, serve
        self.people = office.people_at(between.url)
        self.other = copy_of(office.server.desk, office.desk.room / "promoted.db")

    def does(self, name: str, line: str, status: int = 0) -> str:
        """What deskctl prints as this person, whose journal stays from run to run."""
        found = self.people[name].run(f"--retries 0 --yes {line}")
        expect(found.status, status, f"{name} types: deskctl {line}: {found}")
        return found.out + found.err

    def submits(self, image: str, title: str) -> None:
        line = f"submit {EXAMPLES / image} --title '{title}'"
        assert "request 1 submitted" in self.does("ann", line)

    def is_lost(self, acts: Sequence[tuple[str, str]]) -> None:
        """Commands are swallowed, and the machine with them; the other desk takes its place."""
        self.between.loses = [SWALLOWED] * len(acts)
        for name, line in acts:
            assert "Run the same command again" in self.does(name, line, 3)
        self.office.server.kill()
        self.between.desk = self.serve(self.other).port


@pytest.fixture
def evening(office: Office, between: Between, serve: Callable[..., Server]) -> Evening:
    return Evening(office, between, serve)


def test_a_repeated_vote_lands_on_no_other_file(evening: Evening) -> None:
    evening.submits("tiny.efi", "a loader")
    evening.is_lost(VOTES)
    evening.submits("signed.efi", "another loader")
    for name, line in VOTES:
        said = evening.does(name, line, 1)
        assert "Request 1 is another file now." in said and "lost its last calls" in said, said
    said = evening.does("olga", "request 1")
    assert "state       open" in said and "vote " not in said, said
    # The keys are forgotten: who looks again may vote.
    evening.does(*VOTES[0])


def test_a_repeated_confirm_lands_on_no_other_proposal(evening: Evening) -> None:
    evening.does("olga", f"revoke --digest {digest('aa')}")
    evening.is_lost([CONFIRM])
    evening.does("olga", f"revoke --digest {digest('bb')}")
    said = evening.does(*CONFIRM, 1)
    assert "Proposal 1 names something else now." in said, said
    assert "open" in evening.does("otto", "proposal 1")


def test_a_repeat_at_the_same_desk_takes_effect_once(evening: Evening) -> None:
    evening.submits("tiny.efi", "a loader")
    evening.between.loses = [SWALLOWED]
    evening.does(*VOTES[0], 3)
    assert "reviewed: open" in evening.does(*VOTES[0])
    assert "reviewed: approved" in evening.does(*VOTES[1])


def stripped(request: bytes, ask: Ask) -> bytes:
    return ask(re.sub(rb"(?i)if-match:[^\r]*\r\n", b"", request, count=1))


def test_without_the_field_the_votes_land_on_a_file_that_nobody_saw(evening: Evening) -> None:
    """What the field is for: a proxy that takes it away brings the danger back."""
    evening.submits("tiny.efi", "a loader")
    evening.is_lost(VOTES)
    evening.submits("signed.efi", "another loader")
    evening.between.loses = [stripped] * len(VOTES)
    for name, line in VOTES:
        evening.does(name, line)
    assert "approved" in evening.does("olga", "request 1")
