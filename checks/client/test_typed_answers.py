"""Each question of page/wire/questions.json at a real terminal of 80 columns: its lines have whole
words, and whatever isn't a whole yes sends nothing, and leaves no key."""
from __future__ import annotations

import re
from typing import NamedTuple

import pytest

from checks.support.deskctl import Office
from checks.support.images import PLAIN, authenticode, changed, digest, digest_list, sha256
from checks.support.says import expect, fail
from checks.support.wire import wire

QUESTIONS: dict[str, dict[str, str]] = wire("questions")


class Asked(NamedTuple):
    """A question and its sentence, who is asked, on which words, and what is typed to go on."""

    question: str
    sentence: str
    who: str
    line: str
    yes: str = "yes"


ASKED = [
    Asked("submit", "twice", "ann", "submit 2.efi --title again"),
    Asked("yes", "second", "raul", "review 2 yes"),
    Asked("yes", "barred", "rita", "review 3 yes"),
    Asked("several", "title", "raul", "review 6 7 yes"),
    Asked("no", "plain", "rita", "review 4 no"),
    Asked("withdraw", "plain", "ann", "withdraw 5"),
    Asked("return", "carried", "sid", "return 1 signed.efi"),
    Asked("drop", "plain", "otto", "drop 2"),
    Asked("unlist", "typed", "olga", f"unlist digest {digest('ee')}", "eeeeeeee"),
    # (an empty line is no reason)
    Asked("import", "name", "olga", "import db.esl", "yes\n"),
    # (in deskctl's own words)
    Asked("propose", "", "olga", f"revoke --digest {sha256(PLAIN)}", "yes\n"),
]
# What is typed, and how the run ends.
NO = {
    "y": ("y", 2), "n": ("n", 2), "Enter": ("", 2), "Ctrl-C": ("\x03", 130), "Ctrl-D": ("\x04", 2),
}


def image(number: int) -> bytes:
    return changed(PLAIN, (1016, number.to_bytes(8, "big").hex()))


@pytest.fixture
def busy(office: Office) -> Office:
    """An approved request, three with a yes, one that is barred, two open ones; a listed digest, an
    open proposal."""
    office.file("db.esl", digest_list([digest("77")]))
    for number in (2, 3, 4, 5, 6, 7):
        office.file(f"{number}.efi", image(number))
    for name in ("plain", "2", "3", "4", "5", "6", "7"):
        office["ann"].does(f"submit {name}.efi --title 'image {name}'")
    for name, number in (("rita", 1), ("raul", 1), ("rita", 2), ("rita", 6), ("rita", 7)):
        office[name].does(f"review {number} yes --yes")
    office["olga"].does("list-certificate certificate.der --yes")
    office["olga"].does(f"list-digest {digest('ee')} --yes")
    office["olga"].does(f"revoke --digest {authenticode(image(3))} --yes", "proposal 1")
    office["otto"].does("confirm 1 --yes")
    office["olga"].does(f"revoke --digest {digest('dd')} --yes", "proposal 2")
    return office


def sentence(one: Asked) -> str:
    """A pattern of what is due."""
    text = QUESTIONS[one.question].get(one.sentence, "Propose it all the same?")
    return re.sub(r"\\{\w+\\}", ".+", re.escape(text))


def answers(office: Office, one: Asked, key: str, typed: str, status: int) -> None:
    """A run that gets this answer ends so, and sends nothing."""
    before = office.report()
    ended, said = office[one.who].asked(one.line, typed, (24, 80))
    where = f"{key} at the question of: {one.who} {one.line}"
    if not re.search(sentence(one), " ".join(said.split())):
        fail(f"{where}: it isn't asked: {said}")
    asked = said[said.find("! ") : said.find("deskctl: ")].splitlines()
    expect([line for line in asked if len(line) > 80], [], f"long lines at {where}")
    expect((ended, office.report(), office[one.who].pending()), (status, before, []), where)
    told = "interrupted" if key == "Ctrl-C" else "nothing was sent"
    assert told in said, said


@pytest.mark.long(60)
def test_whatever_is_typed_but_a_whole_yes_sends_nothing(busy: Office) -> None:
    for one in ASKED:
        for key, (typed, status) in NO.items():
            answers(busy, one, key, typed, status)
        before = busy.report()
        ended, said = busy[one.who].asked(one.line, one.yes)
        expect((ended, busy[one.who].pending()), (0, []), f"{one.yes} at {one.line}: {said}")
        assert busy.report() != before, said


def test_each_question_is_typed_at() -> None:
    expect({one.question for one in ASKED}, set(QUESTIONS), "the questions")
