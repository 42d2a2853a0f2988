"""Minutes in words: page/wire/sentences.json has a row for each text of docs/FORMATS.md and no
other; deskctl says of each case of page/wire/cases/minutes.json what the table has; and why."""
from __future__ import annotations

import json
import re
from typing import Any

import pytest

from checks.support.says import expect
from checks.support.tools import ROOT
from checks.support.wire import FOLDER
from kovelamiru import sentences, why

# Each `<aa>` is the SHA-256 that it stands for.
MINUTES = (FOLDER / "cases" / "minutes.json").read_text(encoding="utf-8")
WORDS: dict[str, Any] = json.loads(re.sub(r"<(\w\w)>", lambda one: one[1] * 32, MINUTES))
# A value for each word of docs/FORMATS.md.
SAMPLES = {
    "NAME": "grub", "ROLE": "officer", "HEX": "0a" * 32, "TITLE": "a title", "NUMBER": "1",
    "NOTE": "a note", "GENERATION": "4", "STAMP": "2026112701", "PASSED": "0", "LIST": "-",
    "LENGTH": "1024", "GAP": "0", "STATE": "open", "D": "1", "C": "1", "N": "1", "P": "0",
}
ROWS = [row for rows in sentences.ROWS.values() for row in rows]


def formats() -> tuple[list[str], list[str]]:
    """The texts of commands and of replies that docs/FORMATS.md has, with values."""
    page = (ROOT / "docs" / "FORMATS.md").read_text(encoding="utf-8")
    section = page.split("\n## Texts of commands and replies\n")[1].split("\n## ")[0]
    facts = re.search(r"FACTS is `([^`]*)`", section)
    assert facts
    table = re.findall(r"(?m)^\| [A-Zt].* \| (`.*) \|$", section)
    rows = [re.findall(r"`([^`]*)`", row.replace("FACTS", facts[1])) for row in table]
    rows = [[" ".join(SAMPLES.get(word, word) for word in text.split(" ")) for text in row]
            for row in rows]
    replies = rows.index(["added grub"])
    assert replies >= 14
    commands = [text for row in rows[:replies] for text in row if " " in text]
    commands += [text.replace(" yes ", " no ") for text in commands if " yes " in text]
    return commands, [text for row in rows[replies:] for text in row]


def test_each_text_of_the_formats_has_a_sentence_and_each_sentence_a_text() -> None:
    commands, replies = formats()
    met, heard, silent = [], set(), []
    for command in commands:
        found = [(reply, sentences.said(command, reply)) for reply in replies]
        said = [(reply, one.row) for reply, one in found if one]
        met += [row for _, row in said]
        heard |= {reply for reply, _ in said}
        silent += [] if said else [command]
    expect(silent + sorted(set(replies) - heard), [], "texts without a row")
    expect([row.command for row in ROWS if row not in met], [], "rows without a text")


def line(number: int, caller: str, text: str, reply: str, key: str = "k") -> str:
    return f"{number}\t{caller}\t{key}\t{text}\t{reply}"


def minute(*row: str) -> sentences.Minute:
    found = sentences.minute(line(7, *row))
    assert found
    return found


@pytest.mark.parametrize("caller, text, reply, sentence", WORDS["sentences"])
def test_a_call_is_said_in_a_sentence(caller: str, text: str, reply: str, sentence: str) -> None:
    assert minute(caller, text, reply).sentence() == sentence


def test_each_command_has_a_case() -> None:
    said = [sentences.said(text, reply) for _, text, reply, _ in WORDS["sentences"]]
    assert {tuple(one.row.command) for one in said if one} == {tuple(row.command) for row in ROWS}


@pytest.mark.parametrize("caller, text, reply", WORDS["unknown"])
def test_a_call_of_no_known_form_is_shown_as_it_stands(caller: str, text: str, reply: str) -> None:
    found = minute(caller, text, reply)
    assert (found.said, found.sentence()) == (None, f"{caller}: {text} ({reply})")


def test_a_key_of_deskctls_has_a_time_and_a_line_of_nothing_is_none() -> None:
    times = {key: minute("ann", "x", "y", key).time() for key in WORDS["times"]}
    assert times == WORDS["times"]
    assert [one for one in WORDS["lines"] if sentences.minute(one)] == []


@pytest.mark.parametrize("ask", WORDS["asks"], ids=lambda ask: str([*ask.values()][0]))
def test_why_finds_what_stands_the_calls_and_the_requests(ask: dict[str, str]) -> None:
    hexes = {ask["hex"]} if "hex" in ask else set()
    component = {ask["component"]} if "component" in ask else set()
    names = why.Names(set(hexes), set(hexes), set(hexes), component)
    found = why.story(names, (line(at, *row) for at, row in enumerate(WORDS["history"], 1)))
    expect({
        "now": list(found.now.values()), "calls": [one.number for one in found.calls],
        "requests": [[one.number, one.state, one.how] for one in found.requests.values()],
    }, {key: ask[key] for key in ("now", "calls", "requests")}, "the story")


@pytest.mark.parametrize("case", WORDS["answers"], ids=[
    f"{one['file'][:2]} after {one['until']} calls" for one in WORDS["answers"]
])
def test_why_begins_with_the_answer(case: dict[str, Any]) -> None:
    """Whether an image is barred or allowed, and by what."""
    names = why.Names({case["file"]}, {case["file"]}, {case["file"]})
    rows = [line(number, *row) for number, row in enumerate(WORDS["history"], 1)]
    assert why.story(names, rows[: case["until"]]).answer() == case["answer"]
