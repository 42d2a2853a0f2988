"""Reasons: by page/wire/cases/minutes.json; and at a desk: given with a proposal and behind it,
sent once, shown before a Confirm."""
from __future__ import annotations

import shlex
from pathlib import Path

import pytest

from checks.client.test_sentences import WORDS, line
from checks.support.between import NO_ANSWER, Ask, Between, Rule, answer, instead, shown, unsent
from checks.support.client_day import TODAY
from checks.support.deskctl import NO_TERMINAL, Office
from checks.support.images import digest
from checks.support.says import expect
from kovelamiru import reasons, sentences

BECAUSE = "CVE-2023-40547, see https://example.org/15.8"
REVOKE = f"revoke --digest {digest('aa')}"
WHY = f"--why '{BECAUSE}'"


def test_the_reasons_of_a_proposal_are_those_of_its_calls() -> None:
    history = [line(at, *row) for at, row in enumerate(WORDS["history"], 1)]
    found = reasons.reasons_in(filter(None, map(sentences.minute, history)))
    told = {number: [[one.officer, one.text] for one in found.get(int(number), [])]
            for number in WORDS["reasons"]}
    assert told == WORDS["reasons"]


def explains(office: Office) -> list[str]:
    """The texts of the calls that explain."""
    return [row[3] for row in office.calls() if row[3].startswith("explain ")]


def test_a_morning_with_reasons(office: Office) -> None:
    olga, otto = office["olga"], office["otto"]
    olga.does(f"{REVOKE} {WHY}", "proposal 1 proposed\nproposal 1 explained\n")
    olga.does(f"raise grub 3 --stamp {TODAY}01 --yes --why 'grub 2 loads anything'", "proposal 2")
    otto.does("import lists.esl --yes --why 'of the other vendor'", "proposal 3 explained")
    otto.does("explain 1 'not yet; two days more'", "proposal 1 explained\n")
    olga.does(f"revoke --digest {digest('bb')} --why ''", "proposal 4")
    said = [f"olga, {TODAY[:4]}-", f": {BECAUSE}", ": not yet; two days more"]
    otto.does("proposal 1", *said)
    expect("why  " in otto.does("proposal 4"), False, "reasons of proposal 4")
    office.refuses("otto", "confirm 1", *said, NO_TERMINAL)
    status, rows = otto.asked("inbox")
    assert status == 0 and ": not yet; two days more  " in rows, rows
    status, shown_ = otto.asked("confirm 1", "0")
    assert status == 0 and all(text in shown_ for text in said), shown_
    otto.does(f"why {digest('aa')}", f"olga explained proposal 1: {BECAUSE}", "not yet; two days")
    status, rows = otto.asked("proposals", size=(60, 300))
    assert status == 0 and "1 digest: not yet; two days more  " in rows, rows
    assert "grub to 3: grub 2 loads anything  " in rows and "digest bbbbbbbb.., which" in rows, rows
    expect(explains(office), [
        f"explain 1 {BECAUSE}", "explain 2 grub 2 loads anything", "explain 3 of the other vendor",
        "explain 1 not yet; two days more"], "reasons")
    office.once(9)


def test_a_reason_is_asked_for_at_a_terminal(office: Office) -> None:
    """What isn't in its form is asked for again; an empty line is none."""
    typed = f"caf\u00e9\n{BECAUSE}"
    status, said = office["olga"].asked(REVOKE, typed)
    assert status == 0 and "'é' at place 4" in said and said.count("Why?") == 2, said
    status, said = office["olga"].asked(f"revoke --digest {digest('bb')}", "")
    assert status == 0 and "proposal 2 proposed" in said and "explained" not in said, said
    status, said = office["olga"].asked(f"revoke --digest {digest('cc')} --yes")
    assert status == 0 and "Why?" not in said, said
    expect(explains(office), [f"explain 1 {BECAUSE}"], "reasons")


LOST = {"its answer": NO_ANSWER, "itself": unsent(lambda _: b"")}


@pytest.mark.parametrize("rule", LOST.values(), ids=[*LOST])
@pytest.mark.parametrize("again", [f"{REVOKE} {WHY}", f"explain 1 '{BECAUSE}'"],
                         ids=["the same command", "explain"])
def test_a_reason_that_was_lost_goes_once(
    office: Office, between: Between, again: str, rule: Rule
) -> None:
    olga = office["olga"].at(between.url)
    between.loses = [lambda request, ask: ask(request), rule]
    said = olga.ends(3, f"{REVOKE} {WHY} --retries 0", "Proposal 1 is made",
                     f"deskctl explain 1 {shlex.quote(BECAUSE)}")
    assert "proposal 1 proposed" in said and "explained" not in said
    waits = olga.does("pending")
    assert f"explain 1 {BECAUSE}" in waits and "revoke" not in waits, waits
    expect(len(olga.pending()), 1, "entries of the journal")
    olga.does(again, "proposal 1 explained", err=["taking up"])
    expect((explains(office), len(office.calls())), ([f"explain 1 {BECAUSE}"], 2), "the commands")
    expect(olga.pending(), [], "entries of the journal")


@pytest.mark.parametrize("again", [f"{REVOKE} {WHY}", f"explain 1 '{BECAUSE}'"],
                         ids=["the same command", "explain"])
def test_a_reason_whose_proposal_cant_be_looked_at_waits_by_itself(
    office: Office, between: Between, again: str
) -> None:
    """The proposal is answered, and what the reason is about isn't: the journal has the reason
    alone, and it goes out about what is looked at then."""
    olga = office["olga"].at(between.url)
    between.shows["/proposals/1"] = answer(503, b"<html>busy</html>", "text/html")
    olga.ends(3, f"{REVOKE} {WHY} --retries 0", "Proposal 1 is made", out=["proposal 1 proposed"])
    waits = olga.does("pending")
    assert f"explain 1 {BECAUSE}" in waits and "revoke" not in waits, waits
    between.shows.clear()
    between.seen.clear()
    olga.does(again, "proposal 1 explained")
    [head] = [one for one in between.seen if b"/explain " in one]
    assert b"if-match: " in head.lower(), head
    expect((explains(office), len(office.calls())), ([f"explain 1 {BECAUSE}"], 2), "the commands")
    expect(olga.pending(), [], "entries of the journal")


def test_a_reason_that_was_lost_leaves_its_command_free(office: Office, between: Between) -> None:
    """With --new-key the same command is another proposal; what has no answer stays."""
    olga = office["olga"].at(between.url)
    between.loses = [lambda request, ask: ask(request), NO_ANSWER]
    olga.ends(3, f"{REVOKE} {WHY} --retries 0", "Proposal 1 is made")
    olga.does(f"{REVOKE} {WHY} --yes --new-key", "proposal 2 proposed", "proposal 2 explained")
    expect(len(olga.pending()), 1, "entries of the journal")


def test_killed_behind_the_reason_it_goes_once(office: Office, between: Between) -> None:
    """Killed once the reason was answered, and before the journal let go of the proposal: it still
    has that, and nothing of the reason."""
    olga = office["olga"].at(between.url)
    held: list[tuple[Path, bytes]] = []

    def rule(request: bytes, ask: Ask) -> bytes:
        held.extend((path, path.read_bytes()) for path in olga.journal.iterdir()
                    if b"explain" not in path.read_bytes())
        return ask(request)

    between.loses = [rule]
    olga.does(f"{REVOKE} {WHY}", "proposal 1 explained")
    [(path, data)] = held
    path.write_bytes(data)
    olga.does(f"{REVOKE} {WHY}", "proposal 1 proposed", "proposal 1 explained", err=["taking up"])
    office.once(2)


def test_a_reason_that_is_refused_leaves_the_proposal(office: Office, between: Between) -> None:
    olga = office["olga"].at(between.url)
    between.loses = [lambda request, ask: ask(request), instead(404)]
    olga.ends(1, f"{REVOKE} {WHY}", "refused by the proxy: 404", "Proposal 1 is made",
              out=["proposal 1 proposed"])
    office.once(1)


def test_a_confirm_stands_on_the_reasons_that_were_shown(office: Office) -> None:
    olga, otto = office["olga"], office["otto"]
    olga.does(REVOKE)
    late = "wait: it is the wrong one"
    status, said = otto.asked(
        "confirm 1", "0", meanwhile=lambda: olga.does(f"explain 1 '{late}'"))
    assert status == 2 and "proposal 1 was explained meanwhile" in said, said
    otto.does("proposal 1", late)
    office.once(2)


def test_the_reasons_are_read_from_the_proposals_own_call_on(
    office: Office, between: Between
) -> None:
    """The newest lines first, and none before the part that has the call."""
    otto, proposed = office["otto"].at(between.url), ["olga", "revoke-digest " + digest("aa")]
    rows = [["ann", "withdraw 1", "withdrawn 1"]] * 4200
    rows[1500] = [*proposed, "proposed 1"]
    for at in (1499, 1501, 3300, 4199):
        rows[at] = ["olga", f"explain 1 at {at}", "explained 1"]
    olga = office["olga"]
    olga.does(REVOKE)
    lines = [line(at, *row) + "\n" for at, row in enumerate(rows, 1)]
    between.shows["/changes"] = shown({"changes": 4200})
    between.history = [one.encode() for one in lines]
    between.seen.clear()
    said = otto.does("proposal 1", "at 1501", "at 3300", "at 4199")
    parts = [head.split(b" ")[1] for head in between.seen if b"/minutes/" in head]
    expect(parts, [b"/minutes/3201", b"/minutes/2201", b"/minutes/1201"], "the parts that are read")
    expect(said.count("  why  "), 4, "reasons")
