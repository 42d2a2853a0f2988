"""Answers that are lost, cut or another's at each point: asked again by the same run or by the next
one under the same key, each command takes effect once, or it is said that this isn't known."""
from __future__ import annotations

import io
import socket
import time
from dataclasses import replace

import pytest

from checks.support.between import (
    BUSY, HTML, NO_ANSWER, Between, Rule, Secured, answer, instead, kept, unsent,
)
from checks.support.client_day import TODAY
from checks.support.deskctl import Office, Person, with_room
from checks.support.images import digest
from checks.support.messages import said
from checks.support.ports import Held
from checks.support.says import expect, fail
from checks.support.waits import until
from kovelamiru import desk as tries
from kovelamiru.deskctl.run import replied
from kovelamiru.deskctl.settings import Settings, desk_of
from kovelamiru.http import Call
from kovelamiru.journal import new_key
from kovelamiru.terminal import Terminal

JSON = "application/json"
POINTS: dict[str, Rule] = {
    "no answer": NO_ANSWER,
    "a byte of the answer": kept(lambda found: found[:1]),
    "the head of the answer": kept(lambda found: found.split(b"\r\n\r\n")[0] + b"\r\n\r\n"),
    "all but a byte of the answer": kept(lambda found: found[:-1]),
    "no request": unsent(lambda request: b""),
    "half the head": unsent(lambda request: request[: request.index(b"\r\n\r\n") // 2]),
    "all but a byte": unsent(lambda request: request[:-1]),
    "502 before": instead(502), "502 behind": instead(502, acts=True),
    "504 behind": instead(504, acts=True), "429": instead(429),
    "no memory": instead(503, b'{"name":"NoMemory","refused":40}', JSON),
}
# Each command that the minutes keep.
COMMANDS = [line.split(" ", 1) for line in f"""\
ann submit signed.efi --title one
rita review 1 yes
raul review 1 yes
olga list-certificate certificate.der --yes
sid return 1 signed.efi --yes
ann submit plain.efi --title two
ann withdraw 2
olga list-digest {digest('11')}
olga unlist digest {digest('11')}
olga revoke --digest {digest('12')}
otto confirm 1 --yes
olga revoke odd.efi
otto drop 2
olga raise grub 3 --stamp {TODAY}01 --yes
olga import lists.esl""".split("\n")]
GROUPS = [[*POINTS][at : at + 2] for at in range(0, len(POINTS), 2)]
TAKEN, AGAIN, UNKNOWN = (
    "taking up the keys of", "Run the same command again", "an earlier try isn't known",
)
SUBMIT = "submit plain.efi --title T"


@pytest.mark.long(50)
@pytest.mark.parametrize("points, by", [
    *((points, "the same run") for points in GROUPS),
    (["no answer", "half the head"], "the next run"),
], ids=lambda one: one if isinstance(one, str) else ", ".join(one))
def test_each_command_that_is_lost_takes_effect_once(
    office: Office, between: Between, points: list[str], by: str
) -> None:
    people, again = office.people_at(between.url), by == "the next run"
    for name, line in COMMANDS:
        who = people[name]
        between.loses += [POINTS[point] for point in points]
        for at in range(len(points)) if again else ():
            who.ends(3, f"{line} --retries 0", AGAIN, *[TAKEN] * (at > 0))
            expect(len(who.pending()), 1, f"the journal after a lost {line}")
        who.does(line, err=[TAKEN if again else "again in"])
        expect((who.pending(), between.loses), ([], []), f"the journal, what isn't lost: {line}")
    keys = between.keys()
    count, tries = len(COMMANDS), len(points) + 1
    expect((len(keys), len(set(keys))), (tries * count, count), "tries, keys")
    expect([row[1] for row in office.calls()], [name for name, _ in COMMANDS], "the minutes")


@pytest.mark.long(50)
def test_an_answer_or_a_request_cut_at_any_length_is_asked_for_again(
    office: Office, between: Between, monkeypatch: pytest.MonkeyPatch
) -> None:
    """In this process, by deskctl's own way of asking, since these are some hundred tries."""
    monkeypatch.setattr(tries, "FIRST_PAUSE", 0.0)
    terminal = Terminal(io.StringIO(), io.StringIO())
    terminal.quiet = True
    file = str(office["olga"].token_file)
    site = desk_of(
        Settings(between.url, file, None, None, None, None, None, False, 1), terminal
    )
    listing = Call("POST", "/db/digests", reply="listed")
    tried = 0

    def lost(rule: Rule) -> None:
        nonlocal tried
        between.loses = [rule]
        call = replace(listing, body=said({"digest": f"{tried:064x}"}))
        found = replied(site.ask(call.given(new_key(), "")), call)
        expect((found, between.loses), ({"reply": "listed"}, []), f"try {tried}")
        tried += 1

    found: list[bytes] = []

    def seen(request: bytes, ask: object) -> bytes:
        assert callable(ask)
        found.extend((request, ask(request)))
        return b""

    lost(seen)
    request, whole = found
    for size in range(len(whole)):
        lost(kept(lambda data, size=size: data[:size]))  # type: ignore[misc]
    for size in range(len(request)):
        lost(unsent(lambda data, size=size: data[:size]))  # type: ignore[misc]
    keys = [row[2] for row in office.calls()]
    expect((len(keys), len(set(keys))), (tried, tried), "commands, keys")


def test_what_never_went_out_leaves_no_key(office: Office) -> None:
    nobody = Held()
    for name, line, *texts in (
        ("olga", f"revoke --digest {digest('12')} --retries 1", "no connection"),
        ("ann", f"{SUBMIT} --retries 0", "no connection", "Is the desk running there"),
    ):
        who = office[name].at(f"http://127.0.0.1:{nobody.port}")
        who.ends(3, line, *texts)
        expect(who.pending(), [], "the journal")
    nobody.let_go()


def test_another_word_file_or_key_is_another_command(office: Office, between: Between) -> None:
    ann = office["ann"].at(between.url)
    for title in "TU":
        between.loses = [NO_ANSWER]
        ann.ends(3, f"submit plain.efi --title {title} --retries 0")
        if title == "T":
            ann.does(f"{SUBMIT} --new-key", "request 2")
            expect(ann.pending(), [], "the journal after --new-key")
    ann.does("submit plain.efi --title V", "request 4")
    ann.does("submit signed.efi --title U", "request 5")
    ann.does("submit plain.efi --title U", "request 3")


def refusal(number: int, name: str, status: int) -> Rule:
    return instead(status, said({"name": name, "refused": number}), JSON)


UNSETTLED = {
    "a proxy's 403": instead(403), "a proxy's 404": instead(404), "a proxy's 413": instead(413),
    "an unknown caller": refusal(20, "UnknownCaller", 401),
    "a head that was cut": refusal(50, "BadHead", 400),
}


@pytest.mark.parametrize("rule", UNSETTLED.values(), ids=[*UNSETTLED])
def test_a_refusal_that_settles_nothing_keeps_the_key_of_a_lost_answer(
    office: Office, between: Between, rule: Rule
) -> None:
    ann = office["ann"].at(between.url)
    between.loses = [NO_ANSWER, rule]
    ann.ends(1, SUBMIT, UNKNOWN)
    between.loses = [rule]
    ann.ends(1, SUBMIT, TAKEN, UNKNOWN)
    expect(len(ann.pending()), 1, "the journal")
    ann.does(SUBMIT, "request 1 submitted", err=[TAKEN])
    office.once(1)
    # Alone, such a refusal leaves nothing.
    between.loses = [rule]
    ann.ends(1, "submit plain.efi --title another", "refused")
    office.once(1)


def test_a_refusal_of_the_desk_behind_a_lost_answer_lets_the_key_go(
    office: Office, between: Between
) -> None:
    olga = office["olga"].at(between.url)
    olga.does(f"revoke --digest {digest('12')}")
    between.loses = [POINTS["no request"]]
    olga.ends(3, "drop 1 --retries 0")
    office["otto"].does("drop 1")
    olga.ends(1, "drop 1", TAKEN, "refused 39 ProposalClosed")
    office.once(2)


@pytest.mark.parametrize("status, text", [
    (507, "507, Insufficient Storage"), (520, "520, the proxy failed"),
    (202, "the answer isn't a desk's: 202, text/html"),
])
def test_a_page_of_a_proxys_own_leaves_open_what_became_of_it(
    office: Office, between: Between, status: int, text: str
) -> None:
    ann = office["ann"].at(between.url)
    between.loses = [instead(status, acts=True)]
    ann.ends(3, f"{SUBMIT} --retries 0", text, AGAIN)
    ann.does(SUBMIT, "request 1 submitted", err=[TAKEN])
    office.once(1)


def test_501_of_a_proxy_says_that_nobody_had_it(office: Office, between: Between) -> None:
    between.loses = [instead(501)]
    office["ann"].at(between.url).ends(1, SUBMIT, "refused by the proxy: 501 Not Implemented")
    office.once(0)


@pytest.mark.needs("openssl")
def test_a_certificate_that_isnt_trusted_keeps_the_key_of_a_lost_answer(office: Office) -> None:
    secured = Secured(office.server.port, office.desk.room / "trust")
    ann = office.people["ann"] = office.person("ann", secured.url, DESK_CA=str(secured.ca))
    secured.certificates = ["foreign"]
    ann.ends(3, SUBMIT, "isn't trusted")
    expect(ann.pending(), [], "the journal of what never went out")
    secured.loses, secured.certificates = [NO_ANSWER], ["site", "foreign"]
    ann.ends(3, SUBMIT, "isn't trusted", AGAIN)
    expect(len(ann.pending()), 1, "the journal of a lost answer")
    ann.does(SUBMIT, "request 1 submitted", err=[TAKEN])
    office.once(1)
    secured.close()


def test_a_store_that_failed_is_asked_again_by_the_next_run_alone(
    office: Office, between: Between
) -> None:
    """Each try may end the desk once more."""
    ann = office["ann"].at(between.url)
    between.loses = [instead(503, b'{"name":"Store","refused":41}', JSON, acts=True)]
    ann.ends(3, SUBMIT, "refused 41 Store", "The disk may be full")
    expect((len(between.seen), len(ann.pending())), (1, 1), "requests, the journal")
    ann.does("pending", "submit plain.efi", between.url)
    ann.does(SUBMIT, "request 1")
    office.once(1)


def test_a_key_that_isnt_whole_on_the_disk_doesnt_go_out(office: Office) -> None:
    office["ann"].ends(3, SUBMIT, "File too large", begin=with_room(100))
    expect(office.calls(), [], "the minutes")
    office["ann"].does(SUBMIT, "request 1")
    office.once(1)


# ---- waiting


def looked(between: Between, more: int) -> None:
    """Waits until so many more looks are taken at request 1."""

    def looks() -> int:
        return sum(head.startswith(b"GET /requests/1 ") for head in between.seen)

    wanted = looks() + more
    until(120, "`wait` asks", lambda: looks() >= wanted)


def proxied(office: Office, between: Between) -> Person:
    """ann behind a proxy, whose request 1 is open."""
    office["ann"].does(SUBMIT)
    return office["ann"].at(between.url)


def test_wait_goes_on_while_the_desk_is_out_of_reach(office: Office, between: Between) -> None:
    ann, line = proxied(office, between), "wait 1 --timeout 300 --retries 0"
    run = ann.start(line)
    looked(between, 1)
    between.shows["/requests/1"] = answer(502, BUSY, HTML)
    looked(between, 2)
    for name in ("rita", "raul"):
        office[name].does("review 1 yes")
    del between.shows["/requests/1"]
    found = ann.ended(run, line)
    if found.status or "request 1 approved" not in found.out:
        fail(str(found))
    assert "502, the proxy doesn't reach the desk; still waiting" in found.err, found
    between.shows["/requests/1"] = answer(502, BUSY, HTML)
    ann.ends(3, line, "the proxy doesn't reach the desk")


def test_wait_ends_at_its_time(office: Office, between: Between) -> None:
    """Though the desk is out of reach by then, or never answers."""
    ann, line = proxied(office, between), "wait 1 --state signed --timeout 3"
    run = ann.start(line)
    looked(between, 2)
    between.shows["/requests/1"] = answer(502, BUSY, HTML)
    begun, found = time.monotonic(), ann.ended(run, line)
    assert found.status == 3 and "request 1 is still open after 3 s" in found.err, found
    with socket.create_server(("127.0.0.1", 0)) as silent:
        ann.at(f"http://127.0.0.1:{silent.getsockname()[1]}")
        ann.ends(3, "wait 1 --timeout 1", "the answer was lost: ")
    assert time.monotonic() - begun < 60
