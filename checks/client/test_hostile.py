"""What a hostile desk answers ends in one line: an answer that never ends, one of a depth that no
stack has; and nothing of it moves a terminal's cursor."""
from __future__ import annotations

import io
import json
import ssl
from typing import Any, Callable

import pytest

from checks.support.between import Between, answer
from checks.support.deskctl import Office
from checks.support.dripping import WAYS, dripping
from checks.support.images import PLAIN, sha256
from checks.support.messages import got
from kovelamiru import http
from kovelamiru.desk import objects
from kovelamiru.faults import NoAnswer, Stop
from kovelamiru.terminal import Terminal


@pytest.fixture(autouse=True)
def quick(monkeypatch: pytest.MonkeyPatch) -> None:
    """Each limit is a second."""
    for name in ("CONNECT_SECONDS", "ANSWER_SECONDS", "BODY_SECONDS", "LEAST_SECONDS"):
        monkeypatch.setattr(http, name, 1)


def ask(url: str, context: ssl.SSLContext | None = None) -> http.Answer:
    return http.Site(http.address(url), context, "", "a test").once(http.Call("GET", "/"))


@pytest.mark.timeout(30)
@pytest.mark.parametrize("way", WAYS)
def test_an_answer_that_never_ends_is_lost(way: str) -> None:
    with dripping(way) as url, pytest.raises(NoAnswer) as found:
        ask(url)
    assert str(found.value) == "the answer was lost: it wasn't whole after 1 seconds"
    assert found.value.sent


@pytest.mark.timeout(30)
def test_a_handshake_that_never_ends_is_no_connection() -> None:
    with dripping("nothing") as url, pytest.raises(NoAnswer) as found:
        ask(url.replace("http:", "https:"), ssl.create_default_context())
    assert str(found.value).startswith("no connection to https://127.0.0.1:")
    assert not found.value.sent


@pytest.mark.parametrize("read", (
    http.Answer.json, http.Answer.object, lambda answer: list(objects(answer)),
), ids=("json", "object", "objects"))
@pytest.mark.parametrize("text", (b"[", b'{"a":'))
def test_an_answer_of_a_great_depth_isnt_a_desks(
    read: Callable[[http.Answer], Any], text: bytes
) -> None:
    for status in (200, 400):
        found = http.Answer(status, http.JSON, io.BytesIO(b"[" + text * 100_000))
        assert found.refusal() is None
        with pytest.raises(Stop) as fault:
            read(found)
        assert str(fault.value).startswith("the answer isn't a desk's: ")


# ---- what would move a terminal's cursor

SIGNS = "\x1b[2K\x07\x9b\u202e"
JSON_SIGNS = json.dumps(SIGNS)[1:-1].encode()


def test_no_line_that_is_shown_has_such_a_character(monkeypatch: pytest.MonkeyPatch) -> None:
    streams = [io.StringIO(), io.StringIO()]
    for stream in streams:
        monkeypatch.setattr(stream, "isatty", lambda: True)
    shown = Terminal(*streams)
    monkeypatch.setattr(shown, "asks", True)
    monkeypatch.setattr("sys.stdin", io.StringIO("yes\n"))
    shown.say(f"a\tb\n{SIGNS}")
    shown.data(f"a\n{SIGNS}\n".encode())
    for tell in (shown.doubt, shown.note, shown.warn):
        tell(SIGNS)
    shown.stop(SIGNS, [SIGNS])
    shown.confirm([SIGNS], SIGNS)
    said = "".join(stream.getvalue() for stream in streams)
    assert said.replace("\n", "").replace("\t", "").isprintable(), said
    assert (said.count(r"\x1b[2K\x07\x9b\x202e"), "a\tb\n" in said) == (9, True), said


def test_a_pipe_gets_what_the_desk_has() -> None:
    data = io.BytesIO()
    out = io.TextIOWrapper(data, "utf-8")
    Terminal(out, out).data(b"\x1b\xff")
    assert data.getvalue() == b"\x1b\xff"


def test_a_hostile_desk_moves_no_cursor(office: Office, between: Between) -> None:
    """A title within a doubt, the report, the level, and minutes."""
    people = office.people_at(between.url)
    people["ann"].does("submit plain.efi --title one")
    people["olga"].does(f"revoke --digest {sha256(PLAIN)} --yes")
    for path in ("/requests/from/1", f"/requests/with/{sha256(PLAIN)}"):
        found = office.server.ask(got("olga", path)).partition(b"\r\n\r\n")[2]
        between.shows[path] = answer(200, found.replace(b'"one"', b'"%s"' % JSON_SIGNS))
    texts = {"report": "/report", "get level": "/level", "level": "/level", "minutes": "/minutes/1"}
    for line in ("proposal 1", "confirm 1", *texts):
        if line in texts:
            found = office.server.ask(got("olga", texts[line])).partition(b"\r\n\r\n")[2]
            text = found.replace(b"\n", SIGNS.encode() + b"\n")
            between.shows[texts[line]] = answer(200, text, "text/plain")
        _, shown = people["otto"].asked(line)
        assert not {"\x1b", "\x07", "\x9b", "\u202e"} & {*shown}, (line, shown)
        assert r"\x1b[2K" in shown or line == "level", (line, shown)
