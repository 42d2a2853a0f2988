"""Inputs truncated at each place, and lengths that lie.

On the command line: an image, a certificate table, and two rows of signature lists. Over HTTP: two
requests truncated at each place, heads at their limits of fields and bytes, repeated fields and
malformed lengths, and bodies announced over their limits, of which the server keeps nothing. Each
gets the due refusal, and the desk's minutes don't change."""
from __future__ import annotations

from typing import Iterator

import pytest

from checks.conftest import NewDesk
from checks.support.images import OWNER, PLAIN, THREE_LISTS, digest, digest_list
from checks.support.messages import Field, got, line, refused, request, text, token
from checks.support.program import Program
from checks.support.says import expect, fail
from checks.support.server import Server
from checks.support.steps import submits

LAYOUT = b"0-152\n156-232\n240-512\n512-1024\ngap 0\n"
TWO_DIGESTS = digest_list([digest("aa"), digest("bb")])
# Where the lists of these bytes begin, and their lines.
THREE_PLACES = {
    0: b"0 sha256 1\n", 76: b"76 x509_sha256 1\n", 168: b"168 %s 1\n" % OWNER.encode(),
}


def image_fault(size: int) -> int | None:
    """What the first bytes of the image, so many, are refused for."""
    faults = ((87, 1), (89, 4), (511, 6), (1023, 7))
    return next((number for most, number in faults if size <= most), None)


# ---- by the command line


@pytest.mark.long(20)
def test_an_image_that_is_cut_is_refused_for_its_first_fault(desk: Program) -> None:
    for size in range(len(PLAIN) + 1):
        fault = image_fault(size)
        wanted = (0, LAYOUT, b"") if fault is None else (1, b"", line(fault))
        image = desk.file("image", PLAIN[:size])
        desk.ends(*wanted, "ranges", image, what=f"{size} bytes: ")


@pytest.mark.parametrize(
    "lists, lines", [(TWO_DIGESTS, {0: b"0 sha256 2\n"}), (THREE_LISTS, THREE_PLACES)],
    ids=["one list", "three lists"],
)
def test_signature_lists_that_are_cut_are_refused_at_their_list(
    desk: Program, lists: bytes, lines: dict[int, bytes]
) -> None:
    for size in range(len(lists) + 1):
        begun = [place for place in lines if place < size]
        is_whole = size == len(lists) or size in lines
        wanted = (0, b"".join(lines[place] for place in begun), b"")
        if not is_whole:
            wanted = (1, b"", line(15, begun[-1]))
        desk.ends(*wanted, "list", desk.file("lists", lists[:size]), what=f"{size} bytes: ")


# ---- by HTTP

FIRST = got("olga", "/level")
LEVEL = text("sbat,1,2021030218\n")
SUBMISSION = submits("ann", "k1", PLAIN, "A", 1)


@pytest.fixture
def path(desk: Program, new_desk: NewDesk) -> Iterator[str]:
    """A desk whose minutes stay."""
    made = new_desk()
    minutes = desk.minutes(made)
    yield made
    expect(desk.minutes(made), minutes, "the minutes at the end")


@pytest.mark.parametrize("given", [FIRST, SUBMISSION.given], ids=["a reading", "a submission"])
def test_a_request_that_is_cut_is_refused_over_a_connection(
    desk: Program, path: str, given: bytes
) -> None:
    with Server(desk, path) as server:
        for size in range(len(given)):
            wanted = refused(50) if size else b""
            server.answers(given[:size], wanted, f"{size} bytes of a request of {len(given)}")
        server.answers(FIRST, LEVEL, "a whole request after those that were cut")


OLGA = ("Desk-Token", token("olga"))


def with_fields(count: int) -> bytes:
    """A request with so many fields."""
    more = [(f"X-{number}", "x") for number in range(count - 1)]
    return request("GET", "/level", [OLGA, *more])


def of_length(size: int) -> bytes:
    """A request whose head has so many bytes."""
    short = request("GET", "/level", [OLGA, ("X", "")])
    return request("GET", "/level", [OLGA, ("X", "x" * (size - len(short)))])


def raw(path: str, *fields: Field) -> bytes:
    """A POST of olga's with just these fields, and no body."""
    return request("POST", path, [OLGA, ("Desk-Key", "unused"), *fields])


def heads() -> Iterator[tuple[str, bytes, bytes]]:
    """Heads at their limits, and fields that lie, each with its response."""
    chunked = ("Transfer-Encoding", "chunked")
    yield "64 fields", with_fields(64), LEVEL
    yield "65 fields", with_fields(65), refused(50)
    yield "a head of 16,384 bytes", of_length(16_384), LEVEL
    yield "a head of 16,385 bytes", of_length(16_385), refused(50)
    yield "chunked", raw("/verdict", chunked), refused(57)
    yield "chunked, with a length", raw("/verdict", ("Content-Length", "5"), chunked), refused(57)
    yield "a GET with a body", request("GET", "/level", [OLGA], b"x"), refused(51)
    value = {
        "Content-Length": "0", "Desk-Token": token("olga"), "Desk-Key": "k", "Desk-Title": "t",
        "Desk-Stamp": "2024010100",
    }
    for name in value:
        both = [(name, value[name]), (name.lower(), value[name])]
        others = [(one, value[one]) for one in ("Desk-Token", "Desk-Key") if one != name]
        yield f"{name} twice", request("POST", "/db/digests", [*both, *others]), refused(51)
    for length in (
        "1x", "x1", "0x1", "+1", "-1", "1 1", "1,1", "1.0", "", "00000000001", "99999999999",
    ):
        lying = raw("/db/digests", ("Content-Length", length))
        yield f"a length {length!r}", lying, refused(51)
    for path, most in (
        ("/verdict", 134_217_728), ("/requests", 134_217_728), ("/db/digests", 4_194_304),
        ("/imports/dbx", 4_194_304),
    ):
        long = raw(path, ("Content-Length", str(most + 1)), ("Desk-Title", "t"))
        yield f"{most + 1} bytes at {path}", long, refused(56)


def keeps_nothing(server: Server, before: int) -> None:
    """The server had no more memory for bodies that were announced; nor for one that is sent though
    it is too long."""
    announced = server.memory()
    if announced - before > 1 << 20:
        fail(f"the server took {announced - before:,} bytes for bodies that it refused")
    # (the desk reads off a mebibyte after a response)
    for path, most in (("/verdict", 134_217_728), ("/db/digests", 4_194_304)):
        given = raw(path, ("Content-Length", str(most + 1))) + bytes(900_000)
        what = f"900,000 bytes of a body that is too long at {path}"
        server.answers(given, refused(56), what, ends=False)
    sent = server.memory() - announced
    if sent > 600_000:
        fail(f"the server took {sent:,} bytes for bodies that it read off")


def test_heads_at_their_limits_and_fields_that_lie_take_no_memory(desk: Program, path: str) -> None:
    with Server(desk, path) as server:
        server.answers(FIRST, LEVEL, "a request before those that lie")
        before = server.memory()
        for what, given, wanted in heads():
            # Our side stays open: the answer doesn't wait for what was announced.
            server.answers(given, wanted, what, ends=False)
        keeps_nothing(server, before)
        server.answers(FIRST, LEVEL, "a request after those that lie")
