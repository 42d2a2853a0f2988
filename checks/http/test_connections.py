"""What HTTP itself refuses, and how connections begin and end.

Paths, methods, fields and lengths that are refused, byte for byte; `Expect`; a large export with
bytes after its request; a head that comes a byte a second; the faults of `serve` and `answer`; and
that the server listens only on 127.0.0.1. Truncated requests are in checks/desk/test_cuts.py, days
of requests in test_days.py."""
from __future__ import annotations

import os
import socket
import time
from typing import Iterator

import pytest

from checks.conftest import NewDesk
from checks.support.images import PLAIN, digest_list
from checks.support.largest import MANY
from checks.support.messages import got, octets, ok, posted, refused, text
from checks.support.program import Program
from checks.support.refusals import REFUSED, asked, key
from checks.support.says import expect, fail
from checks.support.server import Server
from checks.support.steps import confirms, proposes

LEVEL = text("sbat,1,2021030218\n")
FIRST = got("olga", "/level")
EXPECT = ("Expect", "100-continue")
NOT_LISTED = ok({"verdict": "not-listed"})


@pytest.fixture
def path(desk: Program, new_desk: NewDesk) -> Iterator[str]:
    """A desk whose minutes pass an audit at the end."""
    made = new_desk()
    yield made
    desk.audited(desk.exports(made))


def rest(peer: socket.socket) -> bytes:
    return b"".join(iter(lambda: peer.recv(65_536), b""))


def connected(server: Server, seconds: float = 60) -> socket.socket:
    return socket.create_connection(("127.0.0.1", server.port), timeout=seconds)


def test_what_is_refused_changes_nothing_and_the_server_goes_on(desk: Program, path: str) -> None:
    minutes = desk.minutes(path)
    with Server(desk, path, len(REFUSED) + 1) as server:
        for what, (given, wanted) in REFUSED.items():
            server.answers(given, wanted, what)
        server.answers(FIRST, LEVEL, "a request after those that are refused")
        server.ended()
    expect(desk.minutes(path), minutes, "the minutes after those that are refused")


def test_expect_changes_nothing(desk: Program, path: str) -> None:
    """The body comes when the peer sends it, and one that is too long is refused before it
    comes."""
    head, body = posted("ann", "unused", "/verdict", PLAIN, EXPECT), len(PLAIN)
    with Server(desk, path, 2) as server:
        with connected(server) as peer:
            peer.sendall(head[:-body])
            time.sleep(0.2)
            peer.sendall(head[-body:])
            expect(rest(peer), NOT_LISTED, "a verdict with Expect")
        given = asked("POST", "/dbx/digests", key(), EXPECT, ("Content-Length", "5000000"))
        server.answers(given, refused(56), "a long body with Expect", ends=False)
        server.ended()


def test_an_export_arrives_whole_at_a_peer_that_sent_more(desk: Program, path: str) -> None:
    """And takes its time."""
    steps = [
        proposes("olga", "k1", "/imports/dbx", digest_list(MANY[:-1]), 1),
        confirms("otto", "k1", 1, 10_000, 0, 0, 0),
    ]
    with Server(desk, path, 3) as server:
        for step in steps:
            server.answers(step.given, step.due, "10,000 digests")
        with connected(server) as peer:
            peer.sendall(got("ann", "/dbx") + bytes(200_000))
            time.sleep(1)
            expect(rest(peer), octets(digest_list(MANY[:-1])), "an export with bytes behind")
        server.ended()


def dripped(peer: socket.socket, given: bytes) -> bytes | None:
    """What comes while these bytes are sent, one a second; none if nothing did."""
    for byte in given:
        try:
            peer.sendall(bytes([byte]))
            return peer.recv(65_536)
        except socket.timeout:
            continue
        except (BrokenPipeError, ConnectionResetError):
            return b""
    return None


@pytest.mark.long(35)
def test_a_head_that_comes_a_byte_a_second_has_half_a_minute(desk: Program, path: str) -> None:
    """And no response; the next one is answered."""
    with Server(desk, path, 2) as server:
        with connected(server, 1) as peer:
            begun = time.monotonic()
            came = dripped(peer, FIRST + b"X: " + bytes(range(97, 123)) * 4)
        took = time.monotonic() - begun
        expect(came, b"", "a head a byte a second")
        if took < 29:
            fail(f"a head a byte a second: it ends after {took} seconds")
        server.answers(FIRST, LEVEL, "a request after the slow one")
        server.ended()


@pytest.mark.parametrize("port", ("0", "00", "65536", "+80", "8o", "9" * 20, ""))
def test_serve_refuses_a_word_that_is_no_port(desk: Program, port: str) -> None:
    desk.ends(2, b"", b"bad PORT\n", "serve", desk.at("missing.db"), port, "x")


def test_serve_and_answer_make_no_file_and_know_a_desk(desk: Program) -> None:
    missing = desk.at("missing.db")
    desk.ends(3, b"", b"device 45 File\n", "serve", missing, "9999", "1")
    desk.ends(3, b"", b"device 45 File\n", "answer", missing, given=FIRST)
    assert not os.path.exists(missing), "a file that was missing was made"
    empty = desk.file("empty.db", b"")
    desk.ends(1, b"", b"refused 43 NotADesk\n", "answer", empty, given=FIRST)


def test_serve_listens_at_127_0_0_1_alone_and_has_its_desk_and_port(
    desk: Program, path: str
) -> None:
    other = desk.copied(path, "other.db")
    with Server(desk, path, 2, zeros="00") as server:
        server.answers(FIRST, LEVEL, "a port and a count with zeros in front")
        with pytest.raises(ConnectionRefusedError):
            socket.create_connection(("127.0.0.2", server.port), timeout=10).close()
        plain = desk.file("plain.efi", PLAIN)
        desk.ends(3, b"", b"device 45 File\n", "verdict", path, plain, what="a served desk: ")
        port = str(server.port)
        desk.ends(3, b"", b"device 14 Read\n", "serve", other, port, "1", what="a taken port: ")
        server.answers(FIRST, LEVEL, "a request after another server wanted the port")
        server.ended()
    expect(desk.minutes(other), desk.minutes(path), "the other desk's minutes")
