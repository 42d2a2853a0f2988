"""Slow peers: without the proxy the next one waits, behind it nobody does."""
from __future__ import annotations

import contextlib
import socket
import ssl
import threading
from concurrent.futures import ThreadPoolExecutor
from pathlib import Path
from typing import Callable

import pytest

from checks.proxy.site import LEVEL, Proxied, Site, with_oscar
from checks.support.images import PLAIN, SIGNED, digest_list
from checks.support.messages import got, request, said, text, token
from checks.support.nginx import SITE
from checks.support.program import Program, copy_of
from checks.support.says import expect
from checks.support.server import Server
from checks.support.steps import confirms, proposes
from checks.support.waits import until

# Digests so many that dbx is longer than what a system keeps of a response on its way (tcp_wmem:
# 4 MiB).
IMPORTS, EACH, CLIENTS = 9, 10_000, 30
DBX = digest_list(f"{at:064x}" for at in range(IMPORTS * EACH))
FIELDS = [("Host", SITE), ("Connection", "close")]
GIVEN = {
    "sends": request(
        "POST", "/requests",
        [*FIELDS, ("Desk-Token", token("ann")), ("Desk-Key", "slow"), ("Desk-Title", "slow")], PLAIN
    ),
    "takes": request("GET", "/dbx", [*FIELDS, ("Desk-Token", token("rita"))]),
}
BODY = {"sends": said({"reply": "submitted", "request": 1}), "takes": DBX}


@pytest.fixture(scope="session")
def long_desk(program_path: Path, session_room: Path) -> str:
    program = Program(program_path, session_room)
    path = with_oscar(program, "long.db")
    with Server(program, path) as server:
        for number in range(1, IMPORTS + 1):
            first = (number - 1) * EACH
            rows = "".join(f"sha256,{at:064x},\n" for at in range(first, first + EACH))
            table = f"kind,value,generation\n{rows}".encode()
            for step in (
                proposes("olga", f"i{number}", "/imports/csv", table, number),
                confirms("otto", f"i{number}", number, EACH, 0, 0, 0),
            ):
                server.answers(step.given, step.due, f"import {number}")
    return path


class Slow:
    """A peer that sends or takes a little now and then, until it may go on."""

    def __init__(self, how: str, port: int, ca: Path | None = None) -> None:
        self.how, self.port, self.ca = how, port, ca
        self.begun, self.may_go, self.came = threading.Event(), threading.Event(), b""
        self.pool = ThreadPoolExecutor(1)
        self.done = self.pool.submit(self.run)
        assert self.begun.wait(60), f"the one that {how}: {self.done}"

    def run(self) -> None:
        given = GIVEN[self.how]
        half = len(given) // 2 if self.how == "sends" else len(given)
        with contextlib.closing(socket.socket()) as plain:
            plain.settimeout(60)
            # (so little is on its way at once that a long response waits at its sender)
            plain.setsockopt(socket.SOL_SOCKET, socket.SO_RCVBUF, 4096)
            plain.connect(("127.0.0.1", self.port))
            peer = plain
            if self.ca:
                tls = ssl.create_default_context(cafile=self.ca)
                peer = tls.wrap_socket(plain, server_hostname=SITE)
            peer.sendall(given[:half])
            self.came = b"" if self.how == "sends" else peer.recv(1000)
            self.begun.set()
            # (nginx ends a peer that does nothing for half a minute)
            while not self.may_go.wait(0.5):
                if self.ca and self.how == "takes":
                    self.came += peer.recv(1000)
                elif self.ca and half < len(given) - 1:
                    peer.sendall(given[half : half + 1])
                    half += 1
            peer.sendall(given[half:])
            for piece in iter(lambda: peer.recv(65536), b""):
                self.came += piece

    def goes_on(self) -> None:
        """And has its own response."""
        self.may_go.set()
        self.done.result(120)
        head, _, body = self.came.partition(b"\r\n\r\n")
        assert head.startswith(b"HTTP/1.1 200 OK\r\n"), f"the one that {self.how}: {head!r}"
        expect(body, BODY[self.how], f"what the one that {self.how} gets")


@pytest.mark.long(30)
@pytest.mark.parametrize("how", GIVEN)
def test_without_the_proxy_the_next_one_waits(
    desk: Program, long_desk: str, how: str, serve: Callable[..., Server]
) -> None:
    server = serve(copy_of(long_desk, desk.at("desk.db")), 2)
    slow = Slow(how, server.port)
    with socket.create_connection(("127.0.0.1", server.port), timeout=2) as behind:
        behind.sendall(got("olga", "/level"))
        with pytest.raises(TimeoutError):
            behind.recv(1)
        slow.goes_on()
        behind.settimeout(60)
        came = b"".join(iter(lambda: behind.recv(65536), b""))
    expect(came, text(LEVEL.decode()), f"behind the one that {how}")
    server.ended()


def idle(port: int) -> bool:
    """The desk has nobody's connection."""
    rows = [line.split() for line in Path("/proc/net/tcp").read_text().splitlines()]
    return not [one for one in rows if one[1] == f"0100007F:{port:04X}" and one[3] in ("01", "08")]


def client(site: Site, number: int) -> None:
    """At an address of its own: the level, and a verdict."""
    words = ["--interface", f"127.0.0.{number + 2}", "-H", f"Desk-Token: {token('ann')}"]
    # (a token has so many at once)
    words += ["--retry", "60", "--retry-delay", "1"]
    level = site.curl([*words, f"{site.nginx.base}/level"])
    given = ("--data-binary", f"@{site.room / 'signed'}")
    verdict = site.curl([*words, *given, f"{site.nginx.base}/verdict"])
    expect((level, verdict), (LEVEL, said({"verdict": "allowed"})), f"client {number}")


@pytest.mark.long(40)
def test_behind_it_thirty_are_answered_beside_slow_ones(
    desk: Program, long_desk: str, proxied: Proxied
) -> None:
    path = copy_of(long_desk, desk.at("desk.db"))
    site = proxied(3 * CLIENTS + 3, path=path)
    (site.room / "signed").write_bytes(SIGNED)
    slow = [Slow(how, site.nginx.port, site.room / "site.pem") for how in ("sends", "takes")]
    # (before its own limit of half a minute would end one)
    until(25, "the desk is idle", lambda: idle(site.server.port))
    with ThreadPoolExecutor(CLIENTS) as pool:
        list(pool.map(lambda number: client(site, number), range(CLIENTS)))
    assert not [one.how for one in slow if one.done.done()], "a slow one ended before the thirty"
    for one in slow:
        one.goes_on()
    site.server.ended()
