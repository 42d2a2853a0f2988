"""A crowd that sends with one token, or strangers at one's own address, hold nobody else up for
long."""
from __future__ import annotations

import contextlib
import http.client
import socket
import sys
import threading
import time
from typing import Callable, Iterator

import pytest

from checks.proxy.site import Proxied, Site, refusal
from checks.support.messages import PEOPLE, request, token
from checks.support.nginx import Nginx
from checks.support.says import expect
from checks.support.tools import ROOT, ran
from checks.support.waits import until

SLOW = 0.3
KNOWN = [f"Desk-Token: {token(who)}\r\n".encode() for who in PEOPLE]


class StandIn:
    """A desk that takes one request after another, works so long for each image, and knows PEOPLE
    alone."""

    def __init__(self) -> None:
        self.socket = socket.create_server(("127.0.0.1", 0), backlog=128)
        self.port: int = self.socket.getsockname()[1]
        self.images = 0
        threading.Thread(target=self.serve, daemon=True).start()

    def serve(self) -> None:
        with contextlib.suppress(OSError):
            while True:
                peer, _ = self.socket.accept()
                with peer, contextlib.suppress(OSError):
                    self.answer(peer)

    def answer(self, peer: socket.socket) -> None:
        head = b""
        while b"\r\n\r\n" not in head:
            head += peer.recv(65536)
        if head.startswith((b"POST /verdict", b"POST /requests")):
            time.sleep(SLOW)
            self.images += 1
        status = b"200 OK" if any(one in head for one in KNOWN) else b"401 Unauthorized"
        peer.sendall(b"HTTP/1.1 %s\r\nContent-Length: 2\r\nConnection: close\r\n\r\nok" % status)


def asked(port: int, method: str, path: str, who: str, address: str = "127.0.0.1") -> int:
    peer = http.client.HTTPConnection("127.0.0.1", port, 60, source_address=(address, 0))
    body = b"image" if method == "POST" else None
    peer.request(method, path, body, {"Desk-Token": token(who)})
    answer = peer.getresponse()
    answer.read()
    peer.close()
    return answer.status


@pytest.mark.long(15)
@pytest.mark.parametrize("path", ("/verdict", "/requests"))
def test_an_officer_waits_for_two_images_of_one_token(
    nginx: Callable[..., Nginx], path: str
) -> None:
    """Of 60 who send by it from twenty addresses, without a pause."""
    desk, ends = StandIn(), threading.Event()
    port = nginx(desk.port).port

    def sends(number: int) -> None:
        while not ends.is_set():
            with contextlib.suppress(http.client.HTTPException):
                asked(port, "POST", path, "ann", f"127.0.0.{10 + number % 20}")
            time.sleep(0.05)

    crowd = [threading.Thread(target=sends, args=(one,), daemon=True) for one in range(60)]
    for one in crowd:
        one.start()
    until(20, "the crowd is there", lambda: desk.images > 3)
    for _ in range(5):
        before = desk.images
        expect(asked(port, "GET", "/me", "olga"), 200, "an officer")
        # (one more may be done by the time that this looks)
        assert desk.images - before <= 3, "an officer waits for so many"
    ends.set()
    for one in crowd:
        one.join(30)


# ---- how many at once


class Half:
    """Somebody who has sent the half of a body, or whom nginx answered before that. A number in
    place of a name is a stranger."""

    def __init__(
        self, site: Nginx, who: str | int, path: str, address: str, size: int = 5000
    ) -> None:
        self.socket = socket.create_connection(("127.0.0.1", site.port), 30, (address, 0))
        text = token(who) if isinstance(who, str) else f"made-up-token-{who:06}"
        fields = [("Host", "desk.example.org"), ("Desk-Token", text), ("Desk-Key", "k")]
        self.socket.sendall(request("POST", path, fields, b"x" * size)[:-50])

    def status(self) -> int:
        """The status that came, or 0 if the rest of the body is waited for."""
        self.socket.settimeout(1.5)
        try:
            return int(self.socket.recv(100).split(b" ")[1])
        except TimeoutError:
            return 0


@pytest.fixture
def site(nginx: Callable[..., Nginx]) -> Nginx:
    """nginx before a stand-in."""
    return nginx(StandIn().port)


@pytest.fixture
def halves(site: Nginx) -> Iterator[Callable[..., list[int]]]:
    """What becomes of those of several tokens, at a path, from several addresses."""
    begun = []

    def made(
        tokens: list[str | int], path: str, addresses: list[str], size: int = 5000
    ) -> list[int]:
        found = []
        for who, address in zip(tokens, addresses):
            begun.append(Half(site, who, path, address, size))
            found.append(begun[-1].status())
        return found

    yield made
    for one in begun:
        one.socket.close()


ONE = "127.0.0.5"


def test_a_token_has_three_bodies_under_way(
    site: Nginx, halves: Callable[..., list[int]]
) -> None:
    """And its small commands go on beside them, as do others at its address."""
    expect(halves(["olga"] * 5, "/level", [ONE] * 5), [0, 0, 0, 429, 429], "of one token")
    for who in ("olga", "otto"):
        expect(asked(site.port, "POST", "/level", who, ONE), 200, f"a small command of {who}")
    expect(halves(["otto"], "/level", [ONE]), [0], "another one")


def test_strangers_at_an_officers_address_count_for_nobody(
    site: Nginx, halves: Callable[..., list[int]]
) -> None:
    """They begin long bodies, and read the page's files slowly: nothing of a body is waited for."""
    expect(halves([*range(8)], "/level", [ONE] * 8), [401] * 8, "strangers")
    readers = [socket.create_connection(("127.0.0.1", site.port), 30, (ONE, 0)) for _ in range(20)]
    for one in readers:
        one.setsockopt(socket.SOL_SOCKET, socket.SO_RCVBUF, 1)
        one.sendall(request("GET", "/page/style.css", [("Host", "desk.example.org")]) * 8)
    for _ in range(6):
        expect(asked(site.port, "POST", "/level", "otto", ONE), 200, "an officer's command")
    for one in readers:
        one.close()


def test_a_strangers_connection_is_closed(site: Nginx) -> None:
    """However slowly they go on with their body."""
    stranger = Half(site, 1, "/level", ONE)
    expect(stranger.status(), 401, "a stranger")
    with pytest.raises(OSError), stranger.socket as peer:
        for _ in range(20):
            peer.sendall(b"x")
            time.sleep(0.25)


def addresses(count: int) -> list[str]:
    return [f"127.0.0.{20 + one}" for one in range(count)]


@pytest.mark.parametrize("path", ("/verdict", "/facts", "/requests", "/requests/1/return"))
def test_a_token_has_two_images_under_way(halves: Callable[..., list[int]], path: str) -> None:
    expect(halves(["ann"] * 4, path, addresses(4)), [0, 0, 429, 429], "of one token")
    expect(halves(["ann", "sid"], "/level", addresses(2)), [0, 0], "others")


def test_a_token_has_eight_requests_under_way(halves: Callable[..., list[int]]) -> None:
    found = halves(["olga"] * 10, "/level", addresses(10), 100)
    expect(found, [0] * 8 + [429] * 2, "of one token")


# ---- connections

OPENS = """if True:
    import socket
    server, held = socket.create_server(("127.0.0.1", 443), backlog=1000), []

    def opens(address):
        held.append(socket.socket())
        held[-1].settimeout(0.5)
        held[-1].bind((address, 0))
        try:
            held[-1].connect(("127.0.0.1", 443))
        except TimeoutError:
            return False
        return True

    print([opens("127.0.0.5") for _ in range(258)].count(True), opens("127.0.0.6"))
"""


@pytest.mark.if_there("root", "network", "ip", "nft", "unshare")
def test_an_address_has_so_many_connections() -> None:
    """desk.nft keeps the others for others."""
    rules = ROOT / "packaging" / "desk.nft"
    text = f'ip link set lo up && nft -f {rules} && exec {sys.executable} -c "$0"'
    expect(ran("unshare", "-n", "sh", "-c", text, OPENS), b"256 True\n", "of one, and another")


# ---- texts that are made up


def made_up(site: Site, one: int) -> list[str]:
    """curl's words for 31 commands from one address, with 30 tokens that are nobody's."""
    to = ["-o", "/dev/null", f"{site.nginx.base}/dbx/digests"]
    own = ["--interface", f"127.0.0.{100 + one}", "-d", "x"]
    again = ["--next", "-w", "%{http_code}\n", "--cacert", "site.pem", "--resolve",
             f"desk.example.org:{site.nginx.port}:127.0.0.1", *own]
    words = list(own)
    for number in range(30):
        words += ["-H", f"Desk-Token: made-up-{one:06}-{number:06}", *to, *again]
    return [*words, *to]


def test_made_up_tokens_push_out_nobodys_count(proxied: Proxied) -> None:
    """A zone of 64 KiB, which has room for some 200 of them, and five commands at once."""
    site: Site = proxied()
    path = site.room / "site-nginx.conf"
    small = path.read_text().replace("zone=desk_commands:1m", "zone=desk_commands:64k")
    small = small.replace("zone=desk_commands burst=500", "zone=desk_commands burst=5")
    assert "desk_commands:64k" in small and "desk_commands burst=5 " in small
    path.write_text(small)
    site.nginx.reload()

    def commands() -> list[int]:
        return [site.ask("olga", "/dbx/digests", "-d", "x").status for _ in range(9)]

    found = commands()
    assert found[:5] == [400] * 5 and found[-1] == 429, found
    expect(set(site.flood([made_up(site, one) for one in range(20)])), {401}, "made-up tokens")
    found = commands()
    assert found.count(429) >= 5, found
    expect(site.ask("otto", "/dbx/digests", "-d", "x")[:2], refusal(51), "another one")
