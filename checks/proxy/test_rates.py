"""Too many requests of one peer or network, and too many commands by one token, get 429."""
from __future__ import annotations

from typing import Callable

import pytest

from checks.proxy.site import LEVEL, Site, refusal
from checks.support.images import SIGNED
from checks.support.messages import said, token
from checks.support.says import expect

PEERS: dict[str, tuple[Callable[[int], list[str]], bool]] = {
    "one address": (lambda _: ["--interface", "127.0.0.99"], True),
    "one network of IPv6": (lambda one: x_peer(f"2001:db8:0:1:{one}::1"), True),
    "a network of IPv6 each": (lambda one: x_peer(f"2001:db8:1:{one}::1"), False),
    "an address of IPv4 each, as IPv6 writes it": (
        lambda one: x_peer(f"::ffff:192.0.2.{one}"), False
    ),
}
# The paths of somebody's commands, from how many addresses they come, and how often. (One that is
# answered counts a moment longer as under way.)
COMMANDS = {
    "oscar": ((
        "/dbx/digests", "/dbx/certificates", "/level", "/imports/csv", "/proposals/1/confirm"
    ), 4, 39),
    "ann": (("/requests",), 1, 600),
}


def x_peer(address: str) -> list[str]:
    """nginx takes this one for the peer's address: see PEERS of conftest.py."""
    return ["--interface", "127.0.0.250", "-H", f"X-Peer: {address}"]


@pytest.mark.parametrize("name", PEERS)
def test_a_flood_of_one_peer_is_refused(site: Site, name: str) -> None:
    """150 requests of strangers: at most 60 of one peer wait for their turn."""
    peer, refused = PEERS[name]
    words = ["-Z", "--parallel-max", "10", "-o", "/dev/null"]
    url = f"{site.nginx.base}/level#[1-10]"
    counts = site.flood([[*words, *peer(one), url] for one in range(1, 16)])
    assert sum(counts.values()) == 150 and set(counts) <= {401, 429}, counts
    assert (429 in counts) == refused and 401 in counts, counts
    site.statuses |= set(counts)
    expect(site.ask("olga", "/level")[:2], (200, LEVEL), "another peer")


@pytest.mark.parametrize("who", COMMANDS)
def test_a_token_has_so_many_commands(site: Site, who: str) -> None:
    """500 of them are taken at once, and then one in six seconds. The desk refuses each, since it
    has no key."""
    paths, count, often = COMMANDS[who]
    urls = [f"{site.nginx.base}{path}#[1-{often}]" for path in paths]
    words = ["-H", f"Desk-Token: {token(who)}", "-d", "x"]
    words += [word for url in urls for word in ("-o", "/dev/null", url)]
    clients = [["--interface", f"127.0.0.{one}", *words] for one in range(101, 101 + count)]
    counts = site.flood(clients)
    taken = counts.get(400, 0)
    assert set(counts) == {400, 429} and sum(counts.values()) == often * count * len(paths), counts
    assert 480 <= taken <= 580, counts
    found = [site.ask(who, "/requests/1/withdraw", "-d", "x").status for _ in range(3)]
    assert found[-1] == 429, found
    expect(site.ask("rita", "/requests", "-d", "x")[:2], refusal(51), "another token")
    expect(site.ask(who, "/level")[:2], (200, LEVEL), f"{who} reads")
    verdict = site.post(who, "unused", "/verdict", SIGNED)
    expect(verdict[:2], (200, said({"verdict": "allowed"})), f"{who} asks for a verdict")
