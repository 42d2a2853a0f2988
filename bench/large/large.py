"""Measures a desk with many requests as its people meet it: see ../large.sh."""
import itertools
import os
import resource
import socket
import sys
import time
from pathlib import Path
from typing import Iterator

from rows import History, Line, digest_of, filled

from checks.support.browser import Browser
from checks.support.deskctl import Person, compiled
from checks.support.messages import got, token
from checks.support.nginx import Nginx
from checks.support.program import alone
from checks.support.says import expect
from checks.support.server import Server

sys.stdout.reconfigure(line_buffering=True)
REQUESTS = int(sys.argv[2]) if len(sys.argv) > 2 else 100_000
OPEN, PROPOSALS, OPEN_PROPOSALS = 10, 500, 5
# Fast 3G: bytes a second each way, and milliseconds for each answer.
DOWN, UP, LATENCY = 200_000, 93_750, 150
# Notes when the person signed in, and when the first row stood.
WATCH = """
window.watched = {};
document.addEventListener('click', () => (watched.begun ??= performance.now()), true);
new MutationObserver(() => {
    if (watched.row || !document.querySelector('td.title a')) return;
    requestAnimationFrame(() => (watched.row ??= performance.now()));
}).observe(document.body, {childList: true, subtree: true});
"""
PATHS = """
return performance.getEntriesByType('resource').map(({name}) => name)
    .filter((name) => name.startsWith(location.origin))
    .map((name) => name.slice(location.origin.length));
"""


class Large(History):
    """All requests but the last are signed, and all proposals but the last in force."""

    def all(self) -> Iterator[Line]:
        yield from self.first()
        step = max(1, (REQUESTS - OPEN) // (PROPOSALS - OPEN_PROPOSALS))
        for number in range(1, REQUESTS - OPEN + 1):
            yield from self.request()
            if number % step == 0 and self.proposals < PROPOSALS - OPEN_PROPOSALS:
                yield from self.proposal(True)
        for number in range(OPEN):
            yield from itertools.islice(self.request(), 1 + number % 2)
        for _ in range(OPEN_PROPOSALS):
            yield from itertools.islice(self.proposal(True), 1)


def spent(server: Server) -> float:
    """The server's seconds of the processor."""
    text = Path(f"/proc/{server.process.pid}/schedstat").read_text(encoding="ascii")
    return int(text.split()[0]) / 1e9


def asks(server: Server, name: str, path: str, times: int) -> float:
    """The seconds of the processor that one answer takes."""
    begun = spent(server)
    for _ in range(times):
        answer = server.ask(got(name, path), ends=False)
        expect(answer[:12], b"HTTP/1.1 200", f"{name} asks for {path}")
    return (spent(server) - begun) / times


def behind(proxy: Nginx, name: str, path: str) -> int:
    """The bytes of an answer as a browser gets it from nginx, with its head."""
    fields = [
        f"GET {path} HTTP/1.1", f"Host: 127.0.0.1:{proxy.port}", "Accept-Encoding: gzip",
        "Connection: close"
    ]
    fields += [f"Desk-Token: {token(name)}"] if name else []
    with socket.create_connection(("127.0.0.1", proxy.port), timeout=600) as peer:
        peer.sendall("\r\n".join([*fields, "", ""]).encode())
        found = [len(piece) for piece in iter(lambda: peer.recv(1 << 16), b"")]
    return sum(found)


def answers(server: Server, proxy: Nginx) -> None:
    print("seconds of the desk's processor time, and bytes behind nginx")
    for name, path, times in (
        ("rita", "/requests", 1), ("rita", "/requests/from/1", 5), ("rita", "/waiting", 3),
        ("otto", f"/requests/with/{'0' * 64}", 5),
        ("rita", "/changes", 50), ("ann", "/waiting", 3), ("ann", "/changes", 3),
        ("sid", "/waiting", 3), ("otto", "/proposals", 20), ("otto", "/waiting", 50),
        *((name, f"/requests/with/{digest_of(kind, 1).hex()}", 3)
          for name, kind in (("otto", "proposed"), ("otto", "image"), ("ann", "image"))),
    ):
        print(
            f"  {name} GET {path}: {asks(server, name, path, times):.6f} s,"
            f" {behind(proxy, name, path):,} bytes"
        )


def slow(browser: Browser) -> None:
    browser.devtools(
        "Network.emulateNetworkConditions", offline=False, latency=LATENCY,
        downloadThroughput=DOWN, uploadThroughput=UP,
    )


def signs_in(browser: Browser, proxy: Nginx, name: str) -> None:
    """The bytes of a sign-in and when its first row stood, over fast 3G."""
    browser.begin_anew()
    browser.base = proxy.base
    slow(browser)
    begun = time.monotonic()
    browser.open()
    opened = time.monotonic() - begun
    files = browser.script(PATHS)
    browser.script(WATCH)
    browser.fill("Your token", token(name))
    browser.press("Sign in")
    row = browser.has("the first row", "return watched.row && watched.row - watched.begun", 600)
    time.sleep(8)
    asked = [path for path in browser.script(PATHS)[len(files):] if not path.startswith("/page/")]
    page = sum(behind(proxy, "", path) for path in ["/", *dict.fromkeys(files)])
    sizes = {path: behind(proxy, name, path) for path in dict.fromkeys(asked)}
    print(
        f"{name} signs in: the page {page:,} bytes, {opened:.1f} s; the desk's answers"
        f" {sum(sizes.values()):,} bytes, the first row after {row / 1000:.2f} s"
    )
    print(f"  {sizes}")
    if name == "rita":
        browser.go("check")
        browser.script("watched = {begun: performance.now()}; location.hash = '#/requests'")
        row = browser.has("the first row", "return watched.row && watched.row - watched.begun", 600)
        print(f"  the list of requests: the first row after {row / 1000:.2f} s")


def types(person: Person, line: str) -> None:
    """A run of deskctl, with its seconds of the processor."""
    begun = resource.getrusage(resource.RUSAGE_CHILDREN)
    clock = time.monotonic()
    person.does(line)
    ended = resource.getrusage(resource.RUSAGE_CHILDREN)
    took = ended.ru_utime + ended.ru_stime - begun.ru_utime - begun.ru_stime
    print(
        f"{person.name}: deskctl {line[:40]}: {took:.2f} s of processor time,"
        f" {time.monotonic() - clock:.2f} by the clock"
    )


with alone(sys.argv[1]) as program:
    print(f"load {os.getloadavg()[0]:.1f} on {os.cpu_count()} processors")
    path, minutes = program.at("desk.db"), program.at("minutes.txt")
    history = Large()
    filled(program, path, minutes, history)
    print(f"{REQUESTS:,} requests, a file of {os.path.getsize(path) / 1e6:.1f} MB")
    with Server(program, path) as server, Nginx(program.room / "nginx", server.port) as proxy:
        answers(server, proxy)
        browser = Browser(program.room / "downloads")
        try:
            for name in ("rita", "otto"):
                signs_in(browser, proxy, name)
        finally:
            browser.quit()
        command = compiled(program.room)
        shown = server.ask(got("otto", f"/proposals/{history.proposals}"), ends=False)
        tag = shown.split(b'"tag":"')[1][:64].decode()
        people = {
            name: Person(command, program.room, name, f"http://127.0.0.1:{server.port}")
            for name in ("ann", "rita", "otto")
        }
        for name in ("rita", "otto", "ann"):
            types(people[name], "inbox")
            types(people[name], "watch --once")
            types(people[name], "watch --once")
        types(people["otto"], f"confirm {history.proposals} --expect {tag} --bars 0 --yes")
    print(f"load {os.getloadavg()[0]:.1f}")
