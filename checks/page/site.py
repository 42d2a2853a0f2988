"""A desk of PEOPLE behind nginx, as a browser meets it, and what people do there without the
page."""
from __future__ import annotations

import contextlib
import http.client
import http.server
import json
import re
import threading
from pathlib import Path
from typing import Any, Iterator, NamedTuple

from checks.page.relay import HOLD, Relay
from checks.support.cases import SIGNER
from checks.support.client_day import table_of
from checks.support.images import changed, with_table
from checks.support.messages import Field, request, token
from checks.support.nginx import Nginx
from checks.support.program import Program, copy_of
from checks.support.says import fail, short
from checks.support.server import Server
from checks.support.steps import grub
from checks.support.waits import until

CERTIFICATE: bytes = SIGNER["bytes"]


def unsigned(number: int, generation: int = 3) -> bytes:
    """An image of this generation of grub that differs from the others."""
    return changed(grub(generation), (1016, number.to_bytes(8, "big").hex()))


def signed(image: bytes, certificate: bytes = CERTIFICATE) -> bytes:
    """The image with a table that carries the certificate and signs nothing."""
    return with_table(image, table_of(certificate))


class Answer(NamedTuple):
    status: int
    head: str
    body: bytes

    def json(self) -> Any:
        return json.loads(self.body)


def answer_of(came: bytes) -> Answer:
    head, _, body = came.partition(b"\r\n\r\n")
    words = head.split()
    if len(words) < 2:
        fail(f"no response: {short(came)}")
    return Answer(int(words[1]), head.decode(), body)


def does(
    server: Server, name: str, path: str, body: object, *fields: Field
) -> dict[str, Any]:
    """The reply to this person's command, which the desk accepts. A body that isn't bytes goes as
    JSON."""
    sent = body if isinstance(body, bytes) else json.dumps(body).encode()
    found: dict[str, Any] = answer_of(server.does(name, path, sent, *fields)).json()
    return found


class Site:
    """`base` is its address. A relay stands between nginx and the desk."""

    def __init__(self, desk: Program, path: str) -> None:
        self.program, self.path = desk, path
        self.server = Server(desk, path)
        self.relay = Relay(self.server.port)
        self.proxy = Nginx(Path(f"{path}.nginx"), self.relay.port)
        self.proxy.start()
        self.base = self.proxy.base

    def __enter__(self) -> Site:
        return self

    def __exit__(self, *_: object) -> None:
        self.proxy.__exit__()
        self.relay.end()
        self.server.kill()

    @property
    def room(self) -> Path:
        return self.program.room

    def begin_relay(self) -> None:
        """Another one, which nginx asks once it begins anew."""
        self.relay = Relay(self.server.port)
        self.proxy.desk_port = self.relay.port

    @contextlib.contextmanager
    def holding(self) -> Iterator[None]:
        """Ends once the desk has answered a command that is given meanwhile; the answer is lost as
        nginx ends."""
        self.relay.plan = [HOLD]
        self.relay.held.clear()
        yield
        until(60, "the desk answers", self.relay.held.is_set)

    @contextlib.contextmanager
    def reading(self) -> Iterator[list[str]]:
        """The paths of requests that are read meanwhile."""
        paths: list[str] = []

        def shows(path: str) -> None:
            paths.extend(re.findall("^/requests(?:/.*)?$", path))

        before, self.relay.shows = self.relay.shows, shows
        yield paths
        self.relay.shows = before

    def through_proxy(self, name: str, path: str) -> Answer:
        """What this person reads there, through nginx."""
        asks = http.client.HTTPConnection("127.0.0.1", self.proxy.port, timeout=60)
        asks.request("GET", path, headers={"Desk-Token": token(name)} if name else {})
        found = asks.getresponse()
        answer = Answer(found.status, str(found.headers), found.read())
        asks.close()
        return answer

    def minutes(self) -> bytes:
        """The minutes so far, of a copy of the desk."""
        return self.program.minutes(copy_of(self.path, f"{self.path}.copy"))

    def ask(
        self, name: str, method: str, path: str, body: bytes = b"", *fields: Field
    ) -> Answer:
        """This person's request, to the desk itself."""
        own = [("Desk-Token", token(name))] if name else []
        given = request(method, path, [*own, *fields], body if method == "POST" else None)
        return answer_of(self.server.ask(given, ends=False))

    def shows(self, name: str, path: str) -> Any:
        """What the desk shows this person there."""
        return self.ask(name, "GET", path).json()

    def does(self, name: str, path: str, body: object, *fields: Field) -> dict[str, Any]:
        return does(self.server, name, path, body, *fields)

    def submits(self, image: bytes, title: str, name: str = "ann") -> int:
        return int(self.does(name, "/requests", image, ("Desk-Title", title))["request"])

    def reviews(self, name: str, number: int, vote: str = "yes", note: str = "") -> None:
        self.does(name, f"/requests/{number}/review", {"note": note, "vote": vote})

    def proposes(self, digest: str, name: str = "otto") -> int:
        """A proposal to revoke this digest."""
        return int(self.does(name, "/dbx/digests", {"digest": digest})["proposal"])


class Elsewhere(http.server.ThreadingHTTPServer):
    """Another site, of one page."""

    def __init__(self, page: str) -> None:
        class Handler(http.server.BaseHTTPRequestHandler):
            def do_GET(self) -> None:
                self.send_response(200)
                self.send_header("Content-Type", "text/html")
                self.end_headers()
                self.wfile.write(page.encode())

            def log_message(self, *_: object) -> None:
                pass

        super().__init__(("127.0.0.1", 0), Handler)
        self.base = f"http://127.0.0.1:{self.server_port}"
        threading.Thread(target=self.serve_forever, daemon=True).start()

    def __exit__(self, *_: object) -> None:
        self.shutdown()
        self.server_close()
