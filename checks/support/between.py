"""A proxy between deskctl and a desk, which loses answers or gives others."""
from __future__ import annotations

import contextlib
import re
import socket
import ssl
import threading
from pathlib import Path
from typing import Callable

from checks.support.certificates import authority, issued, self_signed
from checks.support.messages import said
from checks.support.says import note

Ask = Callable[[bytes], bytes]
# It is given the request, and what asks the desk; the peer gets what it returns.
Rule = Callable[[bytes, Ask], bytes]
HTML, BUSY = "text/html", b"<html>busy</html>"


def answer(status: int, body: bytes, kind: str = "application/json") -> bytes:
    head = (f"HTTP/1.1 {status} OK\r\nContent-Type: {kind}\r\nContent-Length: {len(body)}\r\n"
            "Connection: close\r\n\r\n")
    return head.encode() + body


def shown(value: object) -> bytes:
    return answer(200, said(value))


def kept(cut: Callable[[bytes], bytes]) -> Rule:
    """The desk has the whole request; of its answer the peer gets this much."""
    return lambda request, ask: cut(ask(request))


def unsent(cut: Callable[[bytes], bytes]) -> Rule:
    """The desk has this much of the request, and the peer gets nothing."""
    return lambda request, ask: (ask(cut(request)) if cut(request) else b"")[:0]


def instead(status: int, body: bytes = BUSY, kind: str = HTML, acts: bool = False) -> Rule:
    """The peer gets another answer; the desk had the request, or not."""
    return lambda request, ask: (ask(request) if acts else b"")[:0] + answer(status, body, kind)


NO_ANSWER = kept(lambda found: b"")


def received(peer: socket.socket) -> bytes:
    """A request with its body, or what came of it."""
    found, due = bytearray(), -1
    while due < 0 or len(found) < due:
        piece = peer.recv(1 << 16)
        if not piece:
            break
        found += piece
        if due < 0 and b"\r\n\r\n" in found:
            head = bytes(found).split(b"\r\n\r\n")[0]
            length = re.search(rb"(?i)\r\ncontent-length: (\d+)", head)
            due = len(head) + 4 + (int(length[1]) if length else 0)
    return bytes(found)


class Between:
    """`loses` says what becomes of the next requests that carry a key; then all pass. `shows` has
    paths that the proxy answers itself, `history` the minutes that it shows. What passed is kept in
    `seen`, without bodies."""

    def __init__(self, port: int) -> None:
        self.desk = port
        self.loses: list[Rule] = []
        self.shows: dict[str, bytes] = {}
        self.history: list[bytes] | None = None
        self.seen: list[bytes] = []
        self.socket = socket.create_server(("127.0.0.1", 0), backlog=50)
        self.url = f"http://127.0.0.1:{self.socket.getsockname()[1]}"
        self.lock = threading.Lock()
        threading.Thread(target=self.serve, daemon=True).start()

    def ask(self, request: bytes) -> bytes:
        pieces: list[bytes] = []
        with socket.create_connection(("127.0.0.1", self.desk), timeout=240) as peer:
            with contextlib.suppress(OSError):
                peer.sendall(request)
                peer.shutdown(socket.SHUT_WR)
            with contextlib.suppress(ConnectionResetError):
                pieces += iter(lambda: peer.recv(1 << 16), b"")
        return b"".join(pieces)

    def serve(self) -> None:
        with contextlib.suppress(OSError):
            while True:
                peer, _ = self.socket.accept()
                threading.Thread(target=self.one, args=(peer,), daemon=True).start()

    def one(self, peer: socket.socket) -> None:
        with peer, contextlib.suppress(OSError):
            request = received(peer)
            head = request.split(b"\r\n\r\n")[0]
            self.seen.append(head)
            came = self.given(request, head)
            note(f"a proxy at {self.url}", request, came)
            peer.sendall(came)

    def given(self, request: bytes, head: bytes) -> bytes:
        path = head.split(b" ")[1].decode() if b" " in head else ""
        with self.lock:
            loses = self.loses and b"\r\ndesk-key:" in head.lower()
            rule = self.loses.pop(0) if loses else None
        if path.startswith("/minutes/") and self.history is not None:
            first = int(path.split("/")[2]) - 1
            return answer(200, b"".join(self.history[first : first + 1000]), "text/plain")
        if path in self.shows and head.startswith(b"GET"):
            return self.shows[path]
        return rule(request, self.ask) if rule else self.ask(request)

    def asked(self, begin: str) -> list[str]:
        """The paths that passed and begin so."""
        paths = [head.split(b" ")[1].decode() for head in self.seen if b" " in head]
        return [path for path in paths if path.startswith(begin)]

    def keys(self) -> list[str]:
        """The keys that passed."""
        found = [re.search(rb"(?i)\r\ndesk-key: (\S+)", head) for head in self.seen]
        return [one[1].decode() for one in found if one]

    def close(self) -> None:
        self.socket.close()


class Secured(Between):
    """The same with TLS. `certificates` has those that the next connections get; then each gets
    `site`, of the CA in ca.pem."""

    def __init__(self, port: int, folder: Path) -> None:
        folder.mkdir()
        self.ca = authority(folder)
        issued(folder, "site", "/CN=localhost", "IP:127.0.0.1")
        self_signed(folder, "foreign", "/CN=localhost")
        self.contexts = {}
        for name in ("site", "foreign"):
            self.contexts[name] = ssl.SSLContext(ssl.PROTOCOL_TLS_SERVER)
            self.contexts[name].load_cert_chain(folder / f"{name}.pem", folder / f"{name}.key")
        self.certificates: list[str] = []
        super().__init__(port)
        self.url = self.url.replace("http:", "https:")

    def one(self, peer: socket.socket) -> None:
        name = self.certificates.pop(0) if self.certificates else "site"
        try:
            super().one(self.contexts[name].wrap_socket(peer, server_side=True))
        except OSError:
            peer.close()
