"""Stands between nginx and a desk, and loses answers: the desk has acted, and nobody hears of
it."""
from __future__ import annotations

import http.client
import socketserver
import threading
from http.server import BaseHTTPRequestHandler
from typing import Any, Callable

# What is done to a command: its answer is lost at once, or once the connection is closed from
# elsewhere; it gets the answer of a proxy that is being changed, and never comes to the desk; or
# it and all behind it go to another desk.
LOSE, HOLD, NOT_FOUND, SWITCH = "lose", "hold", "not found", "switch"


class Relay(socketserver.ThreadingTCPServer):
    daemon_threads = allow_reuse_address = True

    def __init__(self, desk_port: int) -> None:
        self.desk_port = self.other_port = desk_port
        # What it answers a reader itself, by the path.
        self.shows: Callable[[str], bytes | None] = lambda path: None
        # Whose token is sent where a request has none, as a site does that knows certificates.
        self.token = ""
        # What is done to the next commands, in turn; all others pass.
        self.plan: list[str] = []
        # A command's answer is here, and is held.
        self.held = threading.Event()
        super().__init__(("127.0.0.1", 0), Handler)
        threading.Thread(target=self.serve_forever, daemon=True).start()

    def handle_error(self, *_: Any) -> None:
        """nginx went, or doesn't want the answer any more."""

    @property
    def port(self) -> int:
        return int(self.server_address[1])

    def end(self) -> None:
        self.shutdown()
        self.server_close()


class Handler(BaseHTTPRequestHandler):
    server: Relay

    def do_GET(self) -> None:
        shown = self.server.shows(self.path)
        return self.passes() if shown is None else self.gives(200, [], shown)

    def do_POST(self) -> None:
        deed = self.server.plan.pop(0) if self.server.plan else ""
        if deed == NOT_FOUND:
            self.rfile.read(int(self.headers.get("Content-Length", 0)))
            self.send_error(404)
            return
        if deed == SWITCH:
            self.server.desk_port = self.server.other_port
        self.passes(deed)

    def passes(self, deed: str = "") -> None:
        body = self.rfile.read(int(self.headers.get("Content-Length", 0)))
        desk = http.client.HTTPConnection("127.0.0.1", self.server.desk_port, timeout=120)
        own = ("host", "connection")
        fields = {name: value for name, value in self.headers.items() if name.lower() not in own}
        if self.server.token:
            fields.setdefault("Desk-Token", self.server.token)
        desk.request(self.command, self.path, body if self.command == "POST" else None, fields)
        answer = desk.getresponse()
        given = answer.read()
        desk.close()
        if deed == HOLD:
            self.server.held.set()
            # (nginx closes it as it ends)
            self.connection.recv(1)
        if deed in (HOLD, LOSE):
            return
        self.gives(answer.status, answer.getheaders(), given)

    def gives(self, status: int, fields: list[tuple[str, str]], body: bytes) -> None:
        self.send_response_only(status)
        for name, value in fields or [("Content-Length", str(len(body)))]:
            self.send_header(name, value)
        self.end_headers()
        self.wfile.write(body)

    def log_message(self, *_: Any) -> None:
        pass
