"""A desk over HTTP: its address, requests, answers, and one try of a request."""
from __future__ import annotations

import contextlib
import hashlib
import http.client
import io
import json
import math
import os
import re
import socket
import ssl
import tempfile
import threading
import time
import urllib.parse
from dataclasses import dataclass, replace
from typing import Any, BinaryIO, Callable, Iterator, Optional

from . import VERSION
from .faults import Lost, NoAnswer, Refused, Stop, Unreadable, broken, no_desks, reason
from .words import printable

# Seconds: to connect, until an answer begins (the proxy waits for 300), and for all of it.
CONNECT_SECONDS, ANSWER_SECONDS, BODY_SECONDS = 30, 330, 3600
# What has to go out in a second at least, in bytes.
RATE = 1 << 14
# The least that each of them gets, however soon the asking ends.
LEAST_SECONDS = 3
PIECE = 1 << 16
# A proxy's statuses for a request that it passed on to nobody.
UNTAKEN = (408, 429)
# The types of a desk's answers.
JSON, TEXT, BYTES = "application/json", "text/plain", "application/octet-stream"


@dataclass(frozen=True)
class Where:
    """A desk's address."""

    tls: bool
    host: str
    port: int
    prefix: str

    def __str__(self) -> str:
        host = f"[{self.host}]" if ":" in self.host else self.host
        return f"{'https' if self.tls else 'http'}://{host}:{self.port}{self.prefix}"


def address(url: str) -> Where:
    """What a desk's URL says."""
    no_url = f"{printable(url)} is no URL of a desk"
    try:
        parts = urllib.parse.urlsplit(url)
        host, port = parts.hostname, parts.port
    except ValueError:
        host, port, parts = None, None, urllib.parse.urlsplit("")
    if parts.scheme not in ("http", "https") or not host:
        raise Unreadable(no_url, "It looks like https://desk.example.org or http://127.0.0.1:8080.")
    if parts.username is not None or parts.query or parts.fragment:
        raise Unreadable("a desk's URL has no user, question mark or number sign",
                         "Who you are is said by --token-file or --cert.")
    if not re.fullmatch(r"[!-~]*", parts.path) or not re.fullmatch(r"[0-9A-Za-z.:%_-]+", host):
        raise Unreadable(no_url, "")
    tls = parts.scheme == "https"
    return Where(tls, host, port or (443 if tls else 80), parts.path.rstrip("/"))


@dataclass(frozen=True)
class Call:
    """A request: what is sent, the word of its reply, and what it is for, in words."""

    method: str
    path: str
    body: bytes = b""
    fields: tuple[tuple[str, str], ...] = ()
    reply: str = ""
    what: str = ""

    def given(self, key: str, tag: str) -> Call:
        """Under this key, and, if there is a tag, about what it names alone (If-Match, RFC 9110,
        section 13.1.1)."""
        match = (("If-Match", f'"{tag}"'),) if tag else ()
        return replace(self, fields=self.fields + (("Desk-Key", key),) + match)

    def is_command(self) -> bool:
        """Whether it has a key, by which it takes effect once."""
        return any(name == "Desk-Key" for name, _ in self.fields)

    def identity(self) -> list[Any]:
        """What the journal knows it by; its key and its tag aren't part of that."""
        return [self.method, self.path, list(self.fields), hashlib.sha256(self.body).hexdigest()]


@dataclass
class Answer:
    """A whole response; a long body is in a file without a name."""

    status: int
    kind: str
    body: BinaryIO

    def data(self) -> bytes:
        self.body.seek(0)
        return self.body.read()

    def of_type(self, kind: str) -> Answer:
        """Itself, if it has the type that is due."""
        if self.kind != kind:
            raise not_a_desk(self)
        return self

    def json(self) -> Any:
        try:
            return json.loads(self.of_type(JSON).data())
        except (ValueError, RecursionError):
            raise not_a_desk(self) from None

    def object(self) -> dict[str, Any]:
        found = self.json()
        if not isinstance(found, dict):
            raise not_a_desk(self)
        return found

    def refusal(self) -> Optional[Refused]:
        """The desk's refusal, if this is one."""
        if self.status == 200 or self.kind != JSON:
            return None
        try:
            found = json.loads(self.data())
            place = found.get("at")
            return Refused(int(found["refused"]), str(found["name"]),
                           place if isinstance(place, int) else None)
        except (ValueError, TypeError, KeyError, AttributeError, RecursionError):
            return None

    def open_ended(self) -> bool:
        """Whether it leaves open what became of the request, or the desk may take it later: to be
        asked again."""
        refused = self.refusal()
        if refused is not None:
            return refused.number == 40
        return self.status in UNTAKEN or (self.status >= 500 and self.status != 501)

    def trouble(self) -> str:
        words = {400: "the proxy takes no such certificate, or its list of revoked ones is too old",
                 408: "the request took too long", 429: "too many requests",
                 500: "the proxy failed", 502: "the proxy doesn't reach the desk",
                 504: "the desk takes too long"}
        refused = self.refusal()
        if refused:
            return str(refused)
        standard = http.client.responses.get(self.status, "the proxy failed")
        return f"{self.status}, {words.get(self.status, standard)}"


def not_a_desk(answer: Answer) -> Stop:
    return no_desks(f"{answer.status}, {printable(answer.kind) or 'no type'}")


@contextlib.contextmanager
def within(seconds: float, connection: socket.socket) -> Iterator[None]:
    """Shuts a connection down where this isn't over in time. Each byte may come in time, and all of
    them never."""
    late = threading.Event()

    def end() -> None:
        late.set()
        with contextlib.suppress(OSError):
            connection.shutdown(socket.SHUT_RDWR)

    timer = threading.Timer(seconds, end)
    timer.daemon = True
    timer.start()
    try:
        yield
    except (OSError, NoAnswer, http.client.HTTPException):
        if not late.is_set():
            raise
    finally:
        timer.cancel()
        timer.join()
    if late.is_set():
        raise TimeoutError(f"it wasn't whole after {seconds:.0f} seconds")


def read_answer(response: http.client.HTTPResponse, most: float,
                heard: Callable[[int], None]) -> Answer:
    """Reads a response whole, of so many bytes at most; one that is cut is none. What came is
    told."""
    length = response.getheader("Content-Length", "")
    short = length.isdecimal() and int(length) <= 8 << 20
    body: BinaryIO = io.BytesIO() if short else tempfile.TemporaryFile()  # type: ignore[assignment]
    while piece := response.read1(PIECE):
        body.write(piece)
        heard(body.tell())
        if body.tell() > most:
            broken(f"an answer has more than {most} bytes")
    size = body.tell()
    chunked = response.getheader("Transfer-Encoding", "").lower() == "chunked"
    if not chunked and (not length.isdecimal() or int(length) != size):
        raise NoAnswer(f"the answer was cut after {size:,} bytes", True)
    body.seek(0)
    kind = response.getheader("Content-Type", "").split(";")[0].strip().lower()
    return Answer(response.status, kind, body)


class Site:
    """An address, as one caller. The token is here alone: no argument, no environment and no
    message has it."""

    # When the asking ends, by time.monotonic(); how many bytes an answer may be.
    until, most_bytes = math.inf, 1 << 30

    def __init__(self, where: Where, context: Optional[ssl.SSLContext], token: str, program: str):
        self.where, self.context, self.program = where, context, program
        # (it is told how much of an answer came)
        self.heard: Callable[[int], None] = lambda _: None
        self.__token = token

    def is_token(self, text: str) -> bool:
        """Whether a text is the caller's token, in letters of either case."""
        return text.lower() == self.__token.lower()

    def seconds(self, most: float) -> float:
        """So many, or as many as are left before the asking ends."""
        return max(min(most, self.until - time.monotonic()), LEAST_SECONDS)

    def connection(self) -> http.client.HTTPConnection:
        """A connection, but for the TLS of it."""
        host, port, seconds = self.where.host, self.where.port, self.seconds(CONNECT_SECONDS)
        made = (http.client.HTTPSConnection(host, port, timeout=seconds, context=self.context)
                if self.context else http.client.HTTPConnection(host, port, timeout=seconds))
        http.client.HTTPConnection.connect(made)
        made.sock.settimeout(None)
        return made

    def secured(self, connection: http.client.HTTPConnection, watched: socket.socket) -> None:
        try:
            with within(self.seconds(CONNECT_SECONDS), watched):
                if self.context:
                    connection.sock = self.context.wrap_socket(
                        connection.sock, server_hostname=self.where.host)
        except ssl.SSLCertVerificationError as error:
            text = f"the certificate of {self.where} isn't trusted: {error.verify_message}"
            raise Lost(text, False,
                       "Is the URL right? A CA of your own is named by --ca FILE.") from None

    def once(self, call: Call, shown: Callable[[int], None] = lambda _: None) -> Answer:
        """One try. What has gone out is shown."""
        sent = False
        try:
            connection = self.connection()
            # (a socket of its own: TLS takes the other one)
            with contextlib.closing(connection), \
                    socket.socket(fileno=os.dup(connection.sock.fileno())) as watched:
                self.secured(connection, watched)
                sent = True
                with within(self.seconds(ANSWER_SECONDS + len(call.body) / RATE), watched):
                    self.send(connection, call, shown)
                    response = connection.getresponse()
                with within(self.seconds(BODY_SECONDS), watched):
                    return read_answer(response, self.most_bytes, self.heard)
        except (OSError, ValueError, http.client.HTTPException) as error:
            what = "the answer was lost" if sent else f"no connection to {self.where}"
            raise NoAnswer(f"{what}: {reason(error)}", sent,
                           isinstance(error, ConnectionRefusedError)) from None

    def send(self, connection: http.client.HTTPConnection, call: Call,
             shown: Callable[[int], None]) -> None:
        connection.putrequest(call.method, self.where.prefix + call.path)
        connection.putheader("User-Agent", f"{self.program}/{VERSION}")
        if self.__token:
            connection.putheader("Desk-Token", self.__token)
        for name, value in call.fields:
            connection.putheader(name, value)
        if call.method == "POST":
            connection.putheader("Content-Length", str(len(call.body)))
        connection.endheaders()
        try:
            for at in range(0, len(call.body), PIECE):
                connection.send(memoryview(call.body)[at:at + PIECE])
                shown(min(at + PIECE, len(call.body)))
        except (BrokenPipeError, ConnectionResetError):
            # The answer may have come before all was sent.
            pass
