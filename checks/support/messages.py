"""The bytes of requests and of responses, as docs/FORMATS.md has them."""
from __future__ import annotations

import json
import os
from typing import Iterable

from checks.support.wire import PHRASES, REFUSALS

PEOPLE = {
    "ann": "submitter", "rita": "reviewer", "raul": "reviewer", "rosa": "reviewer",
    "sid": "signer", "olga": "officer", "otto": "officer",
}
Field = tuple[str, str]


def token(name: str) -> str:
    """A person's token. Those of two test processes differ, so neither answers the other's
    requests."""
    return f"{name}-token-{os.getpid() % 1_000_000:06}"


def request(method: str, path: str, fields: Iterable[Field], body: bytes | None = None) -> bytes:
    lines = [f"{method} {path} HTTP/1.1", *(f"{name}: {value}" for name, value in fields)]
    if body is not None:
        lines.append(f"Content-Length: {len(body)}")
    return "\r\n".join([*lines, "", ""]).encode() + (body or b"")


def got(name: str, path: str) -> bytes:
    """The request of this person for what is read at this path."""
    return request("GET", path, [("Desk-Token", token(name))])


def posted(name: str, key: str, path: str, body: bytes, *fields: Field) -> bytes:
    return request("POST", path, [("Desk-Token", token(name)), ("Desk-Key", key), *fields], body)


def response(
    status: int, body: bytes, kind: str = "application/json", *fields: str
) -> bytes:
    lines = [
        f"HTTP/1.1 {status} {PHRASES[status]}", f"Content-Type: {kind}",
        f"Content-Length: {len(body)}", *fields, "Connection: close",
    ]
    return "\r\n".join([*lines, "", ""]).encode() + body


def said(value: object) -> bytes:
    """JSON without spaces, each object's keys in ascending order."""
    return json.dumps(value, separators=(",", ":"), sort_keys=True).encode()


def ok(value: object) -> bytes:
    return response(200, said(value))


def waiting(requests: object, proposals: object) -> bytes:
    """What waits: the one object whose keys aren't in ascending order."""
    return response(200, b'{"requests":%s,"proposals":%s}' % (said(requests), said(proposals)))


def text(value: str) -> bytes:
    return response(200, value.encode(), "text/plain")


def octets(value: bytes) -> bytes:
    return response(200, value, "application/octet-stream")


def refused(number: int, at: int | None = None, *fields: str) -> bytes:
    name, status = REFUSALS[number]
    value: dict[str, object] = {"name": name, "refused": number}
    if at is not None:
        value["at"] = at
    more = ["WWW-Authenticate: Desk"] if status == 401 else fields
    return response(status, said(value), "application/json", *more)


def line(number: int, place: int | None = None) -> bytes:
    """The line of a refusal on standard error."""
    at = "" if place is None else f" at {place}"
    return f"refused {number} {REFUSALS[number][0]}{at}\n".encode()


NO_MEMORY = refused(40)
