"""Each path of page/wire/openapi.json, asked by methods that it doesn't have.

A path that is added there needs no line here."""
from __future__ import annotations

from typing import Iterator

from checks.support.messages import refused, request, token
from checks.support.says import expect
from checks.support.server import Server
from checks.support.wire import filled, wire

FIELDS = [("Desk-Token", token("olga")), ("Desk-Key", "unused")]


def others() -> Iterator[tuple[str, str, str]]:
    """A path, a method that it doesn't have, and those that it has."""
    for path, operations in wire("openapi")["paths"].items():
        has = sorted(method.upper() for method in operations)
        for method in ("GET", "HEAD", "POST", "DELETE"):
            if method not in has:
                yield filled(path), method, ", ".join(has)


def test_another_method_is_refused_and_the_response_names_those_that_the_path_has(
    server: Server,
) -> None:
    asked = 0
    for path, method, allow in others():
        given = request(method, path, FIELDS, b"" if method == "POST" else None)
        expect(server.ask(given), refused(54, None, f"Allow: {allow}"), f"{method} {path}")
        asked += 1
    assert asked > len(wire("openapi")["paths"])
