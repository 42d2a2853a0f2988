"""The program, but for the answers that a wrong body would give: see test_wrong_programs.py.

Its words: the program, the body, and those of a subcommand. A body is the call that it stands for
and the number of its fault, or a slip and 0."""
from __future__ import annotations

import json
import os
import re
import socket
import subprocess
import sys

from checks.support.messages import ok, refused
from checks.support.wire import COMMANDS

PROGRAM, CALL, NUMBER, *WORDS = sys.argv[1:]
NAMES = {"0": "", "17": "Write", "40": "NoMemory", "41": "Store"}
# A body and a desk's file are large from these lengths on.
LARGE_BODY, LARGE_DESK = 100_000, 300_000
EXPORTS = ("dbx", "shim", "db", "level", "minutes")
OPENING = ("person", "enrol", "verdict", "impact", "answer", "serve", *EXPORTS)


def ran(*words: str, given: bytes = b"") -> bytes:
    return subprocess.run([PROGRAM, *words], input=given, stdout=subprocess.PIPE, check=True).stdout


def size_of(desk: str) -> int:
    """The length of a desk's file and of its log."""
    files = (desk, f"{desk}-wal")
    return sum(os.path.getsize(file) for file in files if os.path.exists(file))


def fails(subcommand: str, *words: str) -> bool:
    """Whether this subcommand ends with the fault."""
    if CALL == "open":
        return subcommand in OPENING
    if CALL == "open of a large desk":
        return subcommand in OPENING and size_of(words[0]) >= LARGE_DESK
    if CALL == "apply":
        return subcommand in ("person", "enrol")
    if CALL == "carried":
        return subcommand == "facts" and b"\ncertificate " in ran(subcommand, *words)
    return CALL == subcommand


def is_refused(given: bytes) -> bool:
    """Whether this request has the response of the fault."""
    head, _, body = given.partition(b"\r\n\r\n")
    method, path = head.decode("latin-1").split(" ")[:2]
    is_command = method == "POST" and re.sub(r"/\d+", "/{no}", path) in COMMANDS
    if CALL == "apply of a large command":
        return is_command and len(body) >= LARGE_BODY
    if CALL == "apply of a drop":
        return is_command and path.endswith("/drop")
    if CALL in ("verdict", *EXPORTS):
        return path.split("/")[1] == CALL and not is_command
    return CALL == "serve_one" or CALL in ("apply", "apply of a request") and is_command


def slipped(given: bytes, due: bytes) -> bytes:
    """The response with the slip: a Drop's reply is a Confirm's, or an impact lacks its last
    image."""
    path, body = given.split(b" ")[1].decode("latin-1"), due.partition(b"\r\n\r\n")[2]
    if CALL == "another reply" and path.endswith("/drop") and b'"reply"' in body:
        return ok({**json.loads(body), "reply": "confirmed"})
    if CALL == "an image less" and path.endswith("/impact") and b'"bars":[{' in body:
        told = json.loads(body)
        return ok({**told, "bars": told["bars"][:-1]})
    return due


def answered(given: bytes) -> bytes:
    """The response to a request."""
    if given and is_refused(given):
        return refused(int(NUMBER))
    due = ran("answer", WORDS[1], given=given)
    return slipped(given, due) if given else due


def serve(port: int, count: int) -> None:
    with socket.create_server(("127.0.0.1", port)) as server:
        for _ in range(count):
            peer, _ = server.accept()
            with peer:
                peer.sendall(answered(b"".join(iter(lambda: peer.recv(1 << 16), b""))))


def main() -> None:
    if fails(*WORDS):
        sys.stderr.write(f"device {NUMBER} {NAMES[NUMBER]}\n")
        sys.exit(3)
    if WORDS[0] == "serve":
        serve(int(WORDS[2]), int(WORDS[3]))
    elif WORDS[0] == "answer":
        sys.stdout.buffer.write(answered(sys.stdin.buffer.read()))
    elif CALL == f"another byte of {WORDS[0]}":
        whole = ran(*WORDS)
        sys.stdout.buffer.write(whole[:-1] + bytes(byte ^ 1 for byte in whole[-1:]))
    else:
        os.execv(PROGRAM, [PROGRAM, *WORDS])


main()
