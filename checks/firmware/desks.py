"""For firmware.sh: a desk that lists and revokes what the candidates need, and its verdicts."""
from __future__ import annotations

import json
import os
from typing import Dict, List, NamedTuple

from checks.firmware.candidates import COMPONENT, LEVEL, Candidates
from checks.firmware.keys import Keys
from checks.support.messages import posted, request, token
from checks.support.program import Program
from checks.support.says import fail
from checks.support.server import Server

LISTED = (
    "snakeoil", "listed", "other", "revoked", "expired", "ca", "ca-gone", "leaf-first", "leaf-last",
    "leaf-never",
)
REVOKED = (
    "revoked", "revoked-unlisted", "ca-gone", "vendor-leaf-revoked", "leaf-revoked", "ca-never",
    "inter",
)
# Listed, and unlisted again: the minutes keep the certificate. Each of these is revoked.
GIVEN = ("leaf-revoked", "ca-never", "inter")
# Revoked, and given by nobody, as a leaf that shim alone trusts: INTEROPERATION's `missing.pem`.
MISSING = "vendor-leaf-revoked"
STAMP = 2026112801


class Exports(NamedTuple):
    desk: str  # its file
    elliptic: bytes  # db with an elliptic certificate too
    verdicts: Dict[str, str]  # by candidate


class Calls:
    """Two officers at one server; each call is accepted."""

    def __init__(self, server: Server) -> None:
        self.server = server
        self.key = 0

    def post(self, who: str, path: str, body: bytes, *fields: tuple[str, str]) -> Dict[str, object]:
        self.key += 1
        key = f"call-{self.key}-{os.path.basename(self.server.desk)}"
        said = self.server.ask(posted(who, key, path, body, *fields))
        head, _, text = said.partition(b"\r\n\r\n")
        if not head.startswith(b"HTTP/1.1 200 "):
            fail(f"{path} by {who}: {said!r}")
        found: Dict[str, object] = json.loads(text)
        return found

    def list_certificate(self, certificate: bytes) -> None:
        self.post("olga", "/db/certificates", certificate)

    def unlist(self, certificate: str) -> None:
        body = {"digest": certificate, "kind": "certificate"}
        self.post("olga", "/db/unlist", json.dumps(body).encode())

    def list_digest(self, digest: str) -> None:
        self.post("olga", "/db/digests", json.dumps({"digest": digest}).encode())

    def revoke(self, digests: List[str], certificates: List[str]) -> None:
        """One file by one officer, confirmed by another."""
        rows = ["kind,value,generation", *(f"sha256,{one}," for one in digests)]
        rows += [*(f"x509_sha256,{one}," for one in certificates), f"sbat,{COMPONENT},{LEVEL}", ""]
        stamp = ("Desk-Stamp", str(STAMP))
        made = self.post("olga", "/imports/csv", "\n".join(rows).encode(), stamp)
        self.post("otto", f"/proposals/{made['proposal']}/confirm", b"")

    def verdict(self, image: bytes) -> str:
        """`allowed`, the rule that bars it, or the refusal's number and name."""
        said = self.server.ask(request("POST", "/verdict", [("Desk-Token", token("olga"))], image))
        found = json.loads(said.partition(b"\r\n\r\n")[2])
        if "refused" in found:
            return f"{found['refused']} {found['name']}"
        return str(found["verdict"])


def decide(program: Program, keys: Keys, candidates: Candidates) -> Exports:
    desk = program.founded("desk.db")
    with Server(program, desk) as server:
        calls = Calls(server)
        for name in (*LISTED, *GIVEN):
            calls.list_certificate(keys.certificates[name])
        calls.unlist(keys.tbs(GIVEN[0]))
        for digest in sorted(candidates.listed):
            calls.list_digest(digest)
        calls.revoke(sorted(candidates.revoked), [keys.tbs(name) for name in REVOKED])
        for name in GIVEN[1:]:
            calls.unlist(keys.tbs(name))
        verdicts = {one.name: calls.verdict(one.image) for one in candidates.all}
    # Firmware refuses a db with an elliptic certificate: a copy of the desk lists it.
    elliptic = program.copied(desk, "elliptic.db")
    with Server(program, elliptic) as server:
        calls = Calls(server)
        calls.list_certificate(keys.certificates["elliptic"])
        image = next(one.image for one in candidates.all if one.name == "elliptic")
        verdicts["elliptic"] = calls.verdict(image)
    return Exports(desk, program.gives("db", elliptic), verdicts)
