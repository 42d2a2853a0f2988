"""A day at the desk by plain requests: what test_day.py does through the page, and what other tests
begin with."""
from __future__ import annotations

import time
from typing import Any

from checks.page.site import CERTIFICATE, does, signed, unsigned
from checks.support.server import Server
from checks.support.tools import EXAMPLES

DIGEST = "ba7816bf8f01cfea414140de5dae2223b00361a396177a9cb410ff61f20015ad"
# (the page's fields have a stamp of today)
STAMP = time.strftime("%Y%m%d", time.gmtime())
CSV = f"kind,value,generation\nsha256,{'c' * 64},\nsbat,grub,4\n".encode()
TITLE = "a loader to be signed"
# An image without components, which no level bars.
TINY = (EXAMPLES / "tiny.efi").read_bytes()

# Who asks for what.
PLAIN_DAY: list[tuple[Any, ...]] = [
    ("ann", "/requests", unsigned(1), ("Desk-Title", TITLE)),
    ("rita", "/requests/1/review", {"note": "read it", "vote": "yes"}),
    ("raul", "/requests/1/review", {"note": "", "vote": "yes"}),
    ("olga", "/db/certificates", CERTIFICATE),
    ("sid", "/requests/1/return", signed(unsigned(1))),
    ("olga", "/dbx/digests", {"digest": DIGEST}),
    ("otto", "/proposals/1/confirm", b""),
    ("olga", "/imports/csv", CSV, ("Desk-Stamp", f"{STAMP}05")),
    ("otto", "/proposals/2/confirm", b""),
    ("olga", "/level", {"component": "shim", "generation": 2, "stamp": int(f"{STAMP}06")}),
    ("otto", "/proposals/3/drop", b""),
    ("olga", "/db/digests", {"digest": "d" * 64}),
    ("olga", "/db/unlist", {"digest": "d" * 64, "kind": "digest"}),
    ("ann", "/requests", TINY, ("Desk-Title", "another one")),
    ("ann", "/requests/2/withdraw", b""),
]


def does_day(server: Server) -> None:
    for name, path, body, *fields in PLAIN_DAY:
        does(server, name, path, body, *fields)
