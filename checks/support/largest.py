"""The largest of each input: images, certificates, imports."""
from __future__ import annotations

from checks.support.images import (
    PLAIN, X509_KIND, authenticode, digest_list, sha256, signature_list, with_table, with_text
)
from checks.support.messages import octets, ok
from checks.support.steps import (
    again, confirms, proposal, proposes, reads, refuses, submits, takes
)

MANY = [f"{number:064x}" for number in range(1, 10_002)]


def der(tag: int, content: bytes) -> bytes:
    """A DER element, its length in four bytes."""
    return bytes([tag, 0x84]) + len(content).to_bytes(4, "big") + content


def table_of(count: int) -> bytes:
    """A certificate table of one entry with so many certificates, no two of them alike."""
    row = b"".join(bytes([0x30, 5, 0x30, 3, 2, 1, number]) for number in range(count))
    signed = der(0x30, bytes.fromhex("020101" "3100" "3000") + der(0xA0, row))
    body = der(0x30, bytes.fromhex("0600") + der(0xA0, signed))
    entry = (8 + len(body)).to_bytes(4, "little") + bytes.fromhex("00020200") + body
    return entry.ljust(-(-len(entry) // 8) * 8, b"\0")


def largest(certificates: int, components: int) -> bytes:
    """An image with so many certificates and components."""
    rows = b"".join(b"c%d,1,a,b,1,u\n" % number for number in range(components))
    return with_table(with_text(PLAIN, rows), table_of(certificates))


LONGEST = bytes.fromhex("3082fffc" "3003020101").ljust(65_536, b"\0")
LARGEST_IMAGE = largest(64, 256)

# A day of the largest of each.
LARGEST_REQUEST = {
    "carried": sorted(sha256(bytes([0x30, 3, 2, 1, number])) for number in range(64)),
    "components": [[f"c{number}", 1] for number in range(256)],
    "digest": authenticode(LARGEST_IMAGE), "file": sha256(LARGEST_IMAGE), "gap": 0,
    "length": len(LARGEST_IMAGE), "number": 1, "returned": None,
    "signing": authenticode(LARGEST_IMAGE), "state": "open", "submitter": "ann", "title": "t" * 120,
    "votes": []
}
LARGEST = [
    refuses(13, "olga", "k1", "/imports/dbx", digest_list(MANY)),
    reads("olga", "/proposals", ok([])),
    proposes("olga", "k1", "/imports/dbx", digest_list(MANY[:-1]), 1),
    confirms("otto", "k1", 1, 10_000, 0, 0, 0),
    reads("ann", "/dbx", octets(digest_list(MANY[:-1]))),
    refuses(13, "olga", "k2", "/db/certificates", LONGEST + b"\0"),
    takes("olga", "k2", "/db/certificates", LONGEST, {"reply": "listed"}),
    reads("ann", "/db", octets(signature_list(X509_KIND, [LONGEST]))),
    refuses(13, "ann", "k1", "/requests", largest(65, 256), ("Desk-Title", "t" * 120)),
    refuses(13, "ann", "k1", "/requests", largest(64, 257), ("Desk-Title", "t" * 120)),
    refuses(51, "ann", "k1", "/requests", LARGEST_IMAGE, ("Desk-Title", "t" * 121)),
    submits("ann", "k1", LARGEST_IMAGE, "t" * 120, 1),
    again(
        "ann", "k1", "/requests", LARGEST_IMAGE, {"reply": "submitted", "request": 1},
        ("Desk-Title", "t" * 120)
    ),
    reads("ann", "/requests/1", ok(LARGEST_REQUEST)),
    reads("otto", "/proposals", ok([proposal(1, "olga", "confirmed", digests=10_000)]))
]
