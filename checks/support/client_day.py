"""A day at the desk: what deskctl's people type, and the same as plain requests."""
from __future__ import annotations

import datetime
import struct
from typing import Sequence

from checks.support.cases import SIGNER
from checks.support.images import (
    PLAIN, STORED, THREE_LISTS, authenticode, digest, sha256, with_table
)
from checks.support.messages import Field, said
from checks.support.steps import named, raising, vote

TODAY = datetime.datetime.now(datetime.timezone.utc).strftime("%Y%m%d")
HEX = "ba7816bf8f01cfea414140de5dae2223b00361a396177a9cb410ff61f20015ad"
CERTIFICATE, TBS = SIGNER["bytes"], SIGNER["tbs"]


def der(tag: int, *inner: bytes) -> bytes:
    """An element of DER of up to 65,535 bytes."""
    content = b"".join(inner)
    size = len(content)
    long = b"\x82" + size.to_bytes(2, "big")
    return bytes([tag]) + (bytes([size]) if size < 128 else long) + content


def table_of(certificate: bytes) -> bytes:
    """A certificate table of one entry, a SignedData (RFC 5652) that holds the certificate and
    signs nothing."""
    data = der(0x30, b"\2\1\1", der(0x31), der(0x30), der(0xA0, certificate), der(0x31))
    entry = der(0x30, bytes.fromhex("06092a864886f70d010702"), der(0xA0, data))
    return struct.pack("<IHH", 8 + len(entry), 0x0200, 2) + entry + bytes(-len(entry) % 8)


SIGNED = with_table(PLAIN, table_of(CERTIFICATE))
# Its digest isn't the one that a signature holds.
ODD = PLAIN + b"12345"
# Of another owner than the desk's, whose own lists are asked about.
OTHERS_LISTS = THREE_LISTS.replace(STORED, bytes.fromhex("bd9afa775903324dbd6028f4e78f784b"))
CSV = f"kind,value,generation\nsha256,{digest('cc')},\nsbat,grub,4\n".encode()
LEVEL = f"sbat,1,{TODAY}04\nshim,4\n".encode()
FILES = {
    "plain.efi": PLAIN, "signed.efi": SIGNED, "odd.efi": ODD, "certificate.der": CERTIFICATE,
    "lists.esl": OTHERS_LISTS, "revoked.csv": CSV, "level.csv": LEVEL, "empty": b"",
}
BOTH = (f"kind,value,generation\nsha256,{authenticode(ODD)},\n"
        f"sha256,{authenticode(ODD + bytes(3))},\nx509_sha256,{digest('dd')},\n").encode()
LISTED = authenticode(PLAIN)

# Who sends what to which path, by plain requests.
BY_REQUESTS: list[tuple[str, str, bytes, Sequence[Field]]] = [
    ("ann", "/requests", SIGNED, [("Desk-Title", "a signed loader")]),
    ("rita", "/requests/1/review", vote("yes", "read it"), []),
    ("raul", "/requests/1/review", vote("yes"), []),
    ("olga", "/db/certificates", CERTIFICATE, []),
    ("sid", "/requests/1/return", SIGNED, []),
    ("olga", "/dbx/digests", named(HEX), []),
    ("otto", "/proposals/1/confirm", b"", []),
    ("rita", "/requests", PLAIN, [("Desk-Title", "withdrawn")]),
    ("rita", "/requests/2/withdraw", b"", []),
    ("ann", "/requests", PLAIN, [("Desk-Title", "rejected")]),
    ("rosa", "/requests/3/review", vote("no", "no tag"), []),
    ("olga", "/db/digests", named(LISTED), []),
    ("olga", "/db/unlist", said({"digest": LISTED, "kind": "digest"}), []),
    ("olga", "/level", raising("grub", 3, int(TODAY + "01")), []),
    ("otto", "/proposals/2/drop", b"", []),
    ("olga", "/imports/dbx", THREE_LISTS, []),
    ("otto", "/proposals/3/confirm", b"", []),
    ("olga", "/imports/csv", CSV, [("Desk-Stamp", TODAY + "03")]),
    ("otto", "/proposals/4/confirm", b"", []),
    ("olga", "/imports/level", LEVEL, []),
    ("otto", "/proposals/5/confirm", b"", []),
    ("olga", "/imports/csv", BOTH, []),
    ("otto", "/proposals/6/confirm", b"", []),
    ("olga", "/dbx/certificates", named(digest("ee")), []),
    ("otto", "/proposals/7/drop", b"", []),
    ("olga", "/db/unlist", said({"digest": TBS, "kind": "certificate"}), []),
]

# Who types what, how that ends, and what stands on standard output and on standard error.
BY_DESKCTL: list[tuple[str, str, int, Sequence[str], Sequence[str]]] = [
    ("ann", "submit signed.efi --title 'a signed loader'", 0,
     ["request 1 submitted", sha256(SIGNED)], ["deskctl wait 1"]),
    ("rita", "review 1 yes --note 'read it'", 0, ["request 1 reviewed: open"], []),
    ("ann", "wait 1 --timeout 0.1", 3, [], ["still open"]),
    ("raul", "review 1 yes", 0, ["approved"], []),
    ("ann", "wait 1 --timeout 5", 0, ["request 1 approved"], []),
    ("olga", "list-certificate certificate.der --yes", 0, [TBS], []),
    ("sid", "return 1 signed.efi --yes", 0, ["request 1 signed"], ["osslsigncode verify"]),
    ("ann", "verdict signed.efi", 0, ["allowed"], ["no signature was checked"]),
    ("ann", "verdict signed.efi plain.efi", 4, ["allowed", "not-listed"], []),
    ("olga", f"revoke --digest {HEX.upper()}", 0, ["proposal 1 proposed"],
     ["known to no request", "deskctl confirm 1"]),
    ("otto", "confirm 1 --yes", 0, ["proposal 1 confirmed: 1 new digest, 0 new certificates"], []),
    ("rita", "submit plain.efi --title withdrawn", 0, ["request 2"], []),
    ("rita", "withdraw 2", 0, [], []),
    ("ann", "submit plain.efi --title rejected", 0, ["request 3"], []),
    ("rosa", "review 3 no --note 'no tag'", 0, ["rejected"], ["for good"]),
    ("ann", "wait 3", 1, [], ["request 3 is rejected", "rosa: no tag"]),
    ("olga", "list-digest plain.efi", 0, [LISTED], []),
    ("olga", f"unlist digest {LISTED}", 0, [], []),
    ("olga", f"raise grub 3 --stamp {TODAY}01 --yes", 0, ["proposal 2"], ["grub none -> 3"]),
    ("otto", "drop 2", 0, ["proposal 2 dropped"], []),
    ("olga", "import lists.esl", 0, ["proposal 3"],
     ["digests       1, 1 new", "1 certificate with a time", "skipped"]),
    ("otto", "confirm 3 --yes", 0, ["1 new digest, 1 new certificate"], []),
    ("olga", f"import revoked.csv --stamp {TODAY}03 --yes", 0, ["proposal 4"],
     ["components    1, 1 new"]),
    ("otto", "confirm 4 --yes", 0, [], []),
    ("olga", "import level.csv --yes", 0, ["proposal 5"], ["a level's text"]),
    ("otto", "confirm 5 --yes", 0, ["1 new component"], []),
    ("olga", f"revoke odd.efi --certificate {digest('dd')}", 0, ["proposal 6"],
     ["signing digest of odd.efi"]),
    ("otto", "confirm 6 --yes", 0, ["2 new digests, 1 new certificate"], []),
    ("olga", f"revoke --certificate {digest('ee')}", 0, [], []),
    ("otto", "drop 7", 0, [], []),
    ("olga", "unlist certificate certificate.der", 0, [TBS], []),
]
