"""shim-dbx.esl, which `desk audit OWNER MINUTES shim` writes, held against dbx and the minutes
before desk-publish publishes it. The writer is proved; this isn't, and it trusts nothing of it.

The file has what dbx revokes, in the form that shim reads: shim's vendor_dbx counts by SHA256 and
X509 entries, and passes over the X509_SHA256 entries that dbx has of certificates. Its signature
lists, each only if it has entries:

1. the SHA256 list of dbx, byte for byte;
2. for each revoked certificate that some ListCertificate of the minutes gave, unlisted since or
   not, an X509 list of one entry; ascending by the SHA-256 of the TBSCertificate. All else in a
   body is opaque to the desk, so where calls gave several, each has its list, once, in the order of
   the calls;
3. one X509_SHA256 list of the revoked certificates that nobody gave, ascending, each with 16 zero
   bytes as its TimeOfRevocation.

The owner of each entry is the desk's. Minutes never lose a call, so an X509 entry stays in each
later file.
"""
from __future__ import annotations

import re
from typing import Sequence

from .der import BadDer, tbs_digest
from .siglists import entries_in, guid

NAME = "shim-dbx.esl"
ORDER = ("sha256", "x509", "x509_sha256")


def without_body(made: bytes) -> list[str]:
    """The revoked certificates that shim passes over, by the SHA-256 of their TBSCertificate."""
    return [entry[16:48].hex() for entry in of_kind(entries_in(made), "x509_sha256")]


def difference(made: bytes, owner: str, minutes: bytes, dbx: bytes) -> str:
    """Why it isn't that: its digests and certificates are exactly those of dbx; each body of the
    minutes is in it, and is its certificate's. Nothing if it is."""
    found, wanted = entries_in(made), entries_in(dbx)
    for other in {guid(entry[:16]) for _, entry in found} - {owner.lower()}:
        return f"an entry has the owner {other}"
    order = [kind for kind, _ in found]
    if not set(order) <= set(ORDER) or order != sorted(order, key=ORDER.index):
        return "it has other lists, or in another order"
    images, certificates = of_kind(found, "sha256"), of_kind(wanted, "x509_sha256")
    if images != of_kind(wanted, "sha256"):
        return f"it has {len(images)} digests of images, and they aren't those of dbx"
    told = bodies_told(minutes, {entry[16:48].hex() for entry in certificates})
    try:
        bodies = [(tbs_digest(entry[16:]), entry[16:]) for entry in of_kind(found, "x509")]
    except BadDer:
        return "a body that the minutes give is no certificate"
    for name, _ in sorted(told ^ set(bodies)):
        return f"its bodies of {name} aren't those that the minutes give"
    if [name for name, _ in bodies] != sorted(name for name, _ in told):
        return "a certificate is in it twice, or they aren't in ascending order"
    named = {name for name, _ in told}
    bare = [entry for entry in certificates if entry[16:48].hex() not in named]
    if of_kind(found, "x509_sha256") != bare:
        return "its certificates without a body aren't those of dbx that nobody gave"
    return ""


def bodies_told(minutes: bytes, revoked: set[str]) -> set[tuple[str, bytes]]:
    """The bodies that calls gave of the revoked certificates."""
    calls = re.findall(rb"\tlist-certificate ([0-9a-f]{64}) ([0-9a-f]+)\t", minutes)
    return {(name.decode(), bytes.fromhex(body.decode())) for name, body in calls
            if name.decode() in revoked}


def of_kind(entries: Sequence[tuple[str, bytes]], kind: str) -> list[bytes]:
    return [entry for its, entry in entries if its == kind]
