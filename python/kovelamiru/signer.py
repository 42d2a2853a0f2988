"""What is asked before one officer lists a signer's certificate: where firmware would refuse it,
and where the desk would surprise."""
from __future__ import annotations

from dataclasses import dataclass
from typing import Iterator, Optional, Sequence

from .certificates import Certificate, certificate_in
from .desk import Desk
from .minutes import minute_lines
from .standing import Standing
from .words import printable


@dataclass(frozen=True)
class Beside:
    """A signed image that is given beside a certificate: what it carries, by the desk, and whose
    that is, as far as it reads."""

    path: str
    carried: list[str]
    certificates: list[Certificate]


NOT_RSA = (
    "Its key isn't RSA: firmware takes no db with it. SetVariable refuses the whole of `desk db`,"
    " with all that is listed.")
AUTHORITY = (
    "It says that it is a CA's. Firmware and shim follow the chain to it; the desk compares what an"
    " image carries, and most carry their signer's certificate alone: list the signer's. An image"
    " that carries the CA's is allowed, whoever signed it, unless something bars it.")
REVOKED = "It is revoked at this desk: whatever carries it stays barred, listed or not."


def image_doubts(one: Certificate, image: Beside) -> list[str]:
    """What an image says of listing a certificate: nothing, if its table carries that."""
    if one.tbs in image.carried:
        return []
    whose = {carried.tbs: f" ({carried.subject})" for carried in image.certificates}
    carries = ", ".join(f"{tbs}{whose.get(tbs, '')}" for tbs in image.carried)
    return [
        f"{printable(image.path)} doesn't carry it, so the desk won't allow that image by it. It"
        f" carries {carries or 'no certificate: it is not signed'}."]


def issuers_of(one: Certificate, known: Sequence[Certificate]) -> list[Certificate]:
    """The certificates among these that have the issuer's name; a self-issued one has none."""
    return [each for each in known if each.of == one.by and each.tbs != one.tbs]


def issuer_doubts(one: Certificate, known: Sequence[Certificate], now: Standing) -> list[str]:
    return [
        f"A certificate with its issuer's name is revoked: {each.subject}, {each.tbs}. The desk"
        " still allows an image that carries this one alone; shim doesn't, once it has that body;"
        " and in firmware the order of db decides, if both are listed."
        for each in issuers_of(one, known) if each.tbs in now.revoked_certificates]


def listed_before(desk: Desk, wanted: set[str]) -> Iterator[Certificate]:
    """Certificates that some call listed, by the minutes, which keep each body."""
    left = set(wanted)
    for line in minute_lines(desk) if left else ():
        text = line.split("\t")[3]
        if text.startswith("list-certificate ") and text.split(" ")[1] in left:
            left.discard(text.split(" ")[1])
            found = certificate_in(bytes.fromhex(text.split(" ")[2]))
            if found:
                yield found
            if not left:
                return


def known_bodies(desk: Desk, now: Standing, image: Optional[Beside]) -> list[Certificate]:
    """The certificates whose bodies are at hand: those of db and of the image, and the revoked ones
    that some call listed."""
    known = [each for each in now.certificates.values() if each]
    known += image.certificates if image else []
    unknown = now.revoked_certificates - {each.tbs for each in known}
    return known + list(listed_before(desk, unknown))


def listing_doubts(one: Certificate, now: Standing, known: Sequence[Certificate]) -> list[str]:
    """What firmware would refuse, and where the desk would surprise."""
    doubts = [] if one.rsa else [NOT_RSA]
    doubts += [AUTHORITY] if one.authority else []
    doubts += [REVOKED] if one.tbs in now.revoked_certificates else []
    return doubts + issuer_doubts(one, known, now)


def shown(one: Certificate, image: Optional[Beside]) -> list[str]:
    rows = [("subject", one.subject), ("issuer", one.issuer), ("key", one.key),
            ("CA", "yes" if one.authority else "no"),
            ("certificate", f"{one.tbs} (the SHA-256 of its TBSCertificate)")]
    if image and one.tbs in image.carried:
        rows.append(("carried", f"by {printable(image.path)}"))
    return [f"  {name:<11} {text}" for name, text in rows]
