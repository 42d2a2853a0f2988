"""What stands in an image's certificate table: signatures, over which digest each is, and whose.
This is deskctl's own reading: it isn't proved, and no signature is checked."""
from __future__ import annotations

import struct
from dataclasses import dataclass
from typing import Iterator, Optional, Sequence

from .certificates import Certificate, certificate_in, readable
from .der import IDENTIFIER, BadDer, Element, element, elements

# PE/COFF: how far behind the optional header's beginning the data directories are, by its Magic.
DIRECTORIES = {0x10B: 96, 0x20B: 112}
PKCS7 = 2
# The tag of SignedData's certificates, and the type of an SpcIndirectDataContent.
CERTIFICATES = 0xA0
INDIRECT_DATA = "2b060104018237020104"
ALGORITHMS = {
    "2a864886f70d0205": "MD5",
    "2b0e03021a": "SHA-1",
    "608648016503040204": "SHA-224",
    "608648016503040201": "SHA-256",
    "608648016503040202": "SHA-384",
    "608648016503040203": "SHA-512"}


@dataclass(frozen=True)
class Signer:
    """Who a signature says that it is by: the name of the issuer of the signer's certificate, in
    DER, and its number there; the name in words; the certificate, where the table carries it."""

    issuer: bytes
    serial: bytes
    issued_by: str
    certificate: Optional[Certificate]

    @property
    def words(self) -> str:
        if self.certificate:
            return f"by {self.certificate.subject}, issued by {self.issued_by}"
        return f"by a signer that it doesn't carry, issued by {self.issued_by}"


@dataclass(frozen=True)
class Signature:
    """An entry of the table: the algorithm of its DigestInfo, the digest there, its signers, and
    the certificates that it carries. `fault` says why it can't be read."""

    algorithm: str
    digest: str
    signers: list[Signer]
    certificates: list[Certificate]
    fault: str = ""


def table_entries(data: bytes) -> Iterator[tuple[int, bytes]]:
    """The type and the body of each entry of an image's certificate table; none where there is no
    table. The image is one that a desk reads."""
    optional = struct.unpack_from("<I", data, 0x3C)[0] + 24
    directories = optional + DIRECTORIES[struct.unpack_from("<H", data, optional)[0]]
    if struct.unpack_from("<I", data, directories - 4)[0] < 5:
        return
    at, size = struct.unpack_from("<II", data, directories + 32)
    end = at + size if size else at
    while at < end:
        length, _, kind = struct.unpack_from("<IHH", data, at)
        if length < 8 or at + length > end:
            raise BadDer("an entry passes the table's end")
        yield kind, data[at + 8:at + length]
        at += -(-length // 8) * 8


def signatures_of(data: bytes) -> list[Signature]:
    """The signatures of an image that a desk reads, in their order."""
    found = []
    try:
        for kind, body in table_entries(data):
            found.append(read(body) if kind == PKCS7 else unread("of another type than PKCS #7"))
    except (struct.error, KeyError, BadDer):
        found.append(unread("not whole"))
    return found


def unread(fault: str) -> Signature:
    return Signature("", "", [], [], fault)


def read(body: bytes) -> Signature:
    try:
        return signature_read(body)
    except (ValueError, IndexError):
        return unread("not readable")


def signature_read(body: bytes) -> Signature:
    """The SignedData of an entry (RFC 2315, 9.1), whose content is an SpcIndirectDataContent."""
    _, content = elements(element(body).content)[:2]
    parts = elements(element(content.content).content)
    inner, more = parts[2], parts[3:]
    carried = [
        certificate for part in more if part.tag == CERTIFICATES
        for certificate in map(certificate_in, (part.whole for part in elements(part.content)))
        if certificate]
    algorithm, digest = indirect_digest(inner)
    signers = [signer_read(info, carried) for info in elements(more[-1].content)]
    return Signature(algorithm, digest, signers, carried)


def indirect_digest(inner: Element) -> tuple[str, str]:
    """The algorithm and the digest of a DigestInfo, which follows the data of the image."""
    found = elements(inner.content)
    if len(found) != 2 or found[0].tag != IDENTIFIER or found[0].content.hex() != INDIRECT_DATA:
        return "", ""
    content = element(found[1].content)
    info = elements(content.content)[1]
    algorithm, digest = elements(info.content)
    name = elements(algorithm.content)[0].content.hex()
    return ALGORITHMS.get(name, "another algorithm"), digest.content.hex()


def signer_read(info: Element, carried: Sequence[Certificate]) -> Signer:
    """A SignerInfo's IssuerAndSerialNumber, and the carried certificate that it names."""
    issuer, serial = elements(elements(info.content)[1].content)
    named = (one for one in carried if one.by == issuer.whole and one.serial == serial.content)
    return Signer(issuer.whole, serial.content, readable(issuer), next(named, None))


def signature_words(one: Signature, digest: str, signing: str) -> str:
    """What is known of a signature, beside the image's two digests."""
    if one.fault:
        return one.fault
    signers = "; ".join(signer.words for signer in one.signers) or "by nobody"
    if one.algorithm != "SHA-256":
        return f"over {one.algorithm or 'a digest that is not readable'}, {signers}"
    held = "the digest of other bytes"
    if one.digest in (digest, signing):
        both = "the image's digest" if digest == signing else "`signing`"
        held = "`digest`" if one.digest == digest != signing else both
    return f"over SHA-256, {signers}; it holds {held}"


def algorithm_doubts(signatures: Sequence[Signature]) -> list[str]:
    """What a revocation by SHA-256 doesn't reach in firmware."""
    others = [
        f"signature {number} (over {one.algorithm})" for number, one in enumerate(signatures, 1)
        if one.algorithm not in ("", "SHA-256")]
    if not others:
        return []
    return [
        "Firmware holds a signature against digests of its own algorithm: a revocation by SHA-256"
        f" misses {', '.join(others)}. shim takes signatures over SHA-256 alone."]


def issuer_names(signatures: Sequence[Signature]) -> list[bytes]:
    """The names of whoever issued the signers' certificates, and of their issuers as far as the
    image carries these; none of who issued their own."""
    carried = [each for one in signatures for each in one.certificates if each.of != each.by]
    signers = [signer for one in signatures for signer in one.signers]
    names = [signer.issuer for signer in signers
             if not signer.certificate or signer.certificate.of != signer.issuer]
    for name in names:
        names += [each.by for each in carried if each.of == name and each.by not in names]
    return names
