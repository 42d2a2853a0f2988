"""The little DER that a look at a certificate needs (X.690): elements, and the TBSCertificate, by
whose SHA-256 the desk names a certificate."""
from __future__ import annotations

import hashlib
from dataclasses import dataclass
from typing import Union

SEQUENCE, BIT_STRING, IDENTIFIER = 0x30, 0x03, 0x06


class BadDer(ValueError):
    """The bytes aren't what they have to be in DER."""


@dataclass(frozen=True)
class Element:
    """An element of DER: its tag, the whole of it, what is in it, and whether its length is spelt
    as shortly as DER wants it."""

    tag: int
    whole: bytes
    content: bytes
    shortest: bool


def element(data: Union[bytes, memoryview]) -> Element:
    """The element that begins these bytes."""
    if len(data) < 2 or data[0] & 0x1F == 0x1F:
        raise BadDer("cut")
    length, begin = data[1], 2
    if length >= 0x80:
        count = length - 0x80
        if not 1 <= count <= 4 or len(data) < 2 + count:
            raise BadDer("no length")
        length, begin = int.from_bytes(data[2:2 + count], "big"), 2 + count
    if len(data) - begin < length:
        raise BadDer("cut")
    shortest = begin == 2 or length >= max(0x80, 1 << 8 * (begin - 3))
    end = begin + length
    return Element(data[0], bytes(data[:end]), bytes(data[begin:end]), shortest)


def elements(data: bytes) -> list[Element]:
    """The elements that fill these bytes."""
    found, rest = [], memoryview(data)
    while rest:
        found.append(element(rest))
        rest = rest[len(found[-1].whole):]
    return found


def tbs_of(data: bytes) -> bytes:
    """The TBSCertificate of an X.509 entry of a signature list, as the desk reads it: the first
    element of a SEQUENCE that is all of the bytes."""
    certificate = element(data)
    if certificate.tag != SEQUENCE or certificate.whole != data:
        raise BadDer("no certificate")
    tbs = element(certificate.content)
    if tbs.tag != SEQUENCE:
        raise BadDer("no certificate")
    return tbs.whole


def tbs_digest(data: bytes) -> str:
    """The name that the desk has for a certificate: the SHA-256 of its TBSCertificate."""
    return hashlib.sha256(tbs_of(data)).hexdigest()
