"""What a certificate says of itself (RFC 5280, section 4.1). No signature is checked."""
from __future__ import annotations

import hashlib
from dataclasses import dataclass
from typing import Optional

from .der import BIT_STRING, IDENTIFIER, SEQUENCE, BadDer, Element, element, elements
from .words import printable

# Tags and object identifiers.
TIMES, VERSION_TAG, EXTENSIONS = (0x17, 0x18), 0xA0, 0xA3
# The tags of a TBSCertificate from its serial number to its key, and what may follow them.
PARTS, MORE = [0x02] + 5 * [SEQUENCE], (0x81, 0x82, EXTENSIONS)
BASIC_CONSTRAINTS = bytes.fromhex("551d13")
# What a key is, by its algorithm; the size of one that is RSA, and the curve, are said beside it.
RSA, ELLIPTIC = "2a864886f70d010101", "2a8648ce3d0201"
KEYS = {"2b6570": "Ed25519", "2b6571": "Ed448", "2a864886f70d01010a": "RSA (PSS)"}
CURVES = {"2a8648ce3d030107": "P-256", "2b81040022": "P-384", "2b81040023": "P-521"}
ATTRIBUTES = {"550403": "CN", "55040a": "O", "55040b": "OU", "550406": "C", "550408": "ST",
              "550407": "L", "2a864886f70d010901": "E"}


@dataclass(frozen=True)
class Certificate:
    """A certificate: the SHA-256 of its TBSCertificate and of the whole of it, whose it is, who
    issued it, its key in words, and whether it says that it is a CA's. `of` and `by` are the two
    names in DER, `serial` its number: what signatures and other certificates name it by; `common`
    is its subject's common name, if there is one."""

    data: bytes
    tbs: str
    fingerprint: str
    subject: str
    issuer: str
    key: str
    authority: bool
    of: bytes
    by: bytes
    serial: bytes
    common: str

    @property
    def called(self) -> str:
        """Its name in a sentence: the common name, or the first 8 digits of its SHA-256."""
        return self.common or self.tbs[:8]

    @property
    def rsa(self) -> bool:
        """Whether it is plain RSA: no other key of an X509 entry is taken by firmware."""
        return self.key.startswith("RSA, ")


def parts_of(tbs: Element) -> list[Element]:
    """The elements of a TBSCertificate from its serial number on."""
    found = elements(tbs.content)
    return found[1:] if found and found[0].tag == VERSION_TAG else found


def is_algorithm(one: Element) -> bool:
    return [part.tag for part in elements(one.content)][:1] == [IDENTIFIER]


def is_tbs(tbs: Element) -> bool:
    """Whether a TBSCertificate has its parts; those of a request and of a CRL are others."""
    parts = parts_of(tbs)
    tags, more = [part.tag for part in parts[:6]], [part.tag for part in parts[6:]]
    if tags != PARTS or any(tag not in MORE for tag in more) or more != sorted(set(more)):
        return False
    _, algorithm, _, validity, _, key = parts[:6]
    times = [part.tag for part in elements(validity.content)]
    kinds = [part.tag for part in elements(key.content)]
    in_time = len(times) == 2 and all(tag in TIMES for tag in times)
    return is_algorithm(algorithm) and in_time and kinds == [SEQUENCE, BIT_STRING]


def attributes(name: Element) -> list[tuple[str, str]]:
    """A name's attributes in its order, each with its type."""
    found = []
    for pair in (pair for part in elements(name.content) for pair in elements(part.content)):
        kind, value = elements(pair.content)[:2]
        coding = {0x1E: "utf-16-be", 0x14: "latin-1"}.get(value.tag, "utf-8")
        text = value.content.decode(coding, "replace")
        found.append((ATTRIBUTES.get(kind.content.hex(), "?"), printable(text)))
    return found


def readable(name: Element) -> str:
    try:
        return ", ".join(f"{kind}={text}" for kind, text in attributes(name)) or "(empty)"
    except ValueError:
        return "(not readable)"


def common_name(name: Element) -> str:
    try:
        return next((text.strip() for kind, text in attributes(name) if kind == "CN"), "")
    except ValueError:
        return ""


def key_words(key: Element) -> str:
    """A SubjectPublicKeyInfo in words."""
    algorithm, bits = elements(key.content)
    kind, *parameters = elements(algorithm.content)
    name = kind.content.hex()
    if name == RSA:
        modulus = elements(element(bits.content[1:]).content)[0]
        return f"RSA, {int.from_bytes(modulus.content, 'big').bit_length()} bits"
    if name == ELLIPTIC:
        curve = parameters[0].content.hex() if parameters else ""
        return f"EC, {CURVES.get(curve, 'another curve')}"
    return KEYS.get(name, "of another type")


def key_of(key: Element) -> str:
    try:
        return key_words(key)
    except (ValueError, IndexError):
        return "(not readable)"


def is_authority(parts: list[Element]) -> bool:
    """Whether the basicConstraints among the extensions say that it is a CA's."""
    extensions = [element(part.content) for part in parts if part.tag == EXTENSIONS]
    for extension in (extension for row in extensions for extension in elements(row.content)):
        inner = elements(extension.content)
        if inner[0].content == BASIC_CONSTRAINTS:
            flags = elements(element(inner[-1].content).content)
            return bool(flags) and flags[0].tag == 0x01 and any(flags[0].content)
    return False


def certificate_read(data: bytes) -> Certificate:
    """The certificate that these bytes are, in DER and no more: a TBSCertificate, an
    AlgorithmIdentifier and a BIT STRING; BadDer otherwise."""
    certificate = element(data)
    inner = elements(certificate.content)
    tags = [part.tag for part in [certificate, *inner]]
    if certificate.whole != data or tags != [SEQUENCE, SEQUENCE, SEQUENCE, BIT_STRING]:
        raise BadDer("no certificate")
    tbs, algorithm, _ = inner
    if not all(part.shortest for part in [certificate, *inner]):
        raise BadDer("not DER")
    if not is_tbs(tbs) or not is_algorithm(algorithm):
        raise BadDer("no certificate")
    parts = parts_of(tbs)
    return Certificate(data,
                       hashlib.sha256(tbs.whole).hexdigest(),
                       hashlib.sha256(data).hexdigest(), readable(parts[4]), readable(parts[2]),
                       key_of(parts[5]), is_authority(parts), parts[4].whole, parts[2].whole,
                       parts[0].content, common_name(parts[4]))


def certificate_in(data: bytes) -> Optional[Certificate]:
    """The same; nothing where the bytes are no certificate."""
    try:
        return certificate_read(data)
    except (ValueError, IndexError):
        return None
