"""For firmware.sh: EFI images, byte by byte; their Authenticode digests, by the specification and
not by the desk; signatures and certificate tables. Signing itself is openssl's."""
from __future__ import annotations

import hashlib
import struct
import subprocess
from typing import List, NamedTuple, Sequence, Tuple

# A list of components, with one that no level names.
SBAT = (
    b"sbat,1,SBAT Version,sbat,1,https://github.com/rhboot/shim/blob/main/SBAT.md\n"
    b"candidate,1,check,candidate,1,https://example.invalid\n"
)
HEADERS = 0x400  # of each image, in bytes
MARK = b"@@MARK@@"


def up(length: int, to: int) -> int:
    return -(-length // to) * to


def padded(image: bytes) -> bytes:
    """To a multiple of 8 bytes, as signing tools leave it."""
    return image.ljust(up(len(image), 8), b"\0")


# ---- images


class Shape(NamedTuple):
    """What an image has besides its code."""

    sbat: bytes | None = SBAT
    sbat_virtual: int = 0  # its VirtualSize, where it isn't the text's length
    gap: int = 0  # bytes before the second section that are in no section
    tail: bytes = b""  # behind the last section
    reverse: bool = False  # the section table in descending order
    pe32: bool = False
    directories: int = 16
    twice: bool = False  # a second section `.sbat`
    subsystem: int = 10
    more: Sequence[Tuple[bytes, bytes]] = ()  # further sections


def marked(code: bytes, name: str) -> bytes:
    """The candidate's code, which says this name."""
    at = code.index(MARK)
    return code[:at] + name.encode().ljust(64, b"\0") + code[at + 64 :]


def sections(code: bytes, shape: Shape) -> List[Tuple[bytes, bytes, int, int]]:
    """Name, bytes, VirtualSize and flags of each."""
    found = [(b".text", code, len(code), 0x60000020)]
    if shape.sbat is not None:
        found.append((b".sbat", shape.sbat, shape.sbat_virtual or len(shape.sbat), 0x40000040))
    if shape.twice:
        found.append((b".sbat", SBAT, len(SBAT), 0x40000040))
    return found + [(name, data, len(data), 0x40000040) for name, data in shape.more]


def optional_header(shape: Shape, code: int, whole: int) -> bytes:
    wide = not shape.pe32
    made = struct.pack(
        "<HBBIIIII", 0x20B if wide else 0x10B, 2, 0, up(code, 0x200), 0, 0, 0x1000, 0x1000
    )
    made += struct.pack("<Q", 0) if wide else struct.pack("<II", 0, 0)
    made += struct.pack(
        "<IIHHHHHHIIIIHH", 0x1000, 0x200, 0, 0, 0, 0, 0, 0, 0, whole, HEADERS, 0, shape.subsystem, 0
    )
    made += bytes(32 if wide else 16)
    return made + struct.pack("<II", 0, shape.directories) + bytes(8 * shape.directories)


def image(code: bytes, shape: Shape) -> bytes:
    """An EFI application: it begins with `.text`, at RVA 0x1000; other sections are behind it."""
    table: List[bytes] = []
    body, memory = b"", 0x1000
    for number, (name, data, virtual, flags) in enumerate(sections(code, shape)):
        if number == 1:
            body += b"\xee" * shape.gap
        raw = data.ljust(up(len(data), 0x200), b"\0")
        place = HEADERS + len(body)
        table.append(
            struct.pack("<8sIIIIIIHHI", name, virtual, memory, len(raw), place, 0, 0, 0, 0, flags)
        )
        body += raw
        memory += up(max(len(raw), virtual), 0x1000)
    if shape.reverse:
        table.reverse()
    optional = optional_header(shape, len(code), memory)
    machine, flags = (0x14C, 0x102) if shape.pe32 else (0x8664, 0x22)
    head = b"MZ".ljust(0x3C, b"\0") + struct.pack("<I", 0x40) + b"PE\0\0"
    head += struct.pack("<HHIIIHH", machine, len(table), 0, 0, 0, len(optional), flags)
    return (head + optional + b"".join(table)).ljust(HEADERS, b"\0") + body + shape.tail


class Fields(NamedTuple):
    optional: int  # where the optional header begins
    sections: int  # where the section table begins
    many: int
    entry: int  # where the certificate table's entry is; 0: there is none


def fields(data: bytes) -> Fields:
    head = struct.unpack_from("<I", data, 0x3C)[0]
    optional = head + 24
    count = struct.unpack_from("<H", data, head + 6)[0]
    size = struct.unpack_from("<H", data, head + 20)[0]
    ends = optional + (112 if struct.unpack_from("<H", data, optional)[0] == 0x20B else 96)
    directories = struct.unpack_from("<I", data, ends - 4)[0]
    return Fields(optional, optional + size, count, ends + 32 if directories > 4 else 0)


def authenticode(data: bytes, algorithm: str = "sha256") -> bytes:
    """The digest of an image, as the specification has it."""
    at = fields(data)
    headers = struct.unpack_from("<I", data, at.optional + 60)[0]
    hashed = hashlib.new(algorithm, data[: at.optional + 64])
    table = 0
    if at.entry:
        hashed.update(data[at.optional + 68 : at.entry] + data[at.entry + 8 : headers])
        table = struct.unpack_from("<I", data, at.entry + 4)[0]
    else:
        hashed.update(data[at.optional + 68 : headers])
    total = headers
    places = (struct.unpack_from("<II", data, at.sections + 40 * n + 16) for n in range(at.many))
    for place, size in sorted((place, size) for size, place in places if size):
        hashed.update(data[place : place + size])
        total += size
    hashed.update(data[total : max(total, len(data) - table)])
    return hashed.digest()


# ---- certificates and signatures


def der(tag: int, *inner: bytes) -> bytes:
    """An element of DER of up to 65,535 bytes."""
    content = b"".join(inner)
    size = len(content)
    if size < 128:
        return bytes([tag, size]) + content
    length = bytes([0x81, size]) if size < 256 else b"\x82" + size.to_bytes(2, "big")
    return bytes([tag]) + length + content


def inner(element: bytes) -> List[bytes]:
    """The elements inside an element of DER."""
    found: List[bytes] = []
    rest = content(element)
    while rest:
        size = len(rest) - len(content_and_rest(rest)[1])
        found.append(rest[:size])
        rest = rest[size:]
    return found


def content_and_rest(data: bytes) -> Tuple[bytes, bytes]:
    start, size = 2, data[1]
    if size > 127:
        start += size - 128
        size = int.from_bytes(data[2:start], "big")
    return data[start : start + size], data[start + size :]


def content(element: bytes) -> bytes:
    return content_and_rest(element)[0]


def tbs(certificate: bytes) -> str:
    """The SHA-256 of a certificate's TBSCertificate."""
    return hashlib.sha256(inner(certificate)[0]).hexdigest()


# Object identifiers, as DER has them after the tag.
ALGORITHMS = {
    "sha1": "052b0e03021a", "sha256": "09608648016503040201",
    "sha384": "09608648016503040202", "sha512": "09608648016503040203",
}
RSA = der(0x30, bytes.fromhex("06092a864886f70d010101"), b"\5\0")
ECDSA = der(0x30, bytes.fromhex("06082a8648ce3d040302"))
SIGNED_DATA, CONTENT_TYPE, MESSAGE_DIGEST = (
    bytes.fromhex(f"06092a864886f70d01{one}") for one in ("0702", "0903", "0904")
)
SPC_INDIRECT_DATA, SPC_PE_IMAGE_DATA = (
    bytes.fromhex(f"060a2b0601040182370201{one}") for one in ("04", "0f")
)


class Signer(NamedTuple):
    """A certificate in DER, and the file of its key."""

    certificate: bytes
    key: str
    elliptic: bool = False


def signature(signer: Signer, signed: bytes, algorithm: str) -> bytes:
    words = ["openssl", "dgst", f"-{algorithm}", "-sign", signer.key]
    return subprocess.run(words, input=signed, capture_output=True, timeout=120, check=True).stdout


def pkcs7(
    digest: bytes, signer: Signer, algorithm: str = "sha256", carried: Sequence[bytes] = (),
    spoilt: bool = False,
) -> bytes:
    """Authenticode's SignedData over a digest; it carries these certificates, or the signer's."""
    hashing = der(0x30, b"\6" + bytes.fromhex(ALGORITHMS[algorithm]), b"\5\0")
    data = der(0x30, der(3, b"\0"), der(0xA0, der(0xA2, der(0x80))))
    spc = der(0x30, der(0x30, SPC_PE_IMAGE_DATA, data), der(0x30, hashing, der(4, digest)))
    attributes = sorted([
        der(0x30, CONTENT_TYPE, der(0x31, SPC_INDIRECT_DATA)),
        der(0x30, MESSAGE_DIGEST, der(0x31, der(4, hashlib.new(algorithm, content(spc)).digest()))),
    ])
    made = signature(signer, der(0x31, *attributes), algorithm)
    if spoilt:
        made = made[:-1] + bytes([made[-1] ^ 1])
    _, serial, _, issuer, *_ = inner(inner(signer.certificate)[0])
    info = der(
        0x30, der(2, b"\1"), der(0x30, issuer, serial), hashing, der(0xA0, *attributes),
        ECDSA if signer.elliptic else RSA, der(4, made),
    )
    whole = der(
        0x30, der(2, b"\1"), der(0x31, hashing), der(0x30, SPC_INDIRECT_DATA, der(0xA0, spc)),
        der(0xA0, *(carried or [signer.certificate])), der(0x31, info),
    )
    return der(0x30, SIGNED_DATA, der(0xA0, whole))


PKCS7_ENTRY, GUID_ENTRY = 2, 0xEF1


def with_table(data: bytes, *entries: Tuple[int, bytes]) -> bytes:
    """An image that has no certificate table, with one of entries of these kinds."""
    data = padded(data)
    body = b"".join(
        padded(struct.pack("<IHH", 8 + len(entry), 0x200, kind) + entry) for kind, entry in entries
    )
    at = fields(data).entry
    return data[:at] + struct.pack("<II", len(data), len(body)) + data[at + 8 :] + body
