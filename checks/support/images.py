"""Images, certificate tables and signature lists, byte by byte."""
from __future__ import annotations

import hashlib
import struct
from typing import Iterable, Sequence

from checks.support.wire import TYPES

OWNER = "00112233-4455-6677-8899-aabbccddeeff"
# The owner as a signature list stores it.
STORED = bytes.fromhex("33221100554477668899aabbccddeeff")


def sha256(data: bytes) -> str:
    return hashlib.sha256(data).hexdigest()


def digest(byte: str) -> str:
    """A digest of one byte alone, in hexadecimal."""
    return byte * 32


def changed(data: bytes, *changes: tuple[int, str]) -> bytes:
    """The bytes with others written over them, each by place and hexadecimal digits."""
    made = bytearray(data)
    for place, digits in changes:
        new = bytes.fromhex(digits)
        made[place : place + len(new)] = new
    return bytes(made)


# An EFI image of PE32+ with one section of 512 bytes, 1,024 bytes in all.
PLAIN = changed(
    bytes(1024), (0, "4d5a"), (60, "40000000"), (64, "50450000"), (68, "6486"), (70, "0100"),
    (84, "f000"), (88, "0b02"), (148, "00020000"), (156, "0a00"), (196, "10000000"),
    (328, "2e74657874"), (344, "00020000"), (348, "00020000"),
)
# A certificate, and a certificate table that holds it.
CERTIFICATE = bytes.fromhex("30053003020101")
TBS = sha256(CERTIFICATE[2:])
TABLE = bytes.fromhex(
    "2b00000000020200" "3021" "06092a864886f70d010702" "a014" "3012" "020101" "3100" "3000" "a007"
    "30053003020101" "3100" "0000000000"
)


def with_table(image: bytes, table: bytes, size: int | None = None) -> bytes:
    """The image with this table behind it; its entry has this size, or the table's."""
    entry = struct.pack("<II", len(image), len(table) if size is None else size)
    return changed(image, (232, entry.hex())) + table


def with_text(image: bytes, text: bytes) -> bytes:
    """The image with a second section, `.sbat`, of this text and zeros."""
    room = -(-len(text) // 512) * 512
    header = b".sbat".ljust(8, b"\0") + struct.pack("<IIII", len(text), 0, room, len(image))
    return changed(image, (70, "02"), (368, header.hex())) + text.ljust(room, b"\0")


def authenticode(image: bytes) -> str:
    """The SHA-256 of what Authenticode hashes of such an image: all but CheckSum, the table's entry
    and the table."""
    at, size = struct.unpack_from("<II", image, 232)
    end = at if size else len(image)
    return sha256(image[:152] + image[156:232] + image[240:end])


def signing(image: bytes) -> str:
    """The digest that a signature of such an image without a table holds: that of the image, padded
    to a multiple of 8."""
    return authenticode(image.ljust(-(-len(image) // 8) * 8, b"\0"))


SIGNED = with_table(PLAIN, TABLE)
SHA256_KIND, X509_KIND, X509_SHA256_KIND = (
    TYPES[name] for name in ("sha256", "x509", "x509_sha256")
)


def signature_list(kind: bytes, entries: Sequence[bytes]) -> bytes:
    """A signature list of entries of one length, each with the owner before it; no bytes for no
    entry."""
    if not entries:
        return b""
    each = 16 + len(entries[0])
    head = struct.pack("<III", 28 + each * len(entries), 0, each)
    return kind + head + b"".join(STORED + entry for entry in entries)


def parted(data: bytes) -> list[tuple[bytes, list[bytes]]]:
    """Signature lists without headers: of each its kind and its entries, owners before them."""
    lists = []
    while data:
        size, _, each = struct.unpack_from("<III", data, 16)
        lists.append((data[:16], [data[at : at + each] for at in range(28, size, each)]))
        data = data[size:]
    return lists


def digest_list(digests: Iterable[str]) -> bytes:
    return signature_list(SHA256_KIND, [bytes.fromhex(one) for one in digests])


def certificate_list(digests: Iterable[str], when: bytes = bytes(16)) -> bytes:
    return signature_list(X509_SHA256_KIND, [bytes.fromhex(one) + when for one in digests])


# A list of one digest, one of a certificate with a time, and one of a type of no kind: 216 bytes.
THREE_LISTS = (
    digest_list([digest("aa")])
    + certificate_list([digest("bb")], bytes.fromhex("e8070b16") + bytes(12))
    + STORED + struct.pack("<III", 48, 0, 20) + STORED + bytes.fromhex("01020304")
)
