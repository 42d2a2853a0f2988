"""Images with certificate tables, and without."""
from __future__ import annotations

import struct

from checks.support.images import changed, with_table
from checks.support.largest import der


def signed(image: bytes, table: bytes) -> bytes:
    """The image with this table behind it, or without one."""
    return with_table(image, table) if table else image


def unsigned(image: bytes) -> bytes:
    """The image without its table."""
    at, size = struct.unpack_from("<II", image, 232)
    return changed(image[:at], (232, "00" * 8)) if size else image


def table_of(certificates: list[bytes]) -> bytes:
    """A certificate table of one entry that carries these, behind one of another type; no bytes for
    none."""
    if not certificates:
        return b""
    data = der(
        0x30,
        bytes.fromhex("020101" "3100" "3000") + der(
            0xA0, b"".join(certificates)
        ) + bytes.fromhex("3100")
    )
    body = der(0x30, bytes.fromhex("06092a864886f70d010702") + der(0xA0, data))
    entry = (8 + len(body)).to_bytes(4, "little") + bytes.fromhex("00020200") + body
    other = bytes.fromhex("0a000000" "00020100" "abcd").ljust(16, b"\0")
    return other + entry.ljust(-(-len(entry) // 8) * 8, b"\0")
