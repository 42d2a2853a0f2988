"""An image's sections and digests, as docs/FORMATS.md has them. This isn't proved."""
from __future__ import annotations

import hashlib
import struct
from typing import Sequence


def number_at(data: bytes, at: int, form: str = "<I") -> int:
    found: int = struct.unpack_from(form, data, at)[0]
    return found


def sections(data: bytes) -> list[tuple[bytes, int, int]]:
    """Of each section its name, and where its raw data begin and end."""
    head = number_at(data, 0x3C)
    first = head + 24 + number_at(data, head + 20, "<H")
    found = []
    for number in range(number_at(data, head + 6, "<H")):
        name, _, _, size, place = struct.unpack_from("<8s4I", data, first + 40 * number)
        found.append((name.rstrip(b"\0"), place, place + size))
    return found


def texts_in(data: bytes, names: Sequence[bytes]) -> dict[str, bytes]:
    """The texts in an image's sections of these names, each up to its first zero byte."""
    try:
        found = {name: data[begin:end].split(b"\0")[0] for name, begin, end in sections(data)
                 if name in names}
    except struct.error:
        return {}
    return {name.decode(): found[name] for name in names if found.get(name)}


def has_sbat(data: bytes) -> bool:
    return any(name == b".sbat" for name, _, _ in sections(data))


def hashed_ranges(data: bytes) -> tuple[list[tuple[int, int]], bool]:
    """The ranges that Authenticode hashes of an image whose layout is good, and whether it has a
    certificate table."""
    optional = number_at(data, 0x3C) + 24
    entry = optional + (144 if number_at(data, optional, "<H") == 0x20B else 128)
    heads, checksum = number_at(data, optional + 60), optional + 64
    has_entry = number_at(data, entry - 36) >= 5
    table, size = struct.unpack_from("<2I", data, entry) if has_entry else (0, 0)
    raw = sorted((begin, end) for _, begin, end in sections(data) if end > begin)
    last = heads + sum(end - begin for begin, end in raw)
    found = [(0, checksum), (checksum + 4, entry if has_entry else heads)]
    found += [(entry + 8, heads)] if has_entry else []
    return found + raw + [(last, table if size else len(data))], size > 0


def authenticode(data: bytes) -> tuple[str, str]:
    """The digest of an image whose layout is good, and the one that a signature holds."""
    ranges, has_table = hashed_ranges(data)
    whole = hashlib.sha256(b"".join(data[begin:end] for begin, end in ranges))
    padded = whole.copy()
    padded.update(bytes(0 if has_table else -len(data) % 8))
    return whole.hexdigest(), padded.hexdigest()


def digests_in(data: bytes) -> Sequence[str]:
    """Both of an image; none of what is no image."""
    try:
        return authenticode(data)
    except struct.error:
        return ()
