"""Signature lists (UEFI 2.10, section 32.4.1): read, and written again. page/wire/lists.json has
their types."""
from __future__ import annotations

import re
import struct
import uuid
from dataclasses import dataclass
from typing import Sequence

from .described import described
from .faults import Unreadable

LISTS = described("lists")


def stored(text: str) -> bytes:
    """A GUID as it stands in lists."""
    return uuid.UUID(text).bytes_le


def guid(data: bytes) -> str:
    return str(uuid.UUID(bytes_le=data))


# The names of the types, and the least and the most bytes of an entry of those that the desk keeps.
KINDS: dict[bytes, str] = {stored(row["guid"]): row["name"] for row in LISTS["types"]}
ENTRIES = {row["name"]: row["entry"] for row in LISTS["types"] if "entry" in row}
MICROSOFT, VERSIONS_OWNER = LISTS["owners"]["microsoft"], LISTS["owners"]["versions"]
PROGRAMS = "|".join(stored(text).hex() for text in LISTS["versions"].values())
VERSION_ENTRY = re.compile(rf"01(?:{PROGRAMS})[0-9a-f]{{8}}0{{22}}\Z")
VERSIONS = "versions of Windows' boot programs (SVN)"


def is_version(entry: bytes) -> bool:
    return guid(entry[:16]) == VERSIONS_OWNER or bool(VERSION_ENTRY.match(entry[16:].hex()))


@dataclass(frozen=True)
class SignatureList:
    """One list of signatures: its kind, and each entry with its owner before its body."""

    kind: bytes
    header: bytes
    size: int
    entries: list[bytes]

    @property
    def name(self) -> str:
        return KINDS.get(self.kind) or guid(self.kind)

    def bytes_of(self, entries: Sequence[bytes]) -> bytes:
        total = 28 + len(self.header) + self.size * len(entries)
        return (self.kind + struct.pack("<III", total, len(self.header), self.size) + self.header +
                b"".join(entries))


def size_can_be(kind: bytes, header: int, size: int) -> bool:
    """Whether a list of this type can have such a header, and entries of this size."""
    name = KINDS.get(kind, "")
    if name not in ENTRIES:
        return size >= 16
    least, most = ENTRIES[name]
    return not header and size >= least and (most is None or size <= most)


def read_lists(data: bytes) -> list[SignatureList]:
    """The signature lists that fill the bytes, under the conditions of docs/FORMATS.md."""
    found, at = [], 0
    while at < len(data):
        if len(data) - at < 28:
            raise Unreadable(f"at {at:,} of {len(data):,} bytes a signature list is cut")
        kind = data[at:at + 16]
        total, header, size = struct.unpack_from("<III", data, at + 16)
        if total < 28 + header or total > len(data) - at:
            raise Unreadable(f"at {at:,} a signature list says that it has {total:,} bytes, and"
                             f" {len(data) - at:,} are left")
        if not size_can_be(kind, header, size) or (total - 28 - header) % size:
            raise Unreadable(
                f"at {at:,} a signature list has entries of {size:,} bytes, which can't be")
        begin = at + 28 + header
        entries = [data[place:place + size] for place in range(begin, at + total, size)]
        found.append(SignatureList(kind, data[at + 28:begin], size, entries))
        at += total
    return found


def entries_in(data: bytes) -> list[tuple[str, bytes]]:
    """Each entry with its list's type, in their order."""
    return [(one.name, entry) for one in read_lists(data) for entry in one.entries]
