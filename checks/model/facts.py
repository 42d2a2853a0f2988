"""What the model knows of an image, written from docs/FORMATS.md."""
from __future__ import annotations

import struct
from typing import Any, Iterable, Iterator, NamedTuple, Optional

from checks.support.images import sha256
from checks.support.wire import REFUSALS

NUMBERS = {name: number for number, (name, _) in REFUSALS.items()}
Components = tuple[tuple[str, int], ...]


class Refusal(Exception):
    """Why a request is refused, with the place in its body, if there is one."""

    def __init__(self, name: str, place: Optional[int] = None) -> None:
        super().__init__(name)
        self.name, self.place = name, place


def refuse_if(condition: bool, name: str) -> None:
    if condition:
        raise Refusal(name)


# ---- images


class Facts(NamedTuple):
    """What the desk keeps of an image: lengths in bytes, digests in hexadecimal."""

    length: int
    gap: int
    file: str
    digest: str
    signing: str
    carried: tuple[str, ...]
    components: Components

    def told(self) -> str:
        components = [f"{generation}:{name}" for name, generation in self.components]
        sums = f"{self.file} {self.digest} {self.signing}"
        return f"{self.length} {self.gap} {sums} {listed(self.carried)} {listed(components)}"

    def shown(self) -> dict[str, Any]:
        return {
            "carried": [*self.carried], "components": [[*one] for one in self.components],
            "digest": self.digest, "file": self.file, "gap": self.gap, "length": self.length,
            "signing": self.signing
        }


def listed(items: Iterable[str]) -> str:
    """A LIST of the minutes."""
    return ",".join(items) or "-"


class Element(NamedTuple):
    """A DER element: its tag, its content, all of it, and the bytes behind it."""

    tag: int
    content: bytes
    whole: bytes
    rest: bytes


def element(data: bytes) -> Optional[Element]:
    """The DER element at the front, if there is one."""
    if len(data) < 2:
        return None
    begin, size = 2, data[1]
    if size >= 128:
        begin += size - 128
        size = int.from_bytes(data[2:begin], "big")
    end = begin + size
    return Element(data[0], data[begin:end], data[:end], data[end:]) if end <= len(data) else None


def tbs_of(certificate: bytes) -> Optional[str]:
    """The SHA-256 of a certificate's TBSCertificate; none if the bytes are no certificate."""
    outer = element(certificate)
    if outer is None or outer.tag != 0x30 or outer.rest:
        return None
    inner = element(outer.content)
    return sha256(inner.whole) if inner is not None and inner.tag == 0x30 else None


def elements(data: bytes) -> Iterator[Element]:
    """The DER elements of a row."""
    while data:
        one = element(data)
        if one is None:
            raise Refusal("Der")
        yield one
        data = one.rest


def certificates_in(body: bytes) -> list[bytes]:
    """The certificates of a SignedData in its ContentInfo."""
    _, content = elements(next(elements(body)).content)
    signed = [*elements(next(elements(content.content)).content)]
    return [
        one.whole for one in elements(signed[3].content) if one.tag == 0x30
    ] if len(signed) > 3 and signed[3].tag == 0xA0 else []


def carried_by(table: bytes) -> tuple[str, ...]:
    """The SHA-256 of each TBSCertificate of a certificate table, ascending, each once."""
    found = set()
    while any(table):
        length, _, kind = struct.unpack_from("<IHH", table)
        if kind == 2:
            found |= {tbs_of(one) for one in certificates_in(table[8:length])}
        table = table[-(-length // 8) * 8 :]
    return tuple(sorted(one for one in found if one))


def rows_of(data: bytes) -> list[tuple[int, list[str]]]:
    """The lines of SBAT text that aren't empty: the number from 1, and the fields."""
    lines = data.split(b"\0")[0].removeprefix(b"\xef\xbb\xbf").split(b"\n")
    numbered = (
        (number, one.removesuffix(b"\r").decode("latin-1")) for number, one in enumerate(lines, 1)
    )
    return [(number, one.split(",")) for number, one in numbered if one]


def facts_of(image: bytes) -> Facts:
    """The facts of an image that isn't refused."""

    def number(form: str, at: int) -> int:
        return int(struct.unpack_from(form, image, at)[0])

    begin = number("<I", 0x3C) + 24
    entry = begin + {0x10B: 96, 0x20B: 112}[number("<H", begin)] + 32
    headers, sections = number("<I", begin + 60), begin + number("<H", begin - 4)
    has_entry = number("<I", entry - 36) >= 5
    at, size = struct.unpack_from("<II", image, entry) if has_entry else (0, 0)
    end = at if size else len(image)
    raw, rows = [], b""
    for place in range(sections, sections + 40 * number("<H", begin - 18), 40):
        name, virtual, length, offset = struct.unpack_from("<8sI4xII", image, place)
        raw += [(offset, offset + length)] if length else []
        if name == b".sbat\0\0\0":
            rows = image[offset : offset + (min(length, virtual) if virtual else length)]
    filled = headers + sum(last - first for first, last in raw)
    around = [(begin + 68, entry), (entry + 8, headers)] if has_entry else [(begin + 68, headers)]
    hashed = b"".join(
        image[first:last] for first, last in [(0, begin + 64), *around, *sorted(raw), (filled, end)]
    )
    digest = sha256(hashed)
    return Facts(
        len(image), max([headers, *(last for _, last in raw)]) - filled, sha256(image), digest,
        digest if size else sha256(hashed + bytes(-len(image) % 8)),
        carried_by(image[at : at + size]),
        tuple((fields[0], int(fields[1])) for _, fields in rows_of(rows))
    )
