"""Images by their Authenticode hashes and architectures: what Microsoft publishes of its
revocations (dbx_info_msft of secureboot_objects), as JSON and as a table, and Debian's
debian-dbx.hashes. Hashes of whole files, versions of boot programs and certificates are set
aside."""
from __future__ import annotations

import json
import re
from collections import Counter
from dataclasses import dataclass, field
from typing import Any, Iterator, Optional

from .csv import first_record, records
from .described import WORDS as SHARED
from .faults import Unreadable
from .siglists import VERSIONS, VERSION_ENTRY
from .words import HEX

ARCHES: dict[str, str] = SHARED["arches"]
FLAT = "flat hashes (of whole files)"
CERTIFICATES = "certificates (give their files: deskctl revoke --certificate)"
# An image: its architecture, and what is said of it by plain names.
Image = tuple[str, dict[str, str]]


@dataclass
class Published:
    """The images of a list, and what beside them is left out."""

    kind: str
    images: list[Image]
    aside: Counter[str] = field(default_factory=Counter)

    def arches(self) -> list[str]:
        return sorted({arch for arch, _ in self.images if arch})

    def digests(self, arch: Optional[str]) -> list[str]:
        """The images' digests, of one architecture or of all. An image of two stands twice."""
        found: list[str] = []
        for its, said in self.images:
            if arch and its != arch_named(arch):
                self.aside["images of other architectures"] += 1
            else:
                found += self.digest(said)
        self.aside = +self.aside
        return list(dict.fromkeys(found))

    def digest(self, said: dict[str, str]) -> list[str]:
        """An image's Authenticode hash. A hash of the whole file bars nothing, and a version is no
        digest: both are set aside."""
        hashes = [text.strip() for name, text in said.items() if "authenticode" in name]
        flat = any("flat" in name and HEX.match(text.strip()) for name, text in said.items())
        sha256 = plainly(said.get("hashtype", "") or "SHA256") == "sha256"
        digest = next((text.lower() for text in hashes if sha256 and HEX.match(text)), "")
        if digest and not VERSION_ENTRY.match(digest):
            self.aside[FLAT] += flat
            return [digest]
        self.aside[VERSIONS if digest else FLAT if flat else "images without a SHA-256"] += 1
        return []


def plainly(name: str) -> str:
    """A column's or a key's name without spaces, signs and capitals."""
    return re.sub(r"[^a-z0-9]", "", name.lower())


def arch_named(text: str) -> str:
    lowered = text.strip().lower()
    return ARCHES.get(lowered, lowered)


def images_of(value: Any) -> Iterator[Image]:
    images = value.get("images", {}) if isinstance(value, dict) else value
    groups = images.items() if isinstance(images, dict) else [("", images)]
    for arch, entries in groups:
        for entry in entries if isinstance(entries, list) else []:
            if isinstance(entry, dict):
                texts = {name: text for name, text in entry.items() if isinstance(text, str)}
                said = {plainly(name): text for name, text in texts.items()}
                yield arch_named(arch or said.get("architecture", said.get("arch", ""))), said


def published_json(data: bytes) -> Published:
    try:
        value = json.loads(data.decode("utf-8-sig"))
    except (ValueError, RecursionError):
        raise Unreadable("the JSON is cut or spoiled") from None
    found = Published("Microsoft's dbx_info_msft (JSON)", list(images_of(value)))
    names = {name for _, said in found.images for name in said}
    if not any("authenticode" in name or "flat" in name for name in names):
        raise Unreadable(SHARED["brought"]["json"], SHARED["brought"]["cabinet"])
    for name, words in (("certificates", CERTIFICATES), ("svns", VERSIONS)):
        entries = value.get(name) if isinstance(value, dict) else None
        if isinstance(entries, list):
            found.aside[words] += len(entries)
    return found


def published_table(data: bytes) -> Optional[Published]:
    """The table, if its first line names an Authenticode hash."""
    names = [plainly(name) for name in first_record(data)]
    if not any("authenticode" in name for name in names):
        return None
    images = []
    for record in records(data)[1:]:
        said = dict(zip(names, record))
        arches = [text for name, text in said.items() if "arch" in name]
        images.append((arch_named(arches[0]) if arches else "", said))
    return Published("Microsoft's dbx_info (CSV)", images)


# A line of a digest and its image's architecture.
HASH_LINE = re.compile(r"([0-9A-Fa-f]{64})[ \t]+(\w+)\s*\Z")


def published_hashes(data: bytes) -> Optional[Published]:
    """The lines of digests with their architectures, if the first that is no comment is one."""
    lines = data.decode("utf-8-sig", "replace").split("\n")
    images = []
    for number, line in enumerate(lines, 1):
        if not line.strip() or line.startswith("#"):
            continue
        found = HASH_LINE.match(line)
        if found and found[2].lower() in ARCHES:
            images.append((arch_named(found[2]), {"authenticodehash": found[1]}))
        elif not images:
            return None
        else:
            raise Unreadable(SHARED["brought"]["hash"].format(line=number))
    return Published("digests with architectures, as debian-dbx.hashes", images) if images else None
