"""Files of revocations, as others publish them: what they name. The desk reads them itself."""
from __future__ import annotations

import re
from collections import Counter
from dataclasses import dataclass, field
from typing import Optional, Sequence

from .brought import BROUGHT, certificate_steps
from .certificates import Certificate, certificate_in
from .csv import records
from .der import BadDer, tbs_digest
from .faults import Unreadable, wrong
from .files import looks_like, read_file
from .microsoft import Published, arch_named, published_hashes, published_json, published_table
from .pem import first_certificate
from .sbat import LEVEL, level_held, level_read, looks_like_level, one_level
from .siglists import KINDS, VERSIONS, SignatureList, guid, is_version, read_lists
from .update import unwrapped
from .words import printable


@dataclass
class Revocations:
    """What a file of revocations names, as far as it is read here; the desk reads it itself."""

    kind: str
    route: str
    body: bytes
    digests: list[str] = field(default_factory=list)
    certificates: list[str] = field(default_factory=list)
    components: list[tuple[str, int]] = field(default_factory=list)
    # What the desk skips, and what is left out here, by kind.
    passed: Counter[str] = field(default_factory=Counter)
    aside: Counter[str] = field(default_factory=Counter)
    owners: Counter[str] = field(default_factory=Counter)
    lists: list[SignatureList] = field(default_factory=list)
    # The certificates that stand in it whole, by the SHA-256 of their TBSCertificates.
    given: dict[str, Certificate] = field(default_factory=dict)
    timed: int = 0
    stamp: Optional[int] = None
    notes: list[str] = field(default_factory=list)

    def entries(self) -> int:
        return (len(self.digests) + len(self.certificates) + len(self.components) +
                sum(self.passed.values()))

    def names_nothing(self) -> bool:
        """Whether it names nothing that the desk takes. A text's wrong lines are the desk's to
        refuse."""
        if self.digests or self.certificates or self.components:
            return False
        return self.route == "/imports/dbx" or b"\n" not in self.body.strip()


def lists_named(data: bytes, kind: str) -> Revocations:
    """What signature lists name. Versions have the form of a digest, but aren't the digest of an
    image: they are left out."""
    found = Revocations(kind, "/imports/dbx", data)
    for one in read_lists(data):
        kept = []
        for entry in one.entries:
            body = entry[16:]
            if one.name == "sha256" and is_version(entry):
                found.aside[VERSIONS] += 1
                continue
            kept.append(entry)
            found.owners[guid(entry[:16])] += 1
            if one.name == "sha256":
                found.digests.append(body.hex())
            elif one.name == "x509_sha256":
                found.certificates.append(body[:32].hex())
                found.timed += any(body[32:])
            elif one.name == "x509":
                whole_certificate(body, found)
            else:
                found.passed[one.name] += 1
        found.lists.append(SignatureList(one.kind, one.header, one.size, kept))
    if found.aside:
        found.body = b"".join(one.bytes_of(one.entries) for one in found.lists if one.entries)
    return found


def whole_certificate(body: bytes, found: Revocations) -> None:
    try:
        found.certificates.append(tbs_digest(body))
        one = certificate_in(body)
        if one:
            found.given[one.tbs] = one
    except BadDer:
        found.passed["x509 that isn't one certificate"] += 1


def csv_named(data: bytes) -> Revocations:
    """What the desk's CSV names. A wrong record is the desk's to refuse."""
    found = Revocations("the desk's CSV", "/imports/csv", data)
    for record in records(data)[1:]:
        kind, value, generation = (record + ["", "", ""])[:3]
        if kind == "sha256":
            found.digests.append(value.lower())
        elif kind == "x509_sha256":
            found.certificates.append(value.lower())
        elif kind == "sbat" and generation.isdecimal():
            found.components.append((value, int(generation)))
    return found


def level_named(data: bytes, notes: Sequence[str] = ()) -> Revocations:
    if not LEVEL.match(data.removeprefix(b"\xef\xbb\xbf")):
        raise Unreadable(BROUGHT["level"], BROUGHT["stamp"])
    stamp, named = level_read(data.decode("utf-8-sig", "replace"))
    return Revocations("a level's text (SBAT)", "/imports/level", data, stamp=stamp,
                       components=sorted(named.items()), notes=list(notes))


def microsoft_named(found: Published, arch: Optional[str]) -> Revocations:
    """What Microsoft's list names, of one architecture or of all."""
    arches, named = found.arches(), ", ".join(map(printable, found.arches())) or "none named"
    if arch and arch_named(arch) not in arches:
        wrong(f"the file has no architecture {printable(arch)}", f"It has: {named}")
    taken = f"; taken: {arch_named(arch)}" if arch else ""
    return Revocations(found.kind, "/imports/csv", b"", found.digests(arch), aside=found.aside,
                       notes=[f"architectures: {named}{taken}"])


# -- the kind of a file


def is_utf16(data: bytes) -> bool:
    """Whether it is text in UTF-16: by its mark, or by every other byte of eight characters."""
    if data.startswith((b"\xff\xfe", b"\xfe\xff")):
        return True
    begin, zeros = data[:16], bytes(8)
    pairs = ((begin[::2], begin[1::2]), (begin[1::2], begin[::2]))
    return any(zero == zeros and re.fullmatch(rb"[ -~]{8}", text) for zero, text in pairs)


# What the header of a table looks like, wherever it stands.
HEADER_LIKE = re.compile(
    r"(?im)^\W*kind\W+value\W+generation\W*$|authenticode|^(?:x509_)?sha256[,;\t]")


def text_named(data: bytes, arch: Optional[str]) -> Optional[Revocations]:
    """What a text names; nothing where it is none."""
    text = data.removeprefix(b"\xef\xbb\xbf")
    if is_utf16(data):
        raise Unreadable("it is text in UTF-16",
                      "Save it as UTF-8: iconv -f UTF-16 -t UTF-8 FILE > OTHER")
    if text.lstrip()[:1] in (b"{", b"["):
        return microsoft_named(published_json(data), arch)
    if b"\0" in data[:4096] and not text.startswith(b"sbat,"):
        return None
    one_level(text)
    if not text.startswith((b"sbat,", b"kind,")):
        table = published_hashes(data) or published_table(data)
        begin = text[:4096].decode("utf-8", "replace")
        if table is None and HEADER_LIKE.search(begin):
            raise Unreadable(
                f"its first line is {begin.splitlines()[0][:60]!r}, and no header that is known",
                ("Nothing stands before a header. The desk's is kind,value,generation;"
                 " Microsoft's names a column with Authenticode. Commas are between."))
        if table is None and looks_like_level(text):
            return level_named(data)
        return microsoft_named(table, arch) if table else None
    if arch:
        return None
    return level_named(data) if text.startswith(b"sbat,") else csv_named(data)


def lists_in(data: bytes) -> Optional[Revocations]:
    """What signature lists name, and what stands before them; nothing where there are none."""
    lists, before = unwrapped(data)
    kind = "signature lists" + (" behind " + ", then ".join(before) if before else "")
    try:
        return lists_named(lists, kind)
    except Unreadable:
        if before or data[:16] in KINDS:
            raise
        return None


def revocations_of(path: str, arch: Optional[str]) -> Revocations:
    """What a file names; its kind is found by its bytes."""
    data = read_file(path, 32 << 20, "a file of revocations has here")
    try:
        level, notes = level_held(data)
        found = level_named(level, notes) if level else text_named(data, arch)
        if arch and (level or found is None):
            wrong("--arch is for lists with architectures: Microsoft's, debian-dbx.hashes")
        if found is None and data:
            found = lists_in(data)
    except Unreadable as fault:
        wrong(f"{path}: {fault}", fault.step)
    one = first_certificate(data) if found is None else None
    if one:
        wrong(f"{path}: {BROUGHT['certificate'].format(subject=one.subject)}",
              *certificate_steps(path))
    if found is None:
        wrong(f"{path} is no file of revocations; it is {looks_like(data)}",
              "`deskctl import --help` lists the kinds.")
    return found
