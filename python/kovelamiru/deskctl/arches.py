"""The command dbx: a dbx for each architecture, by a text that says which digest is of which. The
desk records no architecture, so the text alone decides; a digest that it doesn't name, and each
certificate, is in every part."""
from __future__ import annotations

import os
import re
from typing import Mapping, Sequence

from ..faults import Unreadable, reason, wrong
from ..files import fresh, read_file
from ..http import BYTES
from ..microsoft import published_hashes, published_json, published_table
from ..siglists import SignatureList, entries_in, read_lists
from ..words import counted, printable
from .run import Run

LIMIT = 32 << 20
Parts = Mapping[str, bytes]


def of_arches(data: bytes) -> dict[str, set[str]]:
    """The digests of each architecture that a text names."""
    is_json = data.lstrip()[:1] in (b"{", b"[")
    found = published_json(data) if is_json else published_hashes(data) or published_table(data)
    if found is None or not found.arches():
        raise Unreadable("it names no digest with its architecture",
                         "Lines of a digest and its architecture will do: HEX x64")
    odd = [arch for arch in found.arches() if not re.fullmatch("[a-z0-9_]+", arch)]
    if odd:
        raise Unreadable(f"{odd[0]!r} is no architecture")
    return {arch: {*found.digests(arch)} for arch in found.arches()}


def parts_of(lists: Sequence[SignatureList], arches: Mapping[str, set[str]]) -> Parts:
    """Each architecture's lists, entries in their order, and no list without an entry."""
    named = {digest for own in arches.values() for digest in own}

    def part(own: set[str]) -> bytes:
        others = named - own
        kept = [(one, [entry for entry in one.entries if entry[16:].hex() not in others])
                for one in lists]
        return b"".join(one.bytes_of(entries) for one, entries in kept if entries)

    return {arch: part(own) for arch, own in sorted(arches.items())}


def check(dbx: bytes, parts: Parts) -> None:
    """The parts, read again, name together what dbx names, and nothing else."""
    whole, union = {*entries_in(dbx)}, {one for part in parts.values() for one in entries_in(part)}
    if union != whole:
        raise Unreadable(f"{counted(len(union ^ whole), 'entry', 'entries')} of it would be in no"
                         " part, or of a part not in it")


def written(run: Run, folder: str, parts: Parts) -> None:
    try:
        os.makedirs(folder, exist_ok=True)
    except OSError as error:
        wrong(f"{folder}: {reason(error)}")
    for arch, data in parts.items():
        path = os.path.join(folder, f"dbx-{arch}.esl")
        fresh(path, data)
        digests = sum(kind == "sha256" for kind, _ in entries_in(data))
        run.terminal.say(f"{printable(path)}: {counted(len(data), 'byte')},"
                         f" {counted(digests, 'digest')}")


def dbx(run: Run) -> None:
    source, text = run.words.source, run.words.for_arch
    data = read_file(source, LIMIT, "signature lists have here") if source else (
        run.desk.get("/dbx").of_type(BYTES).data())
    name = text
    try:
        arches = of_arches(read_file(text, LIMIT, "such a text has here"))
        name = source or "dbx"
        lists = read_lists(data)
        parts = parts_of(lists, arches)
        check(data, parts)
    except Unreadable as fault:
        wrong(f"{name}: {fault}", fault.step)
    written(run, run.words.output, parts)
    has = {entry[16:].hex() for kind, entry in entries_in(data) if kind == "sha256"}
    named = {digest for own in arches.values() for digest in own}
    run.terminal.note(f"{counted(len(has - named), 'digest')} that {printable(text)} doesn't name,"
                      " and each certificate, are in every part;"
                      f" {len(named - has)} that it names aren't in {printable(name)}.")
    run.terminal.note(f"Together they name what {printable(name)} names. Which digest is of which"
                      f" architecture {printable(text)} alone says; none of this is proved.")
