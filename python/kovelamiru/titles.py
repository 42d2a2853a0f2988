"""Titles of requests: what several files of one upload are called, and which titles are of one."""
from __future__ import annotations

import os
import re
import struct
from typing import Optional, Sequence

# What stands between an upload and what tells its file apart.
APART = " / "
# Machines of PE images with what distributions and file names call them, the usual name first.
MACHINES = {
    0x8664: ("amd64", "x86_64", "x64"), 0xAA64: ("arm64", "aarch64", "aa64"),
    0x014C: ("i386", "i586", "i686", "ia32"), 0x01C2: ("armhf", "armv7l", "arm"),
    0x5064: ("riscv64",), 0x6264: ("loong64", "loongarch64")}


def machine_names(data: bytes) -> Sequence[str]:
    """What the machine of an image is called; nothing of what is no image, which the desk
    refuses."""
    try:
        head = struct.unpack_from("<I", data, 0x3C)[0]
        number: int = struct.unpack_from("<H", data, head + 4)[0]
    except struct.error:
        return ()
    return MACHINES.get(number, (f"{number:#06x}",))


def pieces(path: str, names: Sequence[str]) -> list[str]:
    """The parts of a file's name, without those that name its machine."""
    name = os.path.basename(path)
    if names:
        name = re.sub(rf"({'|'.join(map(re.escape, names))})(?![a-z0-9])", "", name, flags=re.I)
    return [one for one in re.split(r"[-_.+ ]+", name) if one]


def titles_of(title: str, files: Sequence[tuple[str, Sequence[str]]]) -> list[str]:
    """A title for each file of several, which has its path and its machine's names: behind the
    upload's come the machine, and what the file's name alone has."""
    parts = [pieces(path, names) for path, names in files]
    common = set(parts[0]).intersection(*parts)
    found = []
    for (_, names), own in zip(files, parts):
        machine = [name for name in names[:1] if name not in title.split()]
        flavour = "-".join(one for one in own if one not in common)
        file = " ".join(filter(None, [*machine, flavour]))
        found.append(f"{title}{APART}{file}" if file else title)
    return found


def upload_of(title: str) -> tuple[Optional[str], str]:
    """What an upload is called, and what tells its file apart; none, and the whole title: the file
    stands alone."""
    upload, sign, file = title.rpartition(APART)
    return (upload, file) if sign and upload else (None, title)


def name_of(title: str) -> str:
    """A title without its version: what the next version is called, too."""
    words = title.split()
    at = next((at for at, word in enumerate(words) if at and re.match(r"v?\d", word)), 0)
    return " ".join(words[:at] + words[at + 1:]) if at else title
