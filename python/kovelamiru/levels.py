"""The level without the names that shim can do without, by page/wire/cases/levels.json: the twin of
page/desk/levels.js."""
from __future__ import annotations

from typing import Any, Iterable, Iterator, Mapping, Sequence

Level = Mapping[str, int]


def parents(name: str) -> Iterator[str]:
    """Of `grub.debian.one` first `grub.debian`, then `grub`."""
    while "." in name:
        name = name.rpartition(".")[0]
        yield name


def reached(level: Level, proposals: Iterable[Mapping[str, Any]]) -> dict[str, int]:
    """Of each name the stamp of the first confirmed proposal that raised it to where it is."""
    found: dict[str, int] = {}
    for one in proposals:
        if one["state"] != "confirmed" or not one["stamp"]:
            continue
        for name, generation in one["components"]:
            if generation >= level.get(name, generation + 1):
                found[name] = min(found.get(name, one["stamp"]), one["stamp"])
    return found


def covered(level: Level, stamps: Level, images: Iterable[Sequence[Any]]) -> dict[str, str]:
    """The names that a later raise of a parent covers, each with it; none that alone bars one of
    these images, given by their components."""
    found = {
        name: parent for name in level for parent in parents(name)
        if 0 < stamps.get(name, 0) < stamps.get(parent, 0)}
    for components in images:
        lows = {name for name, generation in components if generation < level.get(name, 0)}
        if all(name in found for name in lows):
            for name in lows:
                del found[name]
    return found


def level_text(stamp: int, level: Level) -> str:
    rows = (f"{name},{level[name]}\n" for name in sorted(level))
    return f"sbat,1,{stamp}\n" + "".join(rows)
