"""The crates of this repository: those that crates.txt lists, what each stands on, its sources."""

from __future__ import annotations

import hashlib
import os

ROOT = os.path.dirname(os.path.dirname(os.path.realpath(__file__)))
# The crates that each crate lists.
Graph = dict[str, list[str]]
# A check loads the libraries below in the time in which it proves this part of their lines; a
# program is then built in the time of so many lines.
LOADING, BUILDING = 0.08, 10_000


def folder_of(crate: str) -> str:
    return f"{ROOT}/crates/{crate}"


def listed() -> dict[str, str]:
    """The lines of crates.txt, by crate."""
    with open(f"{ROOT}/crates.txt", encoding="utf-8") as text:
        lines = [line for line in text if ":" in line.partition("#")[0]]
    return {line.partition(":")[0].split()[0]: line for line in lines}


def crates_below(name: str) -> Graph:
    """The crate and those that it stands on, each after those that it lists: a map to those."""
    lines, found = listed(), Graph()

    def add(crate: str) -> None:
        if crate in lines and crate not in found:
            libraries = lines[crate].partition("#")[0].partition(":")[2].split()
            for library in libraries:
                add(library)
            found[crate] = [library for library in libraries if library in lines]

    add(name)
    return found


def all_below(crate: str) -> list[str]:
    return [*crates_below(crate)][:-1]


def is_program(crate: str) -> bool:
    return os.path.exists(f"{folder_of(crate)}/src/main.rt")


def files_of(crate: str) -> list[str]:
    """The files of the crate's sources, in one order."""
    parts = [f"{folder_of(crate)}/{part}" for part in ("src", "specs", "proofs")]
    walked = [(at, names) for part in parts for at, _, names in os.walk(part)]
    return sorted(f"{at}/{name}" for at, names in walked for name in names)


def sum_of_files(crate: str) -> str:
    """The sum of the lines of crates.txt and of the files of the crate and of those below it."""
    lines, found = listed(), hashlib.sha256()
    for name in sorted(crates_below(crate)):
        found.update(lines[name].encode())
        for file in files_of(name):
            with open(file, "rb") as text:
                part = hashlib.sha256(text.read()).hexdigest()
            found.update(f"{file.removeprefix(ROOT)} {part}\n".encode())
    return found.hexdigest()


def works_of(crates: Graph) -> dict[str, float]:
    """The work of each crate, in lines."""
    lines = dict.fromkeys(crates, 0)
    for crate in crates:
        for file in files_of(crate):
            with open(file, "rb") as text:
                lines[crate] += text.read().count(b"\n")
    return {
        crate: own + LOADING * sum(lines[name] for name in all_below(crate))
        + BUILDING * is_program(crate) for crate, own in lines.items()
    }
