"""checks.runbooks.run PROGRAM ROOM PAGE: types the commands of a page of packaging/runbooks on a
machine of its own, each in the shell of the person whose it is, and compares what comes of them.
`...` on a page is any lines, and `*` any text. What it mounts and begins ends with its process."""
from __future__ import annotations

import fnmatch
import sys
from pathlib import Path

from checks.runbooks.beginnings import AFTER, BEFORE, DURING
from checks.runbooks.machine import Machine
from checks.support.images import OWNER
from checks.support.says import fail
from checks.support.tools import ROOT
from checks.support.typed import Command, commands, section


def page_of(name: str) -> list[Command]:
    """The commands of a page, of which `machine-lost` has the lost machine, and `machine-moved` the
    move; those of `publishing` are the first lines to be typed of that section of
    packaging/README.md."""
    if name != "publishing":
        page = ROOT / "packaging/runbooks" / f"{name.replace('-moved', '-lost')}.md"
        other = {"machine-lost": "It still answers: a move",
                 "machine-moved": "It is lost, or hangs"}.get(name, "")
        return commands(page.read_text().replace(section(page, other), ""))
    block = section(ROOT / "packaging/README.md", "Publishing").split("\n    ", 1)[1]
    typed = block.split("\n\n", 1)[0].replace("\n    ", "\n").replace("OWNER", OWNER)
    return [Command("root", typed, ["added publisher"])]


def matches(wanted: list[str], came: list[str]) -> bool:
    if not wanted:
        return not came
    if wanted[0] == "...":
        return any(matches(wanted[1:], came[at:]) for at in range(len(came) + 1))
    if not came or not fnmatch.fnmatchcase(came[0], wanted[0].replace("[", "[[]")):
        return False
    return matches(wanted[1:], came[1:])


def main(program: str, room: str, name: str) -> None:
    machine, found = Machine(Path(program), Path(room)), page_of(name)
    if not found:
        fail(f"{name}: no commands are found")
    machine.make_desk()
    machine.start_proxy()
    machine.system("start", "kovelamiru-desk")
    BEFORE[name](machine)
    for command in found:
        came = machine.typed(command)
        if not matches(command.wanted, came):
            lines = "\n".join([*command.wanted, "came", *came[-30:]])
            fail(f"{name}: {command.who}: {command.text}\nin place of\n{lines}")
        if name in DURING:
            DURING[name](machine)
    if name in AFTER:
        AFTER[name](machine)
    print(f"{len(found)} commands as {len(machine.users) or 'one'} users")


if __name__ == "__main__":
    main(*sys.argv[1:])
