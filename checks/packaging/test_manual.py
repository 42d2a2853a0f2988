"""The manuals and the completions of the packages: each subcommand, route and refusal is there."""
from __future__ import annotations

import gzip
import re
from pathlib import Path

import pytest

from checks.packaging.conftest import Package, quiet
from checks.support.tools import ROOT, ran
from checks.support.wire import REFUSALS

TOOLS = ("desk-publish", "desk-standby", "kovelamiru-mirror")
PAGES = (
    "man1/desk.1", "man7/desk-http.7", "man1/deskctl.1", "man7/desk-operate.7", "man1/desk-demo.1",
    *(f"man1/{name}.1" for name in TOOLS),
)
COMPLETED = """
. "$0" && COMP_WORDS=(desk "$@") COMP_CWORD=$# && _desk && printf '%s\\n' "${COMPREPLY[@]}"
"""


def source(package: Package, page: str, room: Path) -> Path:
    """A page as it was written."""
    path = room / Path(page).name
    path.write_bytes(gzip.decompress((package.root / f"usr/share/man/{page}.gz").read_bytes()))
    return path


def shown(page: Path) -> str:
    return ran("env", "MANWIDTH=100", "man", "-l", page).decode()


def tells(said: str, what: str) -> bool:
    """A line begins so, after spaces."""
    return re.search(rf"^ *{re.escape(what)}( |$)", said, re.M) is not None


@pytest.fixture(params=PAGES)
def page(
    request: pytest.FixtureRequest, package: Package, client_package: Package, room: Path
) -> Path:
    of_client = request.param == PAGES[2]
    return source(client_package if of_client else package, request.param, room)


@pytest.mark.needs("groff")
def test_groff_has_no_warning_of_a_page(page: Path) -> None:
    quiet("groff", "-t", "-man", "-Tutf8", "-ww", "-z", page)


@pytest.mark.if_there("mandoc")
def test_mandoc_has_no_warning_of_a_page(page: Path) -> None:
    quiet("mandoc", "-Tlint", page)


@pytest.mark.needs("man")
def test_desk_http_7_has_each_route_and_each_refusal(package: Package, room: Path) -> None:
    said = shown(source(package, PAGES[1], room))
    table = (ROOT / "docs/FORMATS.md").read_text().split("\n| Path", 1)[1].split("\n\n", 1)[0]
    routes = [row.split("|")[1].strip().replace("`", "") for row in table.splitlines()[2:]]
    assert routes and [route for route in routes if not tells(said, route)] == []
    refusals = {number: name for number, (name, _) in REFUSALS.items()}
    lacking = [
        name for number, name in refusals.items()
        if not re.search(rf"^ *{number}  *{name}( |$)", said, re.M)
    ]
    assert refusals and lacking == []


@pytest.mark.parametrize("typed, wanted", [
    (("",), "SUBCOMMANDS help"), (("ser",), "serve"), (("help", ""), "SUBCOMMANDS help"),
    (("verdict", "desk.db", "shelf/sh"), "shelf/shim.efi"),
    (("person", "desk.db", "olga", ""), "submitter reviewer officer signer"),
    (("person", "desk.db", "olga", "o"), "officer"),
    (("audit", "OWNER", "minutes.txt", ""), "dbx shim db level"),
    (("audit", "OWNER", "minutes.txt", "l"), "level"), (("person", "desk.db", ""), ""),
], ids=lambda value: " ".join(value) if isinstance(value, tuple) else "")
def test_completions_are_those_of_the_help(
    package: Package, subcommands: list[str], room: Path, typed: tuple[str, ...], wanted: str
) -> None:
    """Of nothing, of a file, of a role, of an export."""
    (room / "shelf").mkdir()
    (room / "shelf/shim.efi").touch()
    path = f"{package.root}/usr/bin:/usr/bin:/bin"
    completions = package.root / "usr/share/bash-completion/completions/desk"
    said = ran("env", f"PATH={path}", "bash", "-c", COMPLETED, completions, *typed, cwd=room)
    assert said.decode().split() == wanted.replace("SUBCOMMANDS", " ".join(subcommands)).split()
