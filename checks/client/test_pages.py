"""Help, the manual page and the completions."""
from __future__ import annotations

import re
import subprocess
import sys
from pathlib import Path

import pytest

from checks.support.deskctl import DESKCTL
from checks.support.says import expect
from checks.support.tools import ROOT, ran

COMMANDS = (
    "submit requests request wait review withdraw return verdict compare facts list-certificate"
    " list-digest unlist revoke raise import proposals proposal confirm drop explain get level dbx"
    " minutes why people me report token inbox watch pending"
).split()


@pytest.fixture(scope="module")
def pages(session_room: Path) -> Path:
    folder = session_room / "pages"
    folder.mkdir()
    ran(sys.executable, "-B", ROOT / "client" / "pages.py", folder)
    return folder


def helps(command: list[str], *words: str) -> str:
    text = ran(*command, *words, "--help").decode()
    expect([line for line in text.split("\n") if len(line) > 100], [], "lines over 100 columns")
    return text


def test_help_has_the_commands(command: list[str]) -> None:
    found = re.findall(r"(?m)^  ([a-z-]*[a-z])  ", helps(command))
    expect([name for name in found if not name.startswith("-")], COMMANDS, "the commands of help")


@pytest.mark.parametrize("name", COMMANDS)
def test_each_commands_help_has_an_example(command: list[str], name: str) -> None:
    assert re.search(rf"(?m)^  deskctl {name}", helps(command, name))


@pytest.mark.needs("man")
def test_the_manual_has_each_command(pages: Path) -> None:
    done = subprocess.run(
        ["man", "--warnings", "-l", pages / "deskctl.1"], capture_output=True, text=True,
        check=False, env={"PATH": "/usr/bin:/bin", "LC_ALL": "C.UTF-8", "MANWIDTH": "100"},
    )
    expect((done.returncode, done.stderr), (0, ""), "what man says")
    lacking = [name for name in COMMANDS
               if not re.search(rf"(?m)^ *deskctl {name}", done.stdout)]
    expect(lacking, [], "the commands that deskctl(1) lacks")


# What is typed, the last word not to its end, and how bash goes on.
COMPLETED = [
    ("", [*COMMANDS, "help"]), ("con", ["confirm"]),
    ("proposals --state ", ["open", "confirmed", "dropped"]),
    ("requests --url x --state re", ["rejected"]), ("review 1 ", ["yes", "no"]),
    ("review 1 2 n", ["no"]),
    ("requests --sort ", ["number", "newest", "title"]),
    ("proposals --sort n", ["number", "newest"]),
    ("get d", ["dbx", "db"]), ("import --d", ["--dry-run", "--desk"]),
]


@pytest.mark.parametrize("typed, due", COMPLETED, ids=[row[0] for row in COMPLETED])
def test_bash_completes(typed: str, due: list[str], pages: Path) -> None:
    text = ('. "$0" && COMP_WORDS=("$@") COMP_CWORD=$(($# - 1)) && _deskctl'
            ' && printf "%s\\n" "${COMPREPLY[@]}"')
    found = ran("bash", "-c", text, pages / "deskctl.bash", DESKCTL, *typed.split(" "))
    expect(found.decode().split(), due, "the completions")
