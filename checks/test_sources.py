"""Types and lint: what the tools of each language say of the sources outside the crates."""
from __future__ import annotations

import ast
import re
import subprocess
from pathlib import Path

import pytest

from checks.support.tools import ROOT

CHECKS = ROOT / "checks"
FOLDERS = (".ci", "bench", "checks", "client", "docs", "packaging", "page", "proving", "python")
FILES = [
    path for top in (ROOT / folder for folder in FOLDERS) for path in sorted(top.rglob("*"))
    if path.is_file() and "__pycache__" not in path.parts
] + [ROOT / "desk", ROOT / "prove"]


def begins(path: Path, pattern: str) -> bool:
    with open(path, "rb") as file:
        return bool(re.match(rf"#!.*\b{pattern}", file.readline(80).decode("latin-1")))


PYTHON = [path for path in FILES if path.suffix == ".py" or begins(path, "python3")]
SHELL = [path for path in FILES if begins(path, "(sh|bash)$")]
TESTS = [path for path in PYTHON if path.is_relative_to(CHECKS) and path.match("test_*.py")]
# The modules of the suite that aren't tests.
SUITE = [path for path in PYTHON if path.is_relative_to(CHECKS) and path not in TESTS]


PACKED = [path for path in PYTHON if path.relative_to(ROOT).parts[0] in
          ("client", "packaging", "python")]


def name_of(path: Path) -> str:
    return str(path.relative_to(ROOT))


def run(*words: str | Path) -> tuple[int, str]:
    done = subprocess.run(
        words, stdout=subprocess.PIPE, stderr=subprocess.STDOUT, text=True, timeout=500,
        check=False, cwd=ROOT,
    )
    return done.returncode, done.stdout


@pytest.mark.long(60)
@pytest.mark.needs("mypy")
def test_the_types_are_those_that_are_written() -> None:
    """Of ./prove, of the package and of the suite."""
    status, said = run("mypy", "proving", "python/kovelamiru", *TESTS, *SUITE)
    assert (status, said[:7]) == (0, "Success"), said


@pytest.mark.needs("pyflakes3")
def test_no_name_of_python_is_unknown_or_unused() -> None:
    assert run("pyflakes3", *PYTHON) == (0, "")


@pytest.mark.long(10)
@pytest.mark.needs("shellcheck")
@pytest.mark.parametrize("path", SHELL, ids=name_of)
def test_shellcheck_warns_of_nothing(path: Path) -> None:
    folders = ("-P", "SCRIPTDIR", "-P", "checks")
    assert run("shellcheck", "-x", *folders, "-S", "warning", path) == (0, "")


# ---- the package kovelamiru

PACKAGE = ROOT / "python" / "kovelamiru"
MODULES = sorted(PACKAGE.rglob("*.py"))
# The programs, none of which takes a module of another, and which no other module takes.
PROGRAMS = ("deskctl", "publish", "standby")


@pytest.mark.parametrize("path", PACKED, ids=name_of)
def test_python_3_9_reads_it(path: Path) -> None:
    ast.parse(path.read_text(encoding="utf-8"), str(path), feature_version=(3, 9))


def imported(path: Path) -> set[str]:
    """The first words of the package's modules that this one takes."""
    folder, found = path.parent.relative_to(PACKAGE).parts, set()
    for node in ast.walk(ast.parse(path.read_text(encoding="utf-8"))):
        if isinstance(node, ast.ImportFrom) and node.level:
            above = folder[:len(folder) - node.level + 1]
            found.add([*above, *(node.module or "").split(".")][0])
    return found


@pytest.mark.parametrize("path", MODULES, ids=name_of)
def test_a_program_is_taken_by_itself_alone(path: Path) -> None:
    own = path.relative_to(PACKAGE).parts[0].removesuffix(".py")
    assert (imported(path) & set(PROGRAMS)) - {own} == set()


def test_the_second_opinion_takes_none_of_it() -> None:
    code = "import checks.model.walk, sys; sys.exit('kovelamiru' in sys.modules)"
    assert run("env", f"PYTHONPATH={ROOT}:{ROOT / 'python'}", "python3", "-B", "-c", code)[0] == 0
