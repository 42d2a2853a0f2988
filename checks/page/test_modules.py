"""The page's modules without a browser: what they do, by node's own test runner, their types, and
what their text may have."""
from __future__ import annotations

import re
import subprocess
from pathlib import Path

import pytest

from checks.support.tools import ROOT

PAGE = ROOT / "page"
MODULES = sorted(PAGE.rglob("*.js"))
NODE_TESTS = sorted((ROOT / "checks" / "page").glob("*.test.mjs"))
# Where a module may take others from: formats know no desk, and neither knows a view.
ROOMS = {"formats": ["formats"], "desk": ["formats", "desk"], "views": ["formats", "desk", "views"]}
# Ways by which a text could become markup or code, ways to keep a token, and other origins.
NEVER = (
    "innerHTML", "outerHTML", "insertAdjacentHTML", "document.write", "DOMParser",
    "createContextualFragment", "eval(", "new Function", "localStorage", "sessionStorage",
    "indexedDB", ".cookie", "setAttribute('style", "http://", "https://", "//cdn",
)


def name_of(path: Path) -> str:
    return str(path.relative_to(ROOT))


def run(*words: str | Path) -> tuple[int, str]:
    done = subprocess.run(
        words, stdout=subprocess.PIPE, stderr=subprocess.STDOUT, text=True, timeout=300, check=False
    )
    return done.returncode, done.stdout


@pytest.mark.needs("node", "openssl")
@pytest.mark.parametrize("path", NODE_TESTS, ids=name_of)
def test_the_modules_do_as_their_tests_say(path: Path) -> None:
    status, said = run("node", "--test", "--test-reporter=spec", path)
    assert status == 0, said[said.find("failing tests"):]
    passed = re.search(r"^ℹ pass (\d+)$", said, re.M)
    assert passed and int(passed[1]) > 1, said


@pytest.mark.needs("tsc")
def test_the_types_hold() -> None:
    assert run("tsc", "-p", PAGE / "jsconfig.json") == (0, "")


@pytest.mark.parametrize("path", MODULES, ids=name_of)
def test_a_module_has_no_way_to_markup(path: Path) -> None:
    text = path.read_text(encoding="utf-8")
    assert [word for word in NEVER if word in text] == []


@pytest.mark.parametrize("room", ROOMS)
def test_a_module_takes_from_its_room_and_those_below(room: str) -> None:
    for path in (PAGE / room).iterdir():
        for other in re.findall(r" from '(.*)'", path.read_text(encoding="utf-8")):
            taken = (path.parent / other).resolve()
            assert taken.is_file() and taken.parent.name in ROOMS[room], f"{path.name}: {other}"


def test_the_page_has_no_script_style_or_handler_in_it() -> None:
    html = (PAGE / "index.html").read_text(encoding="utf-8")
    assert not re.search(r"<script(?![^>]*src=)|<style|\son[a-z]+=|style=", html)
