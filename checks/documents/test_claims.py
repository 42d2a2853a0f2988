"""That the documents name nothing that isn't there, and that the tree has nothing that `rt ci`
refuses at sight. Proves nothing and runs no program: it reads the sources.

A claim of docs/PROVED.md is a row of a table that begins `| Call | Clause |`. Its first cell has
calls, each with its crate in front (`store_desk::Desk::open`), and its second the names of clauses,
in backticks; an empty second cell stands for a clause without a name. The row claims every one of
these clauses of every one of these calls."""
from __future__ import annotations

import os
import re
from pathlib import Path
from typing import Iterator

import pytest

from checks.clauses.clauses import Function, Tokens, calls_of, crates, functions_of
from checks.support.tools import ROOT, ran
from docs.print import lacking

WORD = re.compile("[A-Za-z_][A-Za-z_0-9]*")
TESTS = (ROOT / "docs" / "TESTS.md").read_text(encoding="utf-8")


def text_of(name: str | Path) -> str:
    return (ROOT / name).read_text(encoding="utf-8")


def quoted(text: str) -> list[str]:
    """What stands in backticks."""
    return re.findall("`([^`]+)`", text)


def holds(looked_at: object, missing: list[str], what: str) -> None:
    """Something was looked at (no heading and no form has changed), and nothing is missing."""
    assert looked_at, f"no {what} is found"
    assert not missing, "\n".join(missing)


# ---- docs/PROVED.md and docs/print.py


def claims() -> Iterator[tuple[int, list[str], list[str]]]:
    """Each row that claims: the number of its line, its calls, its clauses."""
    inside = False
    for number, line in enumerate(text_of("docs/PROVED.md").splitlines(), 1):
        if line.startswith("| Call | Clause"):
            inside = True
        elif not line.startswith("|"):
            inside = False
        elif inside and not line.startswith("|---"):
            calls, clauses = map(quoted, re.split(r"(?<!\\)\|", line)[1:3])
            yield number, calls, clauses


def test_each_row_of_proved_names_clauses_of_calls_that_a_crate_offers() -> None:
    offered = {crate: calls_of(crate, ROOT) for crate in crates(ROOT)}
    rows, missing = [*claims()], []
    for number, calls, clauses in rows:
        missing += [f"line {number}: a row without a call"] * (not calls)
        for call in calls:
            crate, _, name = call.partition("::")
            found = offered.get(crate, {}).get(name)
            if found is None:
                missing.append(f"line {number}: no crate offers {call}")
                continue
            ensured = [one.name for one in found if one.kind == "ensures"]
            missing += [
                f"line {number}: {call} has no clause {clause or 'without a name'}"
                for clause in clauses or [""] if clause not in ensured
            ]
    holds(rows, missing, "row of docs/PROVED.md")


# No program makes these calls: they stand for a machine that stops.
OF_STOPS = {
    "store_desk::reopen", "store_desk::restart", "store_desk::stop",
    "store_follow::restart_after_run",
}


def name_of(crate: str, function: Function) -> str:
    return "::".join([crate, *[function.owner] * bool(function.owner), function.name])


def is_law(function: Function) -> bool:
    """Its body does nothing, so that the call only states its clauses."""
    return re.fullmatch(r"\{(?:let_=[^;]*;)*\}", "".join(function.body)) is not None


def may_call(body: Tokens, at: int, function: Function) -> bool:
    """The name at this index may mean the function: of a type it stands behind a dot or a path."""
    before = body[at - 1] if at else ""
    if not function.owner:
        return before != "."
    return before == "." or before == "::" and body[at - 2] in (function.owner, "Self", ">")


def run_by_main(made: dict[str, list[tuple[str, Function]]]) -> set[str]:
    """The functions that the program may run, found by names alone, from its `main` on."""
    left = [function for crate, function in made["main"] if crate == "desk"]
    run: set[str] = set()
    while left:
        body = left.pop().body
        for at, token in enumerate(body):
            for crate, function in made.get(token, []):
                name = name_of(crate, function)
                if name not in run and may_call(body, at, function):
                    run.add(name)
                    left.append(function)
    return run


def test_each_call_of_proved_is_one_that_the_program_makes_or_a_law() -> None:
    made: dict[str, list[tuple[str, Function]]] = {}
    for crate in [*crates(ROOT), "desk"]:
        for function in functions_of(crate, ROOT) if not crate.startswith("test") else []:
            made.setdefault(function.name, []).append((crate, function))
    known = run_by_main(made) | OF_STOPS
    known |= {
        name_of(crate, function)
        for found in made.values() for crate, function in found if is_law(function)
    }
    cited = {(number, call) for number, calls, _ in claims() for call in calls}
    missing = [
        f"line {number}: no program makes {call}" for number, call in sorted(cited)
        if call not in known
    ]
    holds(cited, missing, "call of docs/PROVED.md")


def test_each_clause_definition_and_sql_text_is_printed_with_its_comment() -> None:
    assert lacking() == []


# ---- the pages of crates, and docs/DECISIONS.md


def test_each_word_that_a_readme_says_a_contract_sees_is_in_a_source() -> None:
    sources = [
        path for folder in ("src", "specs") for suffix in ("rt", "antt")
        for path in ROOT.glob(f"crates/*/{folder}/**/*.{suffix}")
    ]
    known = {word for path in sources for word in WORD.findall(text_of(path))}
    words, missing = 0, []
    for path in sorted(ROOT.glob("crates/*/README.md")):
        page = text_of(path).partition("\n## What a contract sees\n")[2].partition("\n## ")[0]
        for entry in re.findall(r"^- (.*?)(?::\s|\Z)", page, re.M | re.S):
            for word in WORD.findall(" ".join(quoted(entry))):
                words += 1
                if word not in known:
                    missing.append(f"{path.relative_to(ROOT)}: no source has {word}")
    holds(words, missing, "word of what a contract sees")


# ---- the files of checks/ that pages name


def test_each_file_of_checks_that_a_page_names_is_there() -> None:
    pages = {*ROOT.rglob("*.md")}
    named = {
        (str(path.relative_to(ROOT)), name) for path in pages
        for name in re.findall(r"\bchecks/([a-z0-9_./*-]*[a-z0-9_/*])(?![A-Z])", text_of(path))
    }
    missing = [
        f"{page}: there is no checks/{name}" for page, name in sorted(named)
        if not [*(ROOT / "checks").glob(name)]
    ]
    holds(named, missing, "file of checks/ in a page")


def test_tests_md_names_what_is_there_and_each_program_and_folder() -> None:
    """A folder by its tests, and a program that somebody runs."""
    own = {path for path in (ROOT / "checks").rglob("*.*") if "__pycache__" not in path.parts}
    names = {path.name for path in own}
    named = {*re.findall(r"[\w-]+\.(?:sh|py)\b", TESTS)}
    missing = [f"there is no {name}" for name in sorted(named - names - {"print.py"})]
    programs = {path.name for path in own if path.suffix in (".sh", ".py") and is_run(path)}
    missing += [f"nothing of {name}" for name in sorted(programs - named - {"common.sh"})]
    tests = {path.relative_to(ROOT / "checks").parts for path in own if path.match("test_*.py")}
    folders = {parts[0] for parts in tests if len(parts) > 1}
    missing += [f"nothing of {one}/" for one in sorted(folders) if not told_of(one)]
    holds(programs and folders, missing, "program or folder of checks/")


def is_run(path: Path) -> bool:
    return os.access(path, os.X_OK)


def told_of(folder: str) -> bool:
    return f"`{folder}/" in TESTS or f"checks/{folder}" in TESTS


# ---- the tree


@pytest.mark.needs("git")
def test_no_symbolic_link_is_tracked() -> None:
    """`rt ci` refuses a tree with one in its first second."""
    listed = ran("git", "-C", ROOT, "ls-files", "-s").decode()
    rows = [line.split("\t", 1) for line in listed.splitlines()]
    links = [f"{path} is a symbolic link" for about, path in rows if about.startswith("120000 ")]
    holds(rows, links, "tracked file")
