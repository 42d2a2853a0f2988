"""That the record beside a program is written of what rt itself said of it, and read only where the
program, the sources and each file of the tree are those of the commit, whatever git is told. It
needs git."""

from __future__ import annotations

import hashlib
import os
import shutil
import subprocess
from pathlib import Path

import pytest

from checks.kit.standins import Tree

pytestmark = pytest.mark.needs("git")
LINE = "logic=proved functions=1 sum=0"


def git(tree: Tree, *words: str) -> str:
    name = ("-c", "user.name=checks", "-c", "user.email=checks@example.org")
    command = ["git", "-C", str(tree.at), *name, *words]
    return subprocess.run(command, check=True, capture_output=True, text=True).stdout.strip()


@pytest.fixture
def tree(tmp_path: Path) -> Tree:
    """A committed tree, with a proved program and its record."""
    made = Tree(tmp_path / "tree")
    (made.at / ".gitignore").write_text("out/\n__pycache__/\n")
    (made.at / "page").mkdir()
    (made.at / "page/index.html").write_text("a page\n")
    git(made, "init", "-q")
    git(made, "add", "-A")
    git(made, "commit", "-q", "-m", "A tree")
    assert made.run("prove", "desk").returncode == 0
    return made


def program(tree: Tree) -> str:
    return str(tree.out("desk") / "desk")


def read(tree: Tree, of: str = "") -> str:
    """The record, or why it isn't one."""
    ran = tree.run("packaging/record", "read", of or program(tree))
    assert (ran.returncode == 0) == (not ran.stderr), ran.stderr
    return ran.stderr or ran.stdout


def writes(tree: Tree, said: str, by: str = "./prove desk", of: str = "") -> str:
    """What is said where a record is to be written of what rt said; nothing of one that is."""
    (tree.at.parent / "said").write_text(said)
    sources = tree.run("prove", "--sources", "desk").stdout.strip()
    words = (of or program(tree), sources, by, str(tree.at.parent / "said"))
    ran = tree.run("packaging/record", "write", *words)
    assert os.path.exists(f"{words[0]}.record") == (ran.returncode == 0), "a record stays"
    return ran.stderr


def test_a_record_has_what_was_proved_by_whose_word(tree: Tree) -> None:
    assert dict(line.split(" ", 1) for line in read(tree).splitlines()) == {
        "program": hashlib.sha256(Path(program(tree)).read_bytes()).hexdigest(),
        "sources": tree.run("prove", "--sources", "desk").stdout.strip(),
        "kit": "a kit",
        "commit": git(tree, "rev-parse", "HEAD"),
        "tree": "clean",
        "by": "./prove desk",
        "rt": LINE,
    }


def test_sources_edited_meanwhile_leave_no_record(tree: Tree) -> None:
    ran = tree.run("prove", "top", EDITED=str(tree.source("base")))
    wanted = "its sources changed while it was proved"
    top = tree.out("top") / "top"
    assert f"packaging/record: no record of {top}: {wanted}" in ran.stderr.splitlines()
    assert not os.path.exists(f"{top}.record")


def test_no_record_without_what_rt_said(tree: Tree) -> None:
    assert "rt doesn't say that it is proved" in writes(tree, "rt: running out/desk\n")
    assert "rt doesn't say that it is proved" in writes(tree, "")
    assert "rt doesn't say that it is proved" in writes(tree, "12 passed, 0 failed\n")
    unchanged = "rt: nothing has changed since the last proved build, by out/desk.stamp, so"
    assert not writes(tree, f"{unchanged} nothing is checked now\nrt: running out/desk\n")
    assert "isn't `N passed, 0 failed`" in writes(tree, f"{LINE}\n", "rt ci")
    assert "isn't `N passed, 0 failed`" in writes(tree, "11 passed, 1 failed\n", "rt ci")
    alone = "12 passed, 0 failed (desk and the crates below alone: not the gate)\n"
    assert "isn't `N passed, 0 failed`" in writes(tree, alone, "rt ci")
    assert not writes(tree, "rt: ok\n12 passed, 0 failed\n", "rt ci")
    assert "rt 12 passed, 0 failed\n" in read(tree)
    ran = tree.run("packaging/record", "write", program(tree), "files 0", "rt ci")
    assert ran.returncode == 1, "a claim without what rt said"


def test_prove_leaves_none_where_rt_said_nothing_of_a_proof(tree: Tree) -> None:
    shutil.rmtree(tree.out("desk"))
    ran = tree.run("prove", "desk", SILENT="1")
    assert "rt doesn't say that it is proved" in ran.stderr
    assert not os.path.exists(f"{program(tree)}.record")


def test_a_trial_program_gets_none(tree: Tree) -> None:
    with open(program(tree), "ab") as text:
        text.write(b"\0__asan_init\0")
    assert "has the address sanitizer" in writes(tree, LINE)
    assert "has the address sanitizer" in read(tree)
    trial = tree.at / "out/trial/desk"
    trial.parent.mkdir(parents=True)
    trial.write_text("#!/bin/sh\n")
    assert "is a trial program" in writes(tree, LINE, of=str(trial))
    assert "is a trial program" in read(tree, str(trial))
    linked = tree.out("desk") / "linked"
    linked.symlink_to(trial)
    assert "is a trial program" in read(tree, str(linked))


def test_another_program_or_commit_doesnt_fit(tree: Tree) -> None:
    with open(program(tree), "a", encoding="utf-8") as text:
        text.write("# a byte more\n")
    assert "is another program than its record's: SHA-256 " in read(tree)
    assert tree.run("prove", "desk").returncode == 0
    git(tree, "commit", "-q", "--allow-empty", "-m", "Another commit")
    assert f", and this is {git(tree, 'rev-parse', 'HEAD')}\n" in read(tree)
    os.remove(f"{program(tree)}.record")
    assert f"there is no {program(tree)}.record" in read(tree)


@pytest.mark.parametrize("told", ["nothing", "--assume-unchanged", "--skip-worktree"])
def test_an_edit_is_seen_whatever_git_is_told_of_the_file(tree: Tree, told: str) -> None:
    if told != "nothing":
        git(tree, "update-index", told, "page/index.html")
    page = tree.at / "page/index.html"
    page.write_text("b page\n")
    assert "this tree isn't that of its commit: page/index.html was edited" in read(tree)
    assert not writes(tree, LINE)
    page.write_text("a page\n")
    assert "was proved in a tree that was edited" in read(tree)
    assert not writes(tree, LINE)
    page.chmod(0o755)
    assert "page/index.html was edited" in read(tree)
    page.chmod(0o644)
    page.unlink()
    assert "page/index.html was edited" in read(tree)
    page.write_text("a page\n")
    assert "tree clean\n" in read(tree)


def test_settings_and_a_replacement_hide_no_edit(tree: Tree) -> None:
    page, wanted = tree.at / "page/index.html", "page/index.html was edited"
    page.write_text("b page\n")
    blob = git(tree, "hash-object", "-w", str(page))
    git(tree, "replace", git(tree, "rev-parse", "HEAD:page/index.html"), blob)
    assert wanted in read(tree)
    # (what git would take the edit for)
    git(tree, "config", "filter.hides.clean", "sed s/b/a/")
    (tree.at / ".git/info/attributes").write_text("*.html filter=hides\n")
    assert not git(tree, "status", "--porcelain")
    assert wanted in read(tree)


def test_a_file_more_is_seen_whatever_git_ignores(tree: Tree) -> None:
    git(tree, "config", "status.showUntrackedFiles", "no")
    (tree.at / ".git/info/exclude").write_text("page/ignored.js\ncrates/base/specs/\n")
    for file in ("page/more.js", "page/ignored.js", "page/out/x.js", "crates/base/specs/More.antt"):
        path = tree.at / file
        path.parent.mkdir(exist_ok=True)
        path.write_text("")
        assert f"this tree isn't that of its commit: {file} was edited" in read(tree)
        path.unlink()
    (tree.at / "crates/base/out/more").write_text("")
    assert "tree clean\n" in read(tree)


@pytest.mark.parametrize("what", ["sources", "kit"])
def test_other_sources_or_another_kit_dont_fit(tree: Tree, what: str) -> None:
    record = Path(f"{program(tree)}.record")
    record.write_text(record.read_text().replace(f"{what} ", f"{what} -"))
    assert f"was proved of another {what}: -" in read(tree)
