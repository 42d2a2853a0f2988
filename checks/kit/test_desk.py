"""That ./desk runs the proved program where that is current, else a trial program, which it builds
where a source is newer than the build; and that a build which is ended leaves nothing. Proves
nothing: a stand-in of rt and of the program. It needs flock."""

from __future__ import annotations

import os
import signal
import subprocess
from pathlib import Path

import pytest

from checks.kit.standins import Tree, written

TRIAL = "desk: a trial program, not proved; ./prove desk proves these sources, rt ci tests them too"
BUILDING = "desk: building a trial program, in three to five minutes"
UNBUILT = "desk: the program could not be built; ./prove desk proves and builds it, or says why not"
pytestmark = pytest.mark.needs("flock")


@pytest.fixture
def tree(tmp_path: Path) -> Tree:
    return Tree(tmp_path / "tree")


def found(tree: Tree, **more: str) -> tuple[int, str, list[str], list[str]]:
    """How ./desk ends, what it prints and says, and what it asks of rt."""
    tree.asked_at.write_text("")
    ran = tree.run("desk", "a", "word", **more)
    return ran.returncode, ran.stdout.strip(), ran.stderr.splitlines(), tree.asked()


def is_built(tree: Tree, **more: str) -> bool:
    """It builds a trial program, and runs that."""
    left = found(tree, **more) == (0, "a word", [BUILDING, TRIAL], ["try desk"])
    return left and os.listdir(tree.at / "out/trial") == ["desk"]


def is_run(tree: Tree) -> bool:
    """It runs the trial program that is there."""
    return found(tree) == (0, "a word", [TRIAL], [])


def is_proved(tree: Tree) -> bool:
    return found(tree) == (0, "runs a word", [], [])


def edit(tree: Tree, crate: str = "base") -> None:
    with open(tree.source(crate), "a", encoding="utf-8") as text:
        text.write("// an edit\n")


def test_a_trial_program_is_built_where_a_source_is_newer(tree: Tree) -> None:
    assert is_built(tree, EDITED=str(tree.source("base"))), "edited while it builds"
    assert is_built(tree)
    assert is_run(tree)
    assert tree.run("desk", "--which").stdout == f"{tree.at}/out/trial/desk\n"
    (tree.at / "crates/base/README.md").write_text("not a source\n")
    assert is_run(tree)
    more = tree.source("base").parent / "more.rt"
    more.write_text("")
    assert is_built(tree)
    more.unlink()
    assert is_built(tree)


def test_without_a_program_it_says_so(tree: Tree) -> None:
    said = [BUILDING, "run=none proved=no", UNBUILT]
    assert found(tree, KIT="refuses") == (70, "", said, ["try desk"])
    lacking = "desk: the command rt of the Rattle kit is not on the PATH"
    assert found(tree, PATH="/usr/bin:/bin") == (70, "", [lacking, UNBUILT], [])


def test_of_two_at_once_one_builds(tree: Tree) -> None:
    command, environment = [str(tree.at / "desk"), "a", "word"], tree.environment()
    both = [
        subprocess.Popen(command, env=environment, text=True, stdout=subprocess.PIPE)
        for _ in range(2)
    ]
    assert [one.communicate(timeout=300)[0] for one in both] == ["a word\n", "a word\n"]
    assert tree.asked() == ["try desk"]


@pytest.mark.parametrize("ending", [signal.SIGHUP, signal.SIGINT, signal.SIGTERM, signal.SIGKILL])
def test_a_build_that_is_ended_leaves_nothing(tree: Tree, ending: signal.Signals) -> None:
    # (where the checks run behind others, SIGINT is ignored)
    running = subprocess.Popen(
        [tree.at / "desk", "a"], env=tree.environment(KIT="waits"),
        preexec_fn=lambda: signal.signal(signal.SIGINT, signal.SIG_DFL),
    )
    process = int(written(tree.bin / "trying"))
    running.send_signal(ending)
    status = running.wait(timeout=60)
    if ending == signal.SIGKILL:
        os.kill(process, signal.SIGTERM)
    else:
        assert status == 128 + ending
        assert not os.listdir(tree.at / "out/trial"), "a file is left"
        assert not Path(f"/proc/{process}/exe").exists(), "a process is left"
    assert is_built(tree)


def test_the_records_sum_decides_and_else_a_files_time(tree: Tree) -> None:
    assert tree.run("prove", "desk").returncode == 0
    assert is_proved(tree)
    assert tree.run("desk", "--which").stdout == f"{tree.out('desk')}/desk\n"
    source, kept = tree.source("base"), tree.source("base").read_text()
    # (as `cp -p`, `rsync -a` and a restored tree leave them)
    older = os.stat(tree.at / "crates.txt").st_mtime - 3600
    source.write_text(f"{kept}// other sources\n")
    for path in (source, source.parent):
        os.utime(path, (older, older))
    assert is_built(tree)
    source.write_text(kept)
    edit(tree, "other")
    assert is_proved(tree)
    # (as `rt ci` leaves it, beside the record of the program before it)
    with open(tree.out("desk") / "desk", "a", encoding="utf-8") as text:
        text.write("# another program\n")
    assert is_proved(tree)
    edit(tree)
    assert is_built(tree)
