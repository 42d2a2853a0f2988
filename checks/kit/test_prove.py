"""That ./prove proves a made-up graph in a right order, goes on where it was, stops where a crate
fails, and leaves nothing of a run that is ended: over a stand-in of rt, which notes its commands.
And that it proves a small crate with the real rt, which takes some 10 seconds."""

from __future__ import annotations

import os
import re
import shutil
import signal
import subprocess
from pathlib import Path

import pytest

from checks.kit.standins import Tree, written

pytestmark = pytest.mark.needs("taskset")
ANOTHER = "prove: this kit's rt has another form; proving as rt does, which takes longer"


@pytest.fixture
def tree(tmp_path: Path) -> Tree:
    return Tree(tmp_path / "tree")


def processors(count: int) -> str:
    return ",".join(map(str, sorted(os.sched_getaffinity(0))[:count]))


def test_a_graph_is_proved_in_order_each_crate_once(tree: Tree) -> None:
    ran = tree.run("prove", "top", on=processors(2))
    assert ran.returncode == 0, ran.stderr
    order = [line.split()[1] for line in tree.asked()]
    assert sorted(order) == ["base", "last", "left", "long", "longer", "top"]
    pairs = ("base left", "base long", "long longer", "longer last", "left top", "last top")
    for one, other in (pair.split() for pair in pairs):
        assert order.index(one) < order.index(other), (one, other, order)
    assert all((tree.out(crate) / "kept").exists() for crate in order), "what is proved stays"
    assert (ran.stderr.splitlines().count(ANOTHER), "6 of 6 crates" in ran.stderr) == (1, True)
    program, stamp = (os.stat(tree.out("top") / name).st_mtime_ns for name in ("top", "stamp"))
    assert program < stamp, "a program has the time at which the run began"
    rows = [line.split() for line in Path(f"{tree.asked_at}.nice").read_text().splitlines()]
    behind = {crate: int(nice) - os.nice(0) for crate, nice, _ in rows}
    if len(processors(2)) > 1:
        assert behind == {**dict.fromkeys(order, 0), "left": 10}, "nobody waits for it"


def test_a_crate_that_fails_ends_the_run_and_the_next_one_goes_on(tree: Tree) -> None:
    ran = tree.run("prove", "top", on=processors(1), FAILS="long")
    assert ran.returncode == 1
    assert "the output of long" in ran.stderr.splitlines()
    assert not re.search("longer|top", "\n".join(tree.asked())), "nothing above it is asked for"
    assert (tree.out("base") / "kept").exists(), "what was proved before stays"
    assert tree.run("prove", "top").returncode == 0


def test_what_it_cant_prove_it_says(tree: Tree) -> None:
    ran = tree.run("prove", "nothing")
    assert (ran.returncode, ran.stderr) == (1, "prove: crates.txt has no crate nothing\n")
    assert tree.run("prove").returncode == 2
    ran = tree.run("prove", "base", PATH="/usr/bin:/bin")
    said = "prove: the command rt of the Rattle kit is not on the PATH\n"
    assert (ran.returncode, ran.stderr) == (1, said)
    (tree.at / "README.md").write_text("The gate has passed with `one`, `another`.\n")
    line = "prove: this machine's kit is a kit; the gate has passed with one, another\n"
    assert tree.run("prove", "base").stderr.startswith(line)


@pytest.mark.parametrize("ending", [signal.SIGTERM, signal.SIGINT])
def test_a_run_that_is_ended_leaves_neither_a_room_nor_a_process(
    tree: Tree, tmp_path: Path, ending: signal.Signals
) -> None:
    rooms = tmp_path / "rooms"
    rooms.mkdir()
    environment = tree.environment(TMPDIR=str(rooms), SLEEPS="base")
    ran = subprocess.Popen([tree.at / "prove", "top"], env=environment, stderr=subprocess.PIPE)
    process = written(Path(f"{tree.asked_at}.pid"))
    ran.send_signal(ending)
    ran.communicate(timeout=60)
    assert not [*rooms.iterdir()], "a room is left"
    assert not Path(f"/proc/{process}/exe").exists(), "a process is left"


@pytest.mark.long(15)
@pytest.mark.needs("git", "rt")
def test_the_real_rt_proves_two_small_crates_by_their_statements(tmp_path: Path) -> None:
    tree = Tree(tmp_path / "tree", "", rt="")
    shutil.rmtree(tree.at / "crates")
    (tree.at / "crates.txt").unlink()
    subprocess.run(["git", "init", "-q", tree.at], check=True)
    for crate in ("one", "two"):
        subprocess.run(["rt", "new", f"crates/{crate}", "start_lib"], cwd=tree.at, check=True)
        (tree.at / f"crates/{crate}/BUILD.bazel").unlink()
    (tree.at / "BUILD.bazel").unlink()
    (tree.at / "crates.txt").write_text("one:\ntwo: one\n")
    for _ in range(2):
        ran = tree.run("prove", "two")
        assert ran.returncode == 0, ran.stderr
        assert ANOTHER not in ran.stderr.splitlines()
        assert "two is proved in " in ran.stderr
    assert (tree.out("two") / "rlib/over").exists()
