"""That checks/wrong_bodies.sh counts what rt says of wrong bodies, and passes no crate without one.
A stand-in of rt says the words in SAID of each body that it is given; nothing is proved here."""
from __future__ import annotations

import os
import shutil
import subprocess
from pathlib import Path

import pytest

from checks.kit.standins import ROOT

REFUSED = ": refused, as it must be"
RT = """#!/bin/sh
# rt's words: only by a limit of the prover, only because a proof file names
shift
for crate; do
    for body in "crates/$crate/must-fail/"*.edit; do echo "rt: must-fail $body$SAID"; done
done
"""


@pytest.fixture
def tree(tmp_path: Path) -> Path:
    """A repository of a crate with a body in each tier, one with a body, and one without."""
    for body in (
        "crates/two/must-fail/a", "checks/wrong_bodies/two/b", "checks/wrong_bodies/one/a",
        "crates/none/src/lib",
    ):
        (tmp_path / body).parent.mkdir(parents=True)
        (tmp_path / f"{body}.edit").touch()
    (tmp_path / "checks/wrong_bodies/tried.tsv").touch()
    (tmp_path / "crates/one").mkdir()
    (tmp_path / "crates.txt").write_text("# a comment\ntwo: one\none: sha2\nnone:\n")
    (tmp_path / "HANDLES").touch()
    for name in ("wrong_bodies.sh", "common.sh"):
        shutil.copy(ROOT / "checks" / name, tmp_path / "checks")
    (tmp_path / "rt").write_text(RT)
    (tmp_path / "rt").chmod(0o755)
    return tmp_path


def ran(tree: Path, *crates: str, said: str = REFUSED) -> tuple[int, list[str]]:
    path = f"{tree}:{os.environ['PATH']}"
    done = subprocess.run(
        [tree / "checks/wrong_bodies.sh", *crates], stdout=subprocess.PIPE, text=True,
        stderr=subprocess.STDOUT, env={**os.environ, "PATH": path, "SAID": said}, check=False,
    )
    return done.returncode, done.stdout.splitlines()


def test_each_body_of_both_tiers_is_tried(tree: Path) -> None:
    counts = "0 only by a lost name, 0 only by a limit of the prover"
    for crates, bodies in (("two", 2), ("one two", 3), ("", 3)):
        status, lines = ran(tree, *crates.split())
        assert (status, lines[bodies:]) == (0, [counts, f"{bodies} refused, 0 not"])


@pytest.mark.parametrize("said", [
    ": NOT refused", f"{REFUSED}, only by a limit of the prover",
    f"{REFUSED}, but only because a proof file names what is gone",
])
def test_one_that_is_not_refused_for_its_meaning_fails(tree: Path, said: str) -> None:
    status, lines = ran(tree, "two", said=said)
    assert (status, lines[-1]) == (1, "0 refused, 2 not"), lines


def test_the_last_whole_run_is_of_bodies_that_stand() -> None:
    lines = (ROOT / "checks/wrong_bodies/tried.tsv").read_text().splitlines()
    assert lines[0].split("\t") == ["crate", "tier", "name", "file", "goal", "how refused"]
    folders = {"gate": "crates/{}/must-fail", "second": "checks/wrong_bodies/{}"}
    for line in lines[1:]:
        crate, tier, name, file, goal, how = line.split("\t")
        body = ROOT / folders[tier].format(crate) / f"{name}.edit"
        assert f"file: {file}\n" in body.read_text(), line
        assert goal and how.startswith("refused: "), line
