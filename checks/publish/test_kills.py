"""A run that is killed at any step leaves the old files or the new ones, whole."""
from __future__ import annotations

import re
import shutil
import subprocess
import sys

import pytest

from checks.publish.place import PUBLISH, Place, key_of, number
from checks.support.images import OWNER
from checks.support.program import EXPORTS
from checks.support.says import expect, fail
from checks.support.tools import ROOT

KILLS = ROOT / "checks" / "publish" / "kills.py"


def killed(place: Place, step: int, program: str) -> int:
    """The status of a publication that is killed before this step."""
    asked = f"{sys.executable} -B {KILLS} {step} {place.out} {PUBLISH} {place.link} --owner {OWNER}"
    asked += f" --program {program} --db {place.db} --sign {place.room}/sign"
    words = [*asked.split(), "--key", str(place.room / "publisher")]
    done = subprocess.run(words, capture_output=True, timeout=300, check=False)
    if done.returncode not in (0, -9):
        fail(f"killed at step {step}: status {done.returncode}, {done.stderr!r}")
    return done.returncode


@pytest.mark.long(90)
@pytest.mark.timeout(1800)
def test_killed_at_each_step_it_leaves_the_old_or_the_new(signed: Place) -> None:
    """And the next run goes on from there, and takes away what was left."""
    signed.revokes(number(3))
    # (what the desk has, without a run of it for each file at each step)
    exports = {name: signed.desk.gives(name, signed.db) for name in EXPORTS}
    program, before = signed.lying(**exports), signed.room / "before"
    signed.out.rename(before)
    found: list[str] = []
    for step in range(1, 101):
        shutil.rmtree(signed.out, ignore_errors=True)
        shutil.copytree(before, signed.out, symlinks=True)
        status = killed(signed, step, program)
        found.append(key_of(signed.sums(), "calls"))
        signed.shows(int(found[-1]))
        if status == 0:
            break
        signed.publish(0, "calls 13: ", "--program", program)
        signed.shows(13)
        expect(signed.left(), [], f"what is left by step {step}")
    assert re.fullmatch("(11 ){15,98}(13 )+", f"{' '.join(found)} "), found
    signed.is_desks()
