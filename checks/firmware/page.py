"""For firmware.sh: what docs/INTEROPERATION.md has to be typed, from a desk's exports to firmware
and shim, typed as printed."""
from __future__ import annotations

import os
import subprocess
from typing import Dict

from checks.support.says import fail
from checks.support.tools import ROOT

SHIM_SECONDS = 900  # of shim's build, at most; on an idle machine it takes half a minute


def printed(title: str) -> str:
    """The commands below this title of the page."""
    with open(ROOT / "docs" / "INTEROPERATION.md", encoding="utf-8") as page:
        parts = page.read().split(f"\n## {title}\n")
    if len(parts) != 2:
        fail(f"INTEROPERATION has {len(parts) - 1} parts `{title}`")
    lines = parts[1].split("\n## ", 1)[0].split("\n")
    return "".join(f"{line[4:]}\n" for line in lines if line.startswith("    "))


def typed(title: str, program: str, **more: str) -> None:
    """Types them here, where the files are that the page names."""
    if not os.path.exists("bin"):
        os.makedirs("bin")
        os.symlink(program, "bin/desk")
    path = f"{os.path.abspath('bin')}:{os.environ['PATH']}"
    env: Dict[str, str] = {**os.environ, "PATH": path, **more}
    words = ["sh", "-eu", "-c", printed(title)]
    ran = subprocess.run(words, env=env, capture_output=True, timeout=SHIM_SECONDS, check=False)
    if ran.returncode:
        said = f"{ran.stdout[-800:]!r} {ran.stderr[-800:]!r}"
        fail(f"INTEROPERATION, {title}: status {ran.returncode}: {said}")
