"""The pages of packaging/runbooks, and the beginning of publishing in packaging/README.md, run as
they are printed. Each begins on a desk of its own behind nginx, in the state that its page is for.
As root each person, the desk, its publication and nginx are users of their own, in a list of users
that only this test sees. Scripts stand in for systemctl, journalctl and runuser, paths of the
system are folders here, and nginx has packaging/nginx.conf without its TLS. The full disk is a file
system in memory, so it needs root or user namespaces."""
from __future__ import annotations

import os
import shutil
import subprocess
from pathlib import Path

import pytest

from checks.runbooks.beginnings import BEFORE
from checks.runbooks.run import page_of
from checks.support.tools import ROOT

# Mounts and processes of its own, which end with it.
OWN = ["--mount", "--pid", "--fork", "--mount-proc", "--kill-child"]
OWN += [] if os.getuid() == 0 else ["--map-current-user", "--keep-caps"]


def test_each_runbook_has_a_beginning() -> None:
    pages = {path.stem for path in (ROOT / "packaging/runbooks").glob("*.md")}
    assert pages == BEFORE.keys() - {"publishing", "machine-moved"}


@pytest.mark.long(60)
@pytest.mark.needs(
    "bash", "curl", "mount", "nginx", "openssl", "setpriv", "sig-list-to-certs", "sqlite3", "tar",
    "unshare", "xxd",
)
@pytest.mark.parametrize("page", BEFORE)
def test_each_command_of_a_runbook_gives_the_lines_below_it(
    program_path: Path, room: Path, page: str
) -> None:
    """Besides: tokens that leaked before a page stay refused after it; while a desk is moved, it
    allows no revoked image; one that is made again from its minutes has the lost one's dbx, db,
    level and minutes, and a repeated key takes effect once; nobody's own token publishes."""
    for folder in (room, room.parent):
        folder.chmod(0o711)
    program = room / "desk"
    shutil.copyfile(program_path, program)
    program.chmod(0o755)
    words = ["-m", "checks.runbooks.run", str(program), str(room), page]
    done = subprocess.run(
        ["unshare", *OWN, "/usr/bin/python3", "-B", *words], cwd=ROOT, stdout=subprocess.PIPE,
        stderr=subprocess.STDOUT, text=True, check=False, timeout=570,
    )
    assert done.returncode == 0, done.stdout
    assert f"{len(page_of(page))} commands as " in done.stdout
