"""The tools that checks need, and the libraries that are loaded before the program."""
from __future__ import annotations

import ctypes
import os
import shutil
import signal
import subprocess
import tempfile
from pathlib import Path
from typing import Mapping

from checks.support.says import fail, note

ROOT = Path(__file__).resolve().parents[2]
EXAMPLES = ROOT / "examples"
SYSTEMD = "/usr/lib/systemd/systemd"


def needs(*tools: str) -> None:
    """Each is installed."""
    lacking = [tool for tool in tools if shutil.which(tool) is None]
    if lacking:
        fail(f"this check needs {', '.join(lacking)}")


# A cgroup and files of its own can be made.
NAMESPACES = """
mkdir "$1/cgroup" "$1/upper" "$1/work" "$1/root"
mount -t cgroup2 cgroup2 "$1/cgroup" && mkdir "$1/cgroup/$2" && rmdir "$1/cgroup/$2" &&
    mount -t tmpfs tmpfs "$1/upper" && mkdir "$1/upper/upper" "$1/upper/work" &&
    mount -t overlay -o "lowerdir=/,upperdir=$1/upper/upper,workdir=$1/upper/work" overlay "$1/root"
"""


def succeeds(*words: str) -> bool:
    return subprocess.run(words, capture_output=True, check=False).returncode == 0


def is_there(thing: str) -> bool:
    """Whether a tool is installed, or systemd, or this is `root`, or may have a `network` of its
    own, or `namespaces` for a machine of its own (booted.py)."""
    if thing == "network":
        return succeeds("unshare", "-n", "true")
    if thing == "namespaces":
        with tempfile.TemporaryDirectory() as room:
            flags = ("--mount", "--pid", "--net", "--uts", "--ipc", "--cgroup", "--fork")
            return succeeds("unshare", *flags, "sh", "-c", NAMESPACES, "sh", room,
                            f"desk-checks-{os.getpid()}")
    if thing == "systemd":
        return os.access(SYSTEMD, os.X_OK)
    return os.getuid() == 0 if thing == "root" else shutil.which(thing) is not None


def ran(
    *words: str | Path, given: bytes = b"", cwd: Path | None = None, seconds: float = 120
) -> bytes:
    """What a tool writes. It has to succeed."""
    needs(str(words[0]))
    done = subprocess.run(
        words, input=given, capture_output=True, timeout=seconds, cwd=cwd, check=False
    )
    if done.returncode:
        fail(
            f"{' '.join(map(str, words))}: status {done.returncode}, "
            f"{done.stderr.decode(errors='replace')}"
        )
    return done.stdout


def ends(
    status: int, says: str, *words: str | Path, cwd: Path, env: Mapping[str, str] | None = None,
) -> str:
    """A tool ends so and says this, on either output; all that it said."""
    asked = [*map(str, words)]
    done = subprocess.run(
        asked, cwd=cwd, env={**os.environ, **(env or {})}, timeout=300, check=False,
        stdout=subprocess.PIPE, stderr=subprocess.STDOUT, preexec_fn=end_with_parent,
    )
    said = done.stdout.decode(errors="replace")
    note(" ".join(asked), "", said)
    if done.returncode != status or says not in said:
        fail(f"{asked}\n    wanted {status} {says}\n    came   {done.returncode} {said}")
    return said


def library(room: Path, name: str) -> Path:
    """The shared library of checks/NAME.c, which is loaded before the program by LD_PRELOAD."""
    made = room / f"{name}.so"
    if not made.exists():
        ran("cc", "-shared", "-fPIC", "-O1", "-o", made, ROOT / "checks" / f"{name}.c", "-ldl")
    return made


def end_with_parent() -> None:
    """The process that begins here ends with the one that asks for it (prctl's
    PR_SET_PDEATHSIG)."""
    ctypes.CDLL(None).prctl(1, signal.SIGKILL)


def is_trial(program: Path) -> bool:
    """Whether the program has the address sanitizer: it was built by `rt try` and isn't proved."""
    return b"__asan_init" in program.read_bytes()


def processors() -> int:
    """How many runs of the program a test may have side by side: xdist's workers share the rest."""
    workers = int(os.environ.get("PYTEST_XDIST_WORKER_COUNT", "1"))
    return max(1, len(os.sched_getaffinity(0)) // workers)
