"""The packages of the program under check and of the client, made from a copy of the tree with a
commit of its own, and unpacked. The program gets a record that it was proved, made here; a trial
program first loses the names by which it is known."""
from __future__ import annotations

import fcntl
import os
import re
import shutil
import subprocess
from dataclasses import dataclass
from pathlib import Path
from typing import Callable

import pytest

from checks.support.tools import ROOT, is_trial, needs, ran

NAME = "kovelamiru-desk"


def quiet(*words: str | Path, cwd: Path | None = None) -> None:
    """The tool succeeds and says nothing, on standard error neither."""
    done = subprocess.run(
        words, stdout=subprocess.PIPE, stderr=subprocess.STDOUT, cwd=cwd, check=False, timeout=300
    )
    assert (done.returncode, done.stdout.decode()) == (0, ""), words


@dataclass(frozen=True)
class Copy:
    """A copy of the tree. `program` is where its proved program is."""

    root: Path

    @property
    def program(self) -> Path:
        return self.root / "crates" / "desk" / "out" / "desk"

    def git(self, *words: str) -> str:
        name = ("-c", "user.name=checks", "-c", "user.email=checks@example.org")
        return ran("git", "-C", self.root, *name, *words).decode().strip()

    def recorded(self) -> None:
        """The program's record says that `rt ci` passed."""
        said = self.root.parent / "gate"
        said.write_text("1 passed, 0 failed\n")
        sources = ran(self.root / "prove", "--sources", "desk").decode().strip()
        ran(self.root / "packaging/record", "write", self.program, sources, "rt ci", said)

    def version(self) -> str:
        """The program's own."""
        return ran(self.program, "--version").decode().split()[1]

    def makes(self, script: str, made: Path, *words: str | Path, elsewhere: bool = False) -> Path:
        """The package that a script makes in a folder: `elsewhere` by another umask, in another
        zone, locale and folder."""
        made.mkdir(exist_ok=True)
        more = {"TZ": "Asia/Tokyo", "TMPDIR": str(made), "LC_ALL": "C.UTF-8"} if elsewhere else {}
        done = subprocess.run(
            [self.root / "packaging" / script, *words], cwd=made, env={**os.environ, **more},
            umask=0o077 if elsewhere else -1, capture_output=True, text=True, check=False,
        )
        assert done.returncode == 0, done.stderr
        return Path(done.stdout.strip())


def copied(program: Path, root: Path) -> None:
    made = Copy(root)
    left_out = shutil.ignore_patterns(".git", "out", "__pycache__")
    shutil.copytree(ROOT, root, symlinks=True, ignore=left_out)
    made.git("init", "-q")
    made.git("add", "-A")
    made.git("commit", "-q", "-m", "A copy")
    made.program.parent.mkdir(parents=True)
    shutil.copy(program, made.program)
    if is_trial(program):
        ran("strip", made.program)
    made.recorded()


def once(made: Path, make: Callable[[], object]) -> Path:
    """This path, which the first test process that needs it makes for all."""
    with open(f"{made}.lock", "w", encoding="ascii") as lock:
        fcntl.flock(lock, fcntl.LOCK_EX)
        if not Path(f"{made}.made").exists():
            make()
            Path(f"{made}.made").touch()
    return made


@pytest.fixture(scope="session")
def packages() -> Path:
    """The folder of what the test processes share."""
    made = Path(os.environ["DESK_CHECKS_ROOM"]) / "packages"
    made.mkdir(exist_ok=True)
    return made


@pytest.fixture(scope="session")
def tree(program_path: Path, packages: Path) -> Copy:
    """No test may change it."""
    needs("git", "rt")
    root = packages / "tree"
    return Copy(once(root, lambda: copied(program_path, root)))


@dataclass(frozen=True)
class Package:
    """A package, its files below an empty root, and its scripts."""

    deb: Path
    root: Path
    control: Path

    def text(self, path: str) -> str:
        return (self.root / path).read_text(encoding="utf-8")


def unpacked(tree: Copy, made: Path, script: str, *words: Path) -> Package:
    def make() -> None:
        deb = tree.makes(script, made, *words)
        ran("dpkg-deb", "-x", deb, made / "root")
        ran("dpkg-deb", "-e", deb, made / "control")

    needs("dpkg-deb", "dpkg-shlibdeps")
    once(made, make)
    return Package(next(made.glob("*.deb")), made / "root", made / "control")


@pytest.fixture(scope="session")
def package(tree: Copy, packages: Path) -> Package:
    """That of the desk."""
    return unpacked(tree, packages / "desk", "deb.sh", tree.program)


@pytest.fixture(scope="session")
def client_package(tree: Copy, packages: Path) -> Package:
    return unpacked(tree, packages / "client", "deb-client.sh")


@pytest.fixture(scope="session")
def subcommands(package: Package) -> list[str]:
    """Those that the packaged program's help names, but for `help`."""
    said = ran(package.root / "usr/bin/desk", "help").decode()
    found = [one for one in re.findall(r"^  ([a-z]+)  ", said, re.M) if one != "help"]
    assert found, said
    return found
