"""The package of the desk: of which program it is made, and what is in it. checks/kit has which
records fit."""
from __future__ import annotations

import filecmp
import os
import re
import shutil
import subprocess
import time
from pathlib import Path

import pytest

from checks.packaging.conftest import NAME, Copy, Package, quiet
from checks.support.images import OWNER
from checks.support.says import expect
from checks.support.tools import ran

# The folders whose files go in, with those that don't.
PAGE = {"jsconfig.json", "package.json"}


def files(folder: Path, below: str = "") -> dict[str, bytes]:
    found = (path for path in folder.rglob("*") if path.is_file())
    rows = ((str(path.relative_to(folder)), path.read_bytes()) for path in found)
    return {name: data for name, data in rows if name.startswith(below)}


# ---- of what it is made


REFUSED = {
    "no record": "there is no {program}.record",
    "a byte more": "{program} is another program than its record's: SHA-256 ",
    "the sanitizer": "{program} has the address sanitizer",
    "a trial program": "{program} is a trial program, and not proved",
    "a file more": "this tree isn't that of its commit: page/wire/more.json was edited",
}


@pytest.fixture(scope="module")
def another(tree: Copy, session_room: Path) -> Copy:
    """A copy of the copy."""
    shutil.copytree(tree.root, session_room / "another", symlinks=True)
    return Copy(session_room / "another")


@pytest.mark.parametrize("fault", REFUSED)
def test_no_package_of_a_program_without_a_record_that_fits(
    another: Copy, room: Path, fault: str
) -> None:
    folder = another.root / "out/trial" if fault == "a trial program" else another.program.parent
    folder.mkdir(parents=True, exist_ok=True)
    program, more = folder / f"the {fault}", another.root / "page/wire/more.json"
    shutil.copy(another.program, program)
    if fault != "no record":
        shutil.copy(f"{another.program}.record", f"{program}.record")
    if fault == "a file more":
        (another.root / ".git/info/exclude").write_text("more.json\n")
        program = another.program
        more.touch()
    else:
        with open(program, "ab") as text:
            text.write({"a byte more": b"\n", "the sanitizer": b"\0__asan_init\0"}.get(fault, b""))
    done = subprocess.run(
        [another.root / "packaging/deb.sh", program, room], capture_output=True, text=True,
        check=False,
    )
    more.unlink(missing_ok=True)
    assert done.returncode and REFUSED[fault].format(program=program) in done.stderr, done
    assert not [*room.iterdir()]


@pytest.mark.long(60)
def test_it_is_the_same_bytes_wherever_it_is_made(
    tree: Copy, package: Package, room: Path
) -> None:
    again = tree.makes("deb.sh", room, tree.program, elsewhere=True)
    assert again.name == package.deb.name
    quiet("cmp", package.deb, again)


def test_its_name_has_the_version_and_the_commit_below_the_release(
    tree: Copy, package: Package
) -> None:
    own, commit = tree.version(), tree.git("rev-parse", "HEAD")
    made = time.gmtime(int(tree.git("log", "-1", "--format=%ct")))
    version = f"{own}~git{time.strftime('%Y%m%d%H%M%S', made)}.{commit[:8]}"
    assert package.deb.name == f"{NAME}_{version}_amd64.deb"
    quiet("dpkg", "--compare-versions", version, "lt", own)


# ---- what is in it


def test_the_program_is_the_named_one_and_readme_has_its_record(
    tree: Copy, package: Package
) -> None:
    assert filecmp.cmp(tree.program, package.root / "usr/bin/desk", shallow=False)
    readme = package.text(f"usr/share/doc/{NAME}/README.Debian")
    record = dict(
        line.split(" ", 1) for line in Path(f"{tree.program}.record").read_text().splitlines()
    )
    for key in ("commit", "kit", "sources", "program", "rt"):
        assert f" {record[key]}" in readme, key


def test_the_page_is_that_of_the_tree(tree: Copy, package: Package) -> None:
    own, packaged = tree.root / "page", package.root / f"usr/share/{NAME}/page"
    due = {
        name: data for name, data in files(own).items()
        if name not in PAGE and not re.match("wire/(cases/|README)", name)
    }
    assert files(packaged).keys() == due.keys()
    expect(files(packaged), due, "the page")


def test_a_link_of_an_installed_page_leads_to_a_file_beside_it(
    package: Package, client_package: Package
) -> None:
    pages = [page for one in (package, client_package)
             for page in (one.root / "usr/share/doc").rglob("*.md")]
    links = [(page, link) for page in pages
             for link in re.findall(r"\]\(([^)#]+)", page.read_text(encoding="utf-8"))]
    assert links
    lost = [f"{page.name}: {link}" for page, link in links
            if ":" not in link and not (page.parent / link).is_file()]
    expect(lost, [], "links to nothing")


@pytest.mark.if_there("root")
def test_the_program_needs_no_file_but_those_of_its_depends(package: Package, room: Path) -> None:
    shutil.copytree(package.root / "usr", room / "usr", symlinks=True)
    depends = ran("dpkg-deb", "-f", package.deb, "Depends").decode()
    libraries = re.sub(r"\([^)]*\)|, systemd.*", "", depends).replace(",", " ").split()
    listed = ran("dpkg", "-L", *libraries).decode().splitlines()
    for path in (one for one in listed if re.search(r"/lib.*\.so", one) and os.path.isfile(one)):
        (room / path[1:]).parent.mkdir(parents=True, exist_ok=True)
        shutil.copy(path, room / path[1:])
    assert ran("chroot", room, "/usr/bin/desk", "init", "desk.db", OWNER) == b""
    assert ran("chroot", room, "/usr/bin/desk", "level", "desk.db") == b"sbat,1,2021030218\n"


@pytest.mark.if_there("lintian")
def test_lintian_finds_no_error(package: Package, client_package: Package) -> None:
    ran("lintian", "--fail-on", "error", package.deb, client_package.deb, seconds=300)
