"""The service of the package: its users, its units and its port. Under systemd it is in
test_systemd.py."""
from __future__ import annotations

import os
import re
import shutil
import signal
import subprocess
import urllib.request
from pathlib import Path

import pytest

from checks.packaging.conftest import NAME, Package
from checks.support.tools import ROOT, end_with_parent, ran
from checks.support.waits import until

UNITS = "usr/lib/systemd/system"
TIMED = ("kovelamiru-mirror", "kovelamiru-publish", "kovelamiru-standby")
SERVICES = ("kovelamiru-desk", *TIMED)
USERS = (NAME, "kovelamiru-mirror", "kovelamiru-publish")


# ---- users and units


@pytest.mark.if_there("systemd-sysusers")
def test_each_user_is_made_with_a_folder(package: Package, room: Path) -> None:
    shutil.copytree(package.root / "usr/lib/sysusers.d", room / "usr/lib/sysusers.d")
    (room / "etc").mkdir()
    ran("systemd-sysusers", f"--root={room}", f"{NAME}.conf")
    made = (room / "etc/passwd").read_text()
    for user in USERS:
        assert re.search(rf"^{user}:.*:/var/lib/{user}:", made, re.M), made


@pytest.fixture
def units(package: Package, room: Path) -> list[Path]:
    """The units, with the programs of the unpacked package."""
    shutil.copytree(package.root / UNITS, room, dirs_exist_ok=True)
    assert {one.name for one in room.iterdir()} == {
        "kovelamiru-.service.d", *(f"{name}.timer" for name in TIMED),
        *(f"{name}.service" for name in SERVICES),
    }
    for path in room.glob("*.service"):
        text = re.sub("(?m)^ExecStart=/", f"ExecStart={package.root}/", path.read_text())
        path.write_text(text)
    return sorted(one for one in room.iterdir() if one.is_file())


@pytest.mark.if_there("systemd-analyze")
def test_systemd_finds_nothing_wrong_with_the_units(units: list[Path]) -> None:
    """But that before 254 it can't let pauses grow."""
    done = subprocess.run(
        ["systemd-analyze", "verify", "--man=no", *units], stdout=subprocess.PIPE,
        stderr=subprocess.STDOUT, text=True, check=False,
    )
    said = re.sub(r".*Unknown key .*Restart(Steps|MaxDelaySec).*\n", "", done.stdout)
    assert (done.returncode, said) == (0, "")


@pytest.mark.if_there("systemd-analyze")
def test_the_exposure_of_each_service_is_two_at_most(units: list[Path]) -> None:
    for unit in (one for one in units if one.suffix == ".service"):
        ran("systemd-analyze", "security", "--offline=yes", "--threshold=20", "--no-pager", unit)


def test_no_user_can_take_the_port_which_the_examples_name(package: Package) -> None:
    service = package.text(f"{UNITS}/{NAME}.service")
    port = re.findall(r"^Environment=PORT=(\d+) ", service, re.M)[0]
    assert int(port) < 1024 and "CapabilityBoundingSet=CAP_NET_BIND_SERVICE" in service
    examples = f"usr/share/doc/{NAME}/examples"
    assert f"server 127.0.0.1:{port};" in package.text(f"{examples}/nginx.conf")
    assert f" dport {{ {port}, 881 }} " in package.text(f"{examples}/desk.nft")


# ---- the demo


@pytest.mark.needs("curl", "nginx")
def test_the_demo_serves_the_page_and_names_the_packages_program(
    package: Package, room: Path
) -> None:
    said = room / "said"
    with open(said, "wb") as out:
        demo = subprocess.Popen(
            [package.root / "usr/bin/desk-demo"], stdout=out, stderr=subprocess.STDOUT,
            env={**os.environ, "TMPDIR": str(room)}, preexec_fn=end_with_parent,
        )
    try:
        until(
            280, "It shows ", lambda: "\nIt shows " in said.read_text() or demo.poll() is not None,
            said.read_text,
        )
        assert demo.poll() is None, said.read_text()
        assert "\nIt shows the package's program" in said.read_text(), said.read_text()
        with urllib.request.urlopen(said.read_text().split()[0], timeout=60) as answer:
            assert answer.read() == (ROOT / "page/index.html").read_bytes()
    finally:
        demo.send_signal(signal.SIGTERM)
        demo.wait(60)
    until(20, "the demo's folder is gone", lambda: [one.name for one in room.iterdir()] == ["said"])
