"""The package under systemd, which is PID 1 of a machine of its own: installed by dpkg, served,
killed, refused what its unit refuses, upgraded and removed."""
from __future__ import annotations

from pathlib import Path
from typing import Iterator

import pytest

from checks.packaging.conftest import NAME, Package
from checks.packaging.machines import AS_DESK, READS, STATE, Machine
from checks.support.images import OWNER, sha256
from checks.support.steps import Step, named, proposes
from checks.support.tools import ROOT
from checks.support.waits import until

pytestmark = [
    pytest.mark.long(40),
    pytest.mark.if_there("root", "network", "dpkg", "ip", "ss", "nsenter", "systemd", "namespaces"),
]
COPIES = f"/var/backups/{NAME}"
# With what the kernel is told of the process: its one capability is that for its port.
LIMITS = {
    "CapEff": "0000000000000400", "CapBnd": "0000000000000400", "NoNewPrivs": "1", "Seccomp": "2",
}


@pytest.fixture
def machine(package: Package, room: Path) -> Iterator[Machine]:
    made = Machine(room, "one", package.deb)
    yield made
    made.close()


@pytest.fixture
def serving(machine: Machine) -> Machine:
    """It serves."""
    machine.founds(["olga", "otto"])
    machine.run("systemctl", "enable", "--now", NAME)
    machine.answers(READS)
    return machine


def proposed(number: int) -> Step:
    body = named(sha256(str(number).encode()))
    return proposes("olga", f"k{number}", "/dbx/digests", body, number)


def test_nothing_is_started_before_there_is_a_desk(machine: Machine) -> None:
    units = machine.run("systemctl", "list-units", "--all", "--plain", "--no-legend", "kovelamiru*")
    assert units == ""
    machine.run("systemctl", "start", NAME)
    assert machine.told(NAME, "ActiveState", "ConditionResult") == ["inactive", "no"]


def test_what_was_acknowledged_is_there_after_each_end_and_the_service_begins_again(
    serving: Machine
) -> None:
    serving.answers(proposed(1))
    before = serving.number()
    serving.run("kill", "-9", str(before))
    serving.answers(proposed(1))
    assert serving.number() not in (0, before)
    serving.run("systemctl", "stop", NAME)
    assert serving.told(NAME, "ActiveState", "Result") == ["inactive", "success"]
    serving.changed("Environment=COUNT=1")
    serving.run("systemctl", "start", NAME)
    for number in (1, 2):
        serving.answers(proposed(number))
    assert int(serving.told(NAME, "NRestarts")[0]) >= 1


def test_the_process_has_what_the_unit_says_and_no_more(serving: Machine) -> None:
    number = serving.number()
    rows = dict(line.split(":\t", 1) for line in
                serving.run("cat", f"/proc/{number}/status").splitlines() if ":\t" in line)
    assert {key: rows[key] for key in LIMITS} == LIMITS
    user = serving.run("id", "-u", NAME)
    assert rows["Uid"].split() == [user] * 4 and user != "0"
    # In its own view of the files: nothing but its folder can be written, and no home is there.
    view = ("nsenter", "-t", str(number), "-m", "--")
    for path, status in ((f"{STATE}/new", 0), ("/etc/new", 1), ("/usr/new", 1), ("/root/new", 1)):
        serving.run(*view, "touch", path, status=status)
    assert serving.run(*view, "ls", "/home", "/root", status=None).count("\n") <= 3
    # In its cgroup: no packet leaves the machine's loopback.
    serving.run("ip", "link", "add", "line", "type", "veth", "peer", "other")
    serving.run("ip", "address", "add", "10.9.0.1/24", "dev", "line")
    for end in ("line", "other"):
        serving.run("ip", "link", "set", end, "up")
    send = "exec 3<>/dev/udp/10.9.0.2/9 && echo >&3"
    serving.run("bash", "-c", send)
    cgroup = f"echo $$ > /sys/fs/cgroup/system.slice/{NAME}.service/cgroup.procs && {send}"
    assert "Operation not permitted" in serving.run("bash", "-c", cgroup, status=1)


@pytest.mark.parametrize("line, status", (
    ("Environment=PORT=no-port", "2"), ("Environment=COUNT=no-count", "2"),
))
def test_words_that_are_wrong_are_not_tried_again(
    serving: Machine, line: str, status: str
) -> None:
    serving.changed(line)
    serving.run("systemctl", "restart", NAME)
    serving.becomes("failed")
    assert serving.told(NAME, "ExecMainStatus", "NRestarts") == [status, "0"]


def test_a_desk_that_is_in_use_is_tried_until_it_is_free(serving: Machine) -> None:
    serving.run("systemctl", "stop", NAME)
    holds = ["systemd-run", "--unit=holds", f"--uid={NAME}", f"--working-directory={STATE}"]
    serving.run(*holds, "desk", "serve", "desk.db", "8880", "1000")
    serving.becomes("active", unit="holds")
    serving.run("systemctl", "start", NAME)
    serving.becomes("activating")
    serving.run("systemctl", "stop", "holds")
    serving.becomes("active")
    serving.answers(READS)
    assert serving.told(NAME, "ExecMainStatus")[0] == "0"


def test_a_desk_that_hangs_is_ended_and_begins_again(serving: Machine) -> None:
    """By the question of packaging/cluster, which is soon asked, and waits for five seconds."""
    unit = (ROOT / "packaging/cluster/kovelamiru-answers.service").read_text()
    unit = unit.replace("sleep 10", "sleep 1").replace("--max-time 90", "--max-time 5")
    serving.writes("/etc/systemd/system/kovelamiru-answers.service", unit)
    before = serving.number()
    serving.run("kill", "-STOP", str(before))
    serving.run("systemctl", "start", "kovelamiru-answers")
    serving.answers(READS)
    assert serving.number() not in (0, before)


def test_an_upgrade_copies_the_desk_and_it_goes_on_and_a_removal_leaves_it(
    serving: Machine, package: Package
) -> None:
    serving.answers(proposed(1))
    before = serving.number()
    said = serving.installs(package.deb)
    assert f"{COPIES}/" in said
    serving.answers(proposed(1))
    assert serving.number() not in (0, before)
    assert serving.run("ls", COPIES).count("\n") == 0
    copy = serving.run("sh", "-c", f"echo {COPIES}/*/desk.db")
    minutes = serving.run(*AS_DESK, "cat", copy, status=None)
    assert minutes
    serving.run("dpkg", "--no-triggers", "-r", NAME)
    serving.run("dpkg", "--no-triggers", "-P", NAME)
    assert serving.run("systemctl", "is-active", NAME, status=None) == "inactive"
    assert serving.has(f"{STATE}/desk.db") and not serving.has("/usr/bin/desk")
    links = serving.run("sh", "-c", "find /etc/systemd -name 'kovelamiru*.service'")
    assert links == ""


@pytest.mark.if_there("nft", "runuser")
def test_the_firewalls_unit_lets_root_and_the_proxy_connect(serving: Machine) -> None:
    """As *Who may connect* of packaging/README.md has it, also after a restart of the unit. At both
    ports: the second one is that of nginx, by which it counts commands."""
    serving.run("cp", f"/usr/share/doc/{NAME}/examples/desk.nft", f"/etc/{NAME}.nft")
    serving.writes("/etc/nftables.conf", f'flush ruleset\ninclude "/etc/{NAME}.nft"\n')
    counts = ("desk", "serve", f"{STATE}/other.db", "881", "1000")
    serving.run("desk", "init", f"{STATE}/other.db", OWNER)
    serving.run("systemd-run", "--unit=counts", *counts)
    connect = "import socket, sys; socket.create_connection(('127.0.0.1', int(sys.argv[1])), 5)"
    words = ("--", "/usr/bin/python3", "-c", connect)
    for _ in range(2):
        serving.run("systemctl", "enable", "nftables")
        serving.run("systemctl", "reload-or-restart", "nftables")
        for port in ("880", "881"):
            until(30, "it serves", lambda: serving.listens(port))
            for user in ("root", "www-data"):
                serving.run("runuser", "-u", user, *words, port)
            for user in ("nobody", NAME):
                said = serving.run("runuser", "-u", user, *words, port, status=1)
                assert "ConnectionRefusedError" in said
