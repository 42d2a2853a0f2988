"""The files of packaging/cluster, as the tools that they are for read them: no machine is built."""
from __future__ import annotations

import os
import re
import subprocess
import xml.etree.ElementTree as ET
from pathlib import Path

import pytest

from checks.support.tools import ROOT, ran
from checks.support.typed import commands

CLUSTER = ROOT / "packaging/cluster"
# (Debian 12's kernel has DRBD 8.4)
DRBDADM = "/usr/lib/drbd/drbdadm-84"


def test_each_line_of_the_page_is_one_of_bash_and_its_files_are_there() -> None:
    page = (CLUSTER / "README.md").read_text()
    typed = commands(page)
    assert {one.who for one in typed} == {"a", "b", "both", "q"}
    for one in typed:
        ran("bash", "-n", given=one.text.encode())
    there = {path.name for path in CLUSTER.iterdir()} - {"README.md"}
    named = {path.name for one in re.findall(r"(?m)^\| `([^`]+)`", page)
             for path in CLUSTER.glob(one)}
    assert named == there


@pytest.mark.if_there("corosync")
def test_corosync_takes_its_file(room: Path) -> None:
    """As on a, which finds itself by its name, with a key."""
    (room / "key").write_bytes(os.urandom(256))
    (room / "key").chmod(0o400)
    text = (CLUSTER / "corosync.conf").read_text()
    text = text.replace("name: a\n", f"name: {os.uname().nodename}\n")
    own = text.replace("totem {\n", f"totem {{\n    keyfile: {room}/key\n")
    (room / "corosync.conf").write_text(own)
    ran("corosync", "-c", room / "corosync.conf", "-t")
    assert "two_node" not in text, "beside a device two machines have no special rule"


@pytest.mark.if_there(DRBDADM)
def test_drbd_writes_to_both_disks_or_fences() -> None:
    said = ran(DRBDADM, "-c", CLUSTER / "desk.res", "dump").decode()
    rows = dict(line.strip(" ;").split(maxsplit=1) for line in said.splitlines() if ";" in line)
    assert (rows["protocol"], rows["fencing"]) == ("C", "resource-and-stonith")
    assert [one for one in re.findall("/usr/lib/drbd/[^;]+", said) if not Path(one).exists()] == []


@pytest.fixture
def cib(room: Path) -> Path:
    """What crm makes of desk.crm, as of a cluster that sbd watches."""
    made = room / "cib.xml"
    made.write_bytes(ran("cibadmin", "--empty"))
    loads = ("load", "update", str(CLUSTER / "desk.crm"))
    for words in (loads, ("property", "have-watchdog=true")):
        done = subprocess.run(["crm", "--force", "configure", *words], check=False, text=True,
                              capture_output=True, timeout=120,
                              env={**os.environ, "CIB_file": str(made), "HOME": str(room)})
        assert done.returncode == 0, done.stderr
        # (this machine's systemd may not run)
        odd = re.findall("(?m)^.*ERROR.*$", re.sub("(?m)^.*systemd:.*$", "", done.stderr))
        assert not [one for one in odd if "STONITH" not in one and "crm_verify" not in one], odd
    ran("crm_verify", "-x", made, "-V")
    return made


@pytest.mark.if_there("crm", "crm_verify", "cibadmin")
def test_the_desk_is_behind_its_folder_and_in_front_of_its_address(cib: Path) -> None:
    found = ET.parse(cib).getroot()
    group = [one.get("id") for one in found.findall(".//group/primitive")]
    assert group == ["files", "folder", "desk", "nginx", "address"]
    beside = found.find("*//rsc_colocation")
    assert beside is not None
    assert [beside.get(key) for key in ("score", "rsc", "with-rsc", "with-rsc-role")] == [
        "INFINITY", "service", "disks", "Promoted"]
    folder = found.find(".//primitive[@id='folder']//nvpair[@name='directory']")
    assert folder is not None and folder.get("value") == "/var/lib/kovelamiru-desk"
    unit = (ROOT / "packaging/kovelamiru-desk.service").read_text()
    assert "StateDirectory=kovelamiru-desk\n" in unit
    units = {one.get("type") for one in found.iter("primitive") if one.get("class") == "systemd"}
    assert units == {"kovelamiru-desk", "nginx"}


# ---- what the cluster would do, by its own scheduler

NODE = """<node_state id="{0}" uname="{1}" in_ccm="true" crmd="online" join="member"
expected="member"><lrm id="{0}"><lrm_resources/></lrm><transient_attributes id="{0}">
<instance_attributes id="of-{1}"><nvpair id="score-{1}" name="master-disk" value="{2}"/>
</instance_attributes></transient_attributes></node_state>"""


@pytest.fixture
def running(cib: Path) -> Path:
    """All of it runs on a, whose disk is the better one."""
    tree = ET.parse(cib)
    nodes, status = tree.find(".//nodes"), tree.find("status")
    assert nodes is not None and status is not None
    tree.getroot().attrib.update({"dc-uuid": "1", "have-quorum": "1"})
    for number, (name, score) in enumerate((("a", 10000), ("b", 9000)), 1):
        ET.SubElement(nodes, "node", id=str(number), uname=name)
        status.append(ET.fromstring(NODE.format(number, name, score)))
    tree.write(cib)
    did = does(cib, "--quorum=1", "--save-output", cib.with_name("running.xml"))
    assert did[-6:-4] == ["disk promote a", "files start a"], did
    return cib.with_name("running.xml")


def does(cib: Path, *words: str | Path) -> list[str]:
    """What is promoted, started, stopped and fenced, in this order."""
    said = ran("crm_simulate", "-x", cib, "--simulate", *words).decode()
    text = re.sub(r"(?m)^.*\* Fencing (\w+) .*$", r"* Resource action: cluster fence on \1", said)
    found = re.findall(r"Resource action: (\w+)(?::\d)? +(\w+) on (\w+)$", text, re.M)
    return [" ".join(one) for one in found
            if one[0] != "router" and one[1] not in ("monitor", "notify")]


@pytest.mark.if_there("crm", "crm_simulate", "cibadmin")
def test_the_other_machine_serves_once_a_failed_one_is_fenced(running: Path) -> None:
    order = ["files", "folder", "desk", "nginx", "address"]
    starts = [f"{one} start b" for one in order]
    failed = does(running, "--quorum=1", "--node-fail=a")
    assert failed == ["cluster fence a", "disk promote b", *starts]
    alone = does(running, "--quorum=0", "--node-fail=a")
    assert alone == ["disk stop b"]


@pytest.mark.if_there("crm", "crm_simulate", "cibadmin")
def test_it_moves_to_where_people_are_and_stays_where_there_is_nobody(running: Path) -> None:
    for on_a, on_b, end in ((5000, 5000, ""), (0, 0, ""), (0, 5000, "address start b")):
        tree = ET.parse(running)
        for name, reaches in (("a", on_a), ("b", on_b)):
            attributes = tree.find(f".//instance_attributes[@id='of-{name}']")
            assert attributes is not None
            attributes[0].set("value", "10000")
            ET.SubElement(attributes, "nvpair", id=f"{name}-pingd", name="pingd",
                          value=str(reaches))
        tree.write(running.with_name("reaches.xml"))
        did = does(running.with_name("reaches.xml"), "--quorum=1")
        assert "".join(did[-1:]) == end, did


@pytest.mark.if_there("systemd-analyze")
def test_systemd_takes_the_question_which_has_the_desks_port() -> None:
    ran("systemd-analyze", "verify", "--man=no", CLUSTER / "kovelamiru-answers.service")
    unit = (ROOT / "packaging/kovelamiru-desk.service").read_text()
    port = re.findall(r"(?m)^Environment=PORT=(\d+) ", unit)
    asks = (CLUSTER / "kovelamiru-answers.service").read_text()
    assert f"http://127.0.0.1:{port[0]}/level" in asks
