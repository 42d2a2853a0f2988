"""People and machines with certificates, at the site of nginx-certificates.conf: nginx alone knows
their tokens."""
from __future__ import annotations

import os
import re
import subprocess
from pathlib import Path

import pytest

from checks.proxy.site import AT_ONCE, PEOPLES, Proxied, Site, refusal
from checks.support.images import OWNER, digest
from checks.support.messages import token
from checks.support.says import expect, fail
from checks.support.steps import named
from checks.support.tools import ROOT, ran
from checks.support.waits import until

NAMES = ("olga", "otto")
MOST_IMAGE = 134_217_728


def line(name: str, text: str) -> tuple[str, str]:
    return f"CN={name},O=Example", text


@pytest.fixture
def people(proxied: Proxied) -> Site:
    """olga and otto are in the list; so is no machine."""
    site = proxied(sites=("nginx-certificates.conf",), people="")
    site.lists("people", *(line(one, token(one)) for one in NAMES))
    site.nginx.reload()
    return site


def test_who_is_in_the_list_comes_in(people: Site) -> None:
    """And nobody else: with a certificate of another authority, with none, or out of the list."""
    found = [people.show(one, "/level").status for one in ("olga", "otto", "stan", "forger")]
    assert found == [200, 200, 403, 400]
    before, longest = people.kept(), people.of_size("longest", MOST_IMAGE)
    words = (*AT_ONCE, "--data-binary", longest)
    url = f"https://{PEOPLES}:{people.nginx.own}/verdict"
    by = ("-H", f"Desk-Token: {token('olga')}")
    assert people.sent(url, *by, *words, ca="people.pem").status == 400
    assert people.show("stan", "/verdict", *words).status == 403
    expect(people.kept(), before, "the time of the last file of a body")


def test_the_page_is_there_without_a_token(people: Site) -> None:
    page = people.show("olga", "/")
    expect(page[:2], (200, (ROOT / "page" / "index.html").read_bytes()), "the page")
    assert re.search("(?m)^Content-Security-Policy: default-src 'none';", page.fields)
    report = people.show("olga", "/report")
    assert report.status == 200, report
    for one in (page, report):
        one.strictly()
    assert people.show("stan", "/").status == 403


def test_a_page_of_another_origin_can_send_no_command(people: Site) -> None:
    """A browser sends her certificate for any page that she looks at."""
    body = named(digest("aa")).decode()
    expect(people.show("olga", "/dbx/digests", "-d", body)[:2], refusal(51), "no key")
    asks = {
        "Origin": "https://example.net", "Access-Control-Request-Method": "POST",
        "Access-Control-Request-Headers": "desk-key",
    }
    words = [word for name, text in asks.items() for word in ("-H", f"{name}: {text}")]
    found = people.show("olga", "/dbx/digests", "-X", "OPTIONS", *words)
    expect(found[:2], refusal(54), "a preflight")


def test_a_page_of_another_site_is_told_nothing(people: Site) -> None:
    """By no script, frame, picture or request; a link leads to the page."""
    def found(path: str, site: str, what: str) -> int:
        fields = ("-H", f"Sec-Fetch-Site: {site}", "-H", f"Sec-Fetch-Dest: {what}")
        return people.show("olga", path, *fields).status

    for site in ("cross-site", "same-site"):
        for path in ("/level", "/proposals/1", "/", "/page/main.js"):
            for what in ("script", "empty", "iframe", "image"):
                assert found(path, site, what) == 403, (path, site, what)
        assert (found("/", site, "document"), found("/level", site, "document")) == (200, 403)
    for site in ("same-origin", "none"):
        assert (found("/", site, "document"), found("/level", site, "empty")) == (200, 200)


def test_a_token_has_no_effect_beside_a_certificate(people: Site) -> None:
    """However its field is written; and the log has the certificate."""
    fields = ("Desk-Token", "desk-token", "DESK-TOKEN", "Desk_Token")
    for number, field in enumerate(fields, 1):
        forged, body = f"{field}: {token('otto')}", named(f"{number:064}")
        people.accepts(
            "olga", f"forged-{number}", "/dbx/digests", body,
            {"proposal": number, "reply": "proposed"}, "-H", forged, "-H", forged, by="certificate"
        )
        assert b'"officer":"olga"' in people.show("otto", f"/proposals/{number}").body
    forged = f"Desk-Token: {token('otto')}"
    own = people.post("olga", "f", "/proposals/1/confirm", b"", "-H", forged, by="certificate")
    expect(own[:2], refusal(38), "a Confirm of one's own")
    assert people.post("otto", "of-otto", "/proposals/1/confirm", b"", by="certificate")[0] == 200
    minutes = people.minutes().decode()
    assert len(re.findall(r"\tolga\tforged-[1-4]\t.*\tproposed [1-4]\n", minutes)) == 4
    wanted = r' 127\.0\.0\.1 POST /proposals/1/confirm 200 [0-9.]* "of-otto" "CN=otto,O=Example"\n'
    # (nginx writes its line after the answer)
    until(20, wanted, lambda: re.search(wanted, people.nginx.log), lambda: people.nginx.log)


def test_a_person_gets_another_token_and_is_taken_out(people: Site) -> None:
    people.lists("people", line("olga", token("olga-2")))
    people.nginx.reload()
    body = named(digest("aa"))
    assert people.post("olga", "of-olga-2", "/dbx/digests", body, by="certificate").status == 200
    assert b"\tolga-2\tof-olga-2\t" in people.minutes()
    assert people.show("otto", "/level").status == 403
    people.lists("people", *(line(one, token(one)) for one in NAMES))
    people.nginx.reload()
    assert people.show("otto", "/level").status == 200


# ---- one who is revoked, and a session of before


def session(site: Site, who: str, version: str, port: int, *words: str | Path) -> int:
    """The status of the level in this version of TLS, by a session that is kept or resumed."""
    asked = [
        "openssl", "s_client", "-quiet", f"-{version}", "-connect", f"127.0.0.1:{port}",
        "-servername", PEOPLES, "-CAfile", "people.pem", "-cert", f"{who}.pem", "-key",
        f"{who}.key", *words,
    ]
    given = f"GET /level HTTP/1.1\r\nHost: {PEOPLES}\r\nConnection: close\r\n\r\n".encode()
    done = subprocess.run(
        asked, cwd=site.room, input=given, capture_output=True, timeout=60, check=False
    )
    found = re.match(rb"HTTP/1.1 (\d+)", done.stdout)
    if not found:
        fail(f"{asked}: {done}")
    return int(found[1])


def kept(site: Site, version: str) -> list[str | Path]:
    """The words that resume a session; before TLS 1.3 one takes a number that nginx gives."""
    at = site.room / f"session.{version}"
    has = at.exists() and at.stat().st_size > 0
    assert has or version == "tls1_2", f"no session of {version}"
    return ["-sess_in", at] if has else []


def test_one_who_is_revoked_comes_in_by_no_session(people: Site) -> None:
    own, versions = people.nginx.own, ("tls1_2", "tls1_3")
    for version in versions:
        assert session(people, "otto", version, own, "-sess_out", f"session.{version}") == 200
        kept(people, version)
    for words in (["-revoke", "otto.pem"], ["-gencrl", "-out", "ca.crl"]):
        ran("openssl", "ca", "-config", "ca.conf", *words, cwd=people.room)
    people.nginx.reload()
    assert people.show("otto", "/level").status == 400
    assert people.show("olga", "/level").status == 200
    for version in versions:
        assert session(people, "otto", version, own, *kept(people, version)) == 400


def test_where_another_site_keeps_sessions_one_that_is_resumed_is_refused(people: Site) -> None:
    """The first site of a port keeps those of all."""
    port, own = people.nginx.port, people.nginx.own
    site = people.room / "site-nginx-certificates.conf"
    made = site.read_text().replace(f"127.0.0.1:{own} ssl;", f"127.0.0.1:{port} ssl;")
    site.unlink()
    (people.room / "site-people.conf").write_text(made)
    people.nginx.reload()
    assert session(people, "olga", "tls1_3", port, "-sess_out", "session.tls1_3") == 200
    assert session(people, "olga", "tls1_3", port, *kept(people, "tls1_3")) == 403


# ---- a machine that reads


@pytest.fixture
def machine(people: Site) -> Site:
    """robot is a machine, with oscar's token, which only nginx has."""
    assert people.show("robot", "/level").status == 403, "a machine that isn't in the list"
    people.lists("machines", line("robot", token("oscar")))
    people.nginx.reload()
    return people


OTHERS = (
    "/ /page/index.html /report /people /requests /requests/1 /proposals /proposals/1"
    " /proposals/1/impact /minutes/0 /minutes/1/ /level/ /level? //level /%6Cevel"
    " /minutes/../report /known-caller"
).split()


def test_a_machine_reads_what_is_published_and_nothing_else(machine: Site) -> None:
    for path in ("/level", "/dbx", "/db", "/minutes/1", "/minutes/12"):
        assert machine.show("robot", path).status == 200, path
    before, longest = machine.kept(), machine.of_size("longest", MOST_IMAGE)
    for path in OTHERS:
        found = machine.show("robot", path, "--path-as-is", "-H", f"Desk-Token: {token('olga')}")
        assert found.status == 403, (path, found)
    assert machine.show("robot", "/level", "-I").status == 403
    for path in ("/dbx/digests", "/level", "/db/digests", "/verdict"):
        words = (*AT_ONCE, "-H", "Desk-Key: k", "--data-binary", longest)
        assert machine.show("robot", path, *words).status == 403, path
    expect(machine.kept(), before, "the time of the last file of a body")


def test_a_closed_site_for_people_answers_machines_alone(machine: Site) -> None:
    """A machine reads what it read before: a standby follows to the last call."""
    (machine.room / "kovelamiru-people.closed").touch()
    before, longest = machine.kept(), machine.of_size("longest", MOST_IMAGE)
    for path in ("/level", "/dbx", "/minutes/1", "/", "/page/main.js"):
        assert machine.show("olga", path).status == 503, path
        assert machine.show("stan", path).status == 403, path
    for who, status in (("olga", 503), ("robot", 403)):
        words = (*AT_ONCE, "-H", "Desk-Key: k", "--data-binary", longest)
        assert machine.show(who, "/dbx/digests", *words).status == status, who
    expect(machine.kept(), before, "the time of the last file of a body")
    for path in OTHERS:
        assert machine.show("robot", path, "--path-as-is").status == 403, path
    said = f"^calls {machine.minutes().count(10)}$"
    read_by(machine, 0, said, *FOLLOWS, "--program", machine.desk.path)


def test_a_backup_of_the_machines_is_not_read(machine: Site) -> None:
    at = machine.room / "kovelamiru-desk.machines"
    at.rename(machine.room / "kovelamiru-desk.machines.bak")
    machine.nginx.reload()
    assert machine.show("robot", "/level").status == 403


def read_by(site: Site, status: int, says: str, *words: str | Path) -> None:
    """A program that reads the desk by the machine's certificate ends so, and says this."""
    asked = [ROOT / "packaging" / words[0], *words[1:], "--owner", OWNER, "--url"]
    asked += [f"https://127.0.0.1:{site.nginx.own}", "--ca", "people.pem", "--cert", "robot.pem"]
    done = subprocess.run(
        [*map(str, asked), "--cert-key", "robot.key"], cwd=site.room, stdout=subprocess.PIPE,
        stderr=subprocess.STDOUT, text=True, timeout=300, check=False,
    )
    if done.returncode != status or not re.search(says, done.stdout, re.M):
        fail(f"{asked}: wanted {status} {says}, came {done.returncode} {done.stdout}")


def test_desk_publish_reads_by_it(machine: Site) -> None:
    program = machine.desk.path
    read_by(machine, 0, "published", "desk-publish", "published", "--first", "--program", program)
    minutes = (machine.room / "published" / "minutes.txt").read_bytes()
    expect(minutes, machine.minutes(), "the minutes that it published")


FOLLOWS = ("desk-standby", "copy.db", "copied")


def test_desk_standby_reads_by_it(machine: Site) -> None:
    """A run that was stopped within a line is gone on with."""
    copied, minutes = machine.room / "copied", machine.minutes()
    said = f"^calls {minutes.count(10)}$"
    for begun in (b"", minutes[:700], minutes):
        copied.write_bytes(begun)
        read_by(machine, 0, said, *FOLLOWS, "--program", machine.desk.path)
        expect(copied.read_bytes(), minutes, f"the minutes behind {len(begun)} bytes")


def test_desk_standby_tells_a_fault_from_a_refusal(machine: Site) -> None:
    copied, killed = machine.room / "copied", machine.room / "killed"
    killed.write_text("#!/bin/sh\nkill -9 $$\n")
    killed.chmod(0o755)
    read_by(machine, 3, "^desk-standby: .* signal 9 ended it$", *FOLLOWS, "--program", killed)
    lines = machine.minutes().splitlines(keepends=True)
    other = b"".join([*lines[:2], lines[2][:-1] + b" \n", b"4"])
    copied.write_bytes(other)
    says = "^desk-standby: refused minutes: line 3 of copied isn't the desk's"
    read_by(machine, 1, says, *FOLLOWS, "--program", "true")
    expect(copied.read_bytes(), other, "the minutes of another desk")
    machine.lists("machines")
    machine.nginx.reload()
    says = "^desk-standby: GET /minutes/1: 403, Forbidden$"
    read_by(machine, 3, says, *FOLLOWS, "--program", "true")
    os.chmod(machine.room / "robot.key", 0o644)
    says = "^desk-standby: others can read the private key robot.key: chmod 600$"
    read_by(machine, 2, says, *FOLLOWS, "--program", "true")
