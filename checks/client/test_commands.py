"""A day by deskctl, directly and behind nginx with TLS, leaves the minutes of the same day by plain
requests, but for keys. What is shown; what people see at a terminal."""
from __future__ import annotations

import os
import threading
from pathlib import Path
from typing import Any, Callable, Iterator, Mapping

import pytest

from checks.conftest import NewDesk
from checks.support.certificates import authority, issued, revoked_none
from checks.support.client_day import BY_DESKCTL, BY_REQUESTS, SIGNED, TBS
from checks.support.deskctl import Office, Person, without_keys
from checks.support.images import PLAIN, digest, sha256
from checks.support.messages import token
from checks.support.nginx import Nginx
from checks.support.program import Program
from checks.support.says import expect
from checks.support.server import Server

SITES = ("nginx.conf", "nginx-certificates.conf")


def by_deskctl(people: Mapping[str, Person]) -> None:
    for name, line, status, out, err in BY_DESKCTL:
        people[name].ends(status, line, *err, out=out)


@pytest.fixture
def plain_minutes(desk: Program, new_desk: NewDesk) -> list[list[str]]:
    """The minutes that the day by plain requests leaves."""
    path = new_desk("plain.db")
    with Server(desk, path) as server:
        for name, route, body, fields in BY_REQUESTS:
            server.does(name, route, body, *fields)
    return without_keys(desk.minutes(path))


def below(process: int) -> Iterator[int]:
    """The processes that this one began, and theirs."""
    for task in Path(f"/proc/{process}/task").iterdir():
        for child in map(int, (task / "children").read_text().split()):
            yield child
            yield from below(child)


class Watch:
    """Looks for a token in the command line and the environment of each process below this one."""

    def __init__(self) -> None:
        self.found: list[bytes] = []
        self.looks, self.ended = 0, threading.Event()
        self.thread = threading.Thread(target=self.look, daemon=True)

    def look(self) -> None:
        while not self.ended.wait(0.05):
            try:
                for child in below(os.getpid()):
                    for what in ("cmdline", "environ"):
                        data = Path(f"/proc/{child}/{what}").read_bytes()
                        self.looks += 1
                        self.found += [data[:200]] if token("").encode() in data else []
            except OSError:
                pass  # (a process that ended meanwhile)

    def __enter__(self) -> None:
        self.thread.start()

    def __exit__(self, *_: object) -> None:
        self.ended.set()
        self.thread.join()
        expect((self.found, self.looks > 0), ([], True), "tokens in the list of processes")


def reads(office: Office, people: Mapping[str, Person]) -> None:
    """What is shown after the day, whole and binary, and the desk's own JSON."""
    olga, ann = people["olga"], people["ann"]
    copied = office.desk.copied(office.server.desk, "read.db")
    for what in ("dbx", "db", "level"):
        export = office.desk.gives(what, copied)
        olga.does(f"get {what} -o got", err=[sha256(export)])
        expect((office.desk.room / "got").read_bytes(), export, f"get {what} -o FILE")
        expect(olga.start(f"get {what}").communicate()[0], export, f"get {what}")
    rows = [line.split("\t") for line in olga.does("requests").splitlines()]
    expect([(row[0], row[1], row[2], row[5]) for row in rows], [
        ("1", "signed", "ann", "a signed loader"), ("2", "withdrawn", "rita", "withdrawn"),
        ("3", "rejected", "ann", "rejected"),
    ], "requests")
    expect(rows[0][3:5], ["raul:yes rita:yes", sha256(SIGNED)], "a request's votes and its file")
    signed = [one["number"] for one in olga.json("requests --state signed")]
    expect((signed, len(ann.json("requests"))), ([1], 2), "requests --state, --json")
    ann.env["DESK_NAME"] = "rita"
    mine = [who.does(f"requests --mine{more}").count("\n")
            for who, more in ((ann, ""), (olga, " --name ann"), (olga, ""))]
    expect(mine, [0, 2, 0], "requests --mine")
    olga.does("request 1", f"carried     {TBS}", "state       signed (done)",
              "vote        rita yes  read it")
    ann.ends(1, "request 2", "refused 23 NoSuchRequest", "deskctl requests")
    states = [row.split("\t")[1] for row in olga.does("proposals").splitlines()]
    expect(states, ["confirmed", "dropped", *["confirmed"] * 4, "dropped"], "proposals")
    expect(len(olga.json("proposals --state dropped")), 2, "proposals --state")
    olga.does("report", "revoked digests")
    expect(olga.json("me"), {"name": "olga", "role": "officer"}, "me as JSON")
    olga.does("pending")


@pytest.mark.long(40)
def test_a_day_has_the_minutes_of_plain_requests(
    office: Office, plain_minutes: list[list[str]]
) -> None:
    with Watch():
        by_deskctl(office.people)
    expect(without_keys(office.minutes()), plain_minutes, "the minutes of a day by deskctl")
    reads(office, office.people)
    at_terminals(office)


def at_terminals(office: Office) -> None:
    """A table fits the terminal; bytes don't go to one; a long upload shows how far it is."""
    olga, ann = office["olga"], office["ann"]
    for columns, has_file in ((200, True), (76, False), (50, False)):
        status, said = olga.asked("requests", size=(20, columns))
        lines = said.splitlines()
        assert (status, lines[0][:6]) == (0, "NUMBER") and max(map(len, lines)) <= columns, said
        assert (sha256(SIGNED)[:12] in said) == has_file, said
    status, said = olga.asked("get dbx")
    assert status == 2 and "-o FILE" in said, said
    status, said = olga.asked("token")
    assert status == 2 and "desk_" not in said, said
    office.file("long.efi", PLAIN + bytes(3 << 20))
    status, said = ann.asked("verdict long.efi", size=(20, 200))
    assert status == 4 and "100 % of 3.0 MiB" in said, said


@pytest.fixture
def proxied(office: Office, nginx: Callable[..., Nginx]) -> Nginx:
    """The sites of packaging before the desk: one for tokens, one for olga's certificate."""
    folder = office.desk.room / "nginx0"
    folder.mkdir()
    authority(folder)
    for name in ("site", "people"):
        issued(folder, name, "/CN=localhost", "DNS:localhost,IP:127.0.0.1")
    for name in ("olga", "ann"):
        issued(folder, name)
    revoked_none(folder)
    known = f'"~^\\QCN=olga\\E$" "{token("olga")}";\n'
    (folder / "kovelamiru-desk.people").write_text(known, encoding="ascii")
    return nginx(office.server.port, sites=SITES, tls=True)


@pytest.mark.needs("nginx", "openssl")
@pytest.mark.long(60)
def test_a_day_behind_nginx_has_the_same(
    office: Office, proxied: Nginx, plain_minutes: list[list[str]]
) -> None:
    ca = str(proxied.room / "ca.pem")
    people = office.people_at(f"https://127.0.0.1:{proxied.port}", "tls", DESK_CA=ca)
    by_deskctl(people)
    expect(without_keys(office.minutes()), plain_minutes, "the minutes of a day behind nginx")
    reads(office, people)
    del people["ann"].env["DESK_CA"]
    people["ann"].ends(3, "requests", "isn't trusted", "--ca FILE")
    without_tokens(proxied)


def without_tokens(proxied: Nginx) -> None:
    for log in proxied.room.glob("*.log"):
        assert token("") not in log.read_text(), f"a token stands in nginx's {log.name}"


@pytest.mark.needs("nginx", "openssl")
def test_a_client_certificate_takes_the_tokens_place(office: Office, proxied: Nginx) -> None:
    url, folder = f"https://127.0.0.1:{proxied.own}", proxied.room
    trusted = {"DESK_CA": str(folder / "ca.pem")}
    olga = office.person("olga", url, "certified", **trusted)
    del olga.env["DESK_TOKEN_FILE"]
    olga.ends(2, "report", "no token is given", "--cert")
    words = f"--cert {folder}/olga.pem --key {folder}/olga.key"
    olga.does(f"report {words}", "revoked digests")
    olga.does(f"revoke --digest {digest('77')} {words}", "proposed")
    ann = office.person("ann", url, "certified", **trusted)
    ann.ends(1, "requests", "refused by the proxy: 400", "client certificate")
    words = f"--cert {folder}/ann.pem --key {folder}/ann.key"
    ann.ends(1, f"requests {words}", "refused by the proxy: 403")


@pytest.mark.needs("nginx", "openssl")
def test_a_wrong_token_is_told_and_a_desk_that_is_down_is_a_lost_answer(
    office: Office, proxied: Nginx
) -> None:
    """Of an image of 4 MiB the wrong token is told ten times of ten."""
    settings: dict[str, Any] = {"DESK_CA": str(proxied.room / "ca.pem")}
    people = office.people_at(f"https://127.0.0.1:{proxied.port}", "wrong", **settings)
    office.file("large.efi", PLAIN + bytes(4 << 20))
    people["ann"].holds("nobody-has-this-token")
    for _ in range(10):
        people["ann"].ends(1, "submit large.efi --title large", "refused 20 UnknownCaller")
    office.server.kill()
    people["olga"].ends(3, f"revoke --digest {digest('78')} --retries 0", "502")
    people["olga"].ends(3, "report --retries 1", "502", "again in")
    without_tokens(proxied)
