"""Desks behind nginx with TLS, and what each of their tests ends with."""
from __future__ import annotations

import shutil
from pathlib import Path
from typing import Callable, Iterator, Sequence

import pytest

from checks.proxy.site import PEOPLES, Proxied, Site, no_token_is_logged, with_oscar
from checks.support.nginx import Nginx, make_certificate
from checks.support.program import Program, copy_of
from checks.support.server import Server
from checks.support.tools import needs, ran

# Peers of IPv6: whoever comes from 127.0.0.250 is the address that it says.
PEERS = "set_real_ip_from 127.0.0.250; real_ip_header X-Peer;"


@pytest.fixture(scope="session")
def oscar_desk(program_path: Path, session_room: Path) -> str:
    return with_oscar(Program(program_path, session_room), "oscar.db")


@pytest.fixture(scope="session")
def certificates(session_room: Path) -> Path:
    """The site's certificate, that of the site for people, an authority, and its people."""
    needs("curl", "nginx", "openssl")
    room = session_room / "certificates"
    room.mkdir()
    make_certificate(room)
    key = "-newkey ec -pkeyopt ec_paramgen_curve:prime256v1 -nodes".split()

    def made(*words: str) -> None:
        ran("openssl", *words, cwd=room)

    names = f"subjectAltName=DNS:{PEOPLES},IP:127.0.0.1"
    for name, subject in (
        ("people", f"/CN={PEOPLES}"), ("ca", "/O=Example/CN=people"),
        ("forger", "/O=Example/CN=olga"),
    ):
        more = ["-addext", names] if name == "people" else []
        out = ["-keyout", f"{name}.key", "-out", f"{name}.pem"]
        made("req", "-x509", *key, "-days", "2", "-subj", subject, *more, *out)
    for name in ("olga", "otto", "stan", "robot"):
        out = ["-keyout", f"{name}.key", "-out", f"{name}.csr"]
        made("req", *key, "-subj", f"/O=Example/CN={name}", *out)
        by = ["-CA", "ca.pem", "-CAkey", "ca.key", "-CAcreateserial", "-days", "2"]
        made("x509", "-req", "-in", f"{name}.csr", *by, "-out", f"{name}.pem")
    files = {
        "ca.conf": "[ca]\ndefault_ca=people\n[people]\ndatabase=ca.index\ncrlnumber=ca.number\n"
        "certificate=ca.pem\nprivate_key=ca.key\ndefault_md=sha256\ndefault_crl_days=2\n",
        "ca.index": "", "ca.number": "01\n",
    }
    for name, text in files.items():
        (room / name).write_text(text)
    made("ca", "-config", "ca.conf", "-gencrl", "-out", "ca.crl")
    return room


@pytest.fixture
def proxied(
    desk: Program, room: Path, oscar_desk: str, certificates: Path, serve: Callable[..., Server],
    nginx: Callable[..., Nginx]
) -> Iterator[Proxied]:
    """`proxied(COUNT, sites, people, desk)` is a desk behind these sites of packaging/."""
    begun: list[Site] = []

    def proxied(
        count: int = 100_000, sites: Sequence[str] = (), people: str | None = None,
        path: str | None = None
    ) -> Site:
        own = path or copy_of(oscar_desk, room / "desk.db")
        folder = room / "nginx0"
        shutil.copytree(certificates, folder)
        if people is not None:
            (folder / "kovelamiru-desk.people").write_text(people)
        server = serve(own, count)
        proxy = nginx(server.port, sites=("nginx.conf", *sites), tls=True, more=PEERS)
        begun.append(Site(desk, own, server, proxy))
        return begun[-1]

    yield proxied
    for one in begun:
        no_token_is_logged(one)


@pytest.fixture
def site(proxied: Proxied) -> Site:
    """A desk behind packaging/nginx.conf."""
    return proxied()
