"""nginx with the sites of packaging/, unchanged but for ports, certificates and folders."""
from __future__ import annotations

import contextlib
import os
import re
import subprocess
import time
from pathlib import Path
from typing import Sequence

from checks.support.ports import Held, listens
from checks.support.says import fail
from checks.support.tools import ROOT, end_with_parent, needs, ran
from checks.support.waits import until

SITE = "desk.example.org"
# What stands once in a site of packaging/, and is put elsewhere for checks.
PLACES = {
    name: (
        f"listen {port} ssl;", f"/etc/ssl/certs/{whose}{SITE}.pem;",
        f"/etc/ssl/private/{whose}{SITE}.key;", "root /usr/share/kovelamiru-desk;",
        "include /usr/share/kovelamiru-desk/nginx-desk.conf;",
        "/var/log/nginx/kovelamiru-desk.log ", *more,
    )
    for name, port, whose, more in (
        ("nginx.conf", 443, "", (
            "server 127.0.0.1:880;", "server 127.0.0.1:881;", "listen 127.0.0.1:881;",
            "include /etc/nginx/kovelamiru-desk.leake[d];",
            "-e /etc/nginx/kovelamiru-desk.closed)",
        )),
        ("nginx-certificates.conf", 8443, "people.", (
            "/etc/ssl/certs/kovelamiru-desk-people.pem;",
            "/etc/ssl/certs/kovelamiru-desk-people.crl;",
            "include /etc/nginx/kovelamiru-desk.people;",
            "include /etc/nginx/kovelamiru-desk.machine[s];",
            "-e /etc/nginx/kovelamiru-people.closed)",
        )),
        ("nginx-maintenance.conf", 8444, "", ()),
    )
}


def make_certificate(room: Path) -> None:
    """The site's certificate and key: site.pem and site.key."""
    if not (room / "site.pem").exists():
        ran(
            "openssl", "req", "-x509", "-newkey", "ec", "-pkeyopt", "ec_paramgen_curve:prime256v1",
            "-nodes", "-days", "2", "-subj", f"/CN={SITE}", "-addext", f"subjectAltName=DNS:{SITE}",
            "-keyout", room / "site.key", "-out", room / "site.pem",
        )


class Nginx:
    """nginx before a desk's port. `tls` keeps the packaged TLS; without, the site listens in plain
    HTTP, for browsers. `port` is that of the site (443), `own` and `back` those of 8443 and 8444,
    `counted` that of 881."""

    def __init__(
        self, room: Path, desk_port: int, sites: Sequence[str] = ("nginx.conf",), tls: bool = False,
        more: str = "",
    ) -> None:
        needs("nginx", *(["openssl"] if tls else []))
        self.room, self.desk_port, self.more = room, desk_port, more
        self.sites, self.tls = sites, tls
        self.room.mkdir(parents=True, exist_ok=True)
        self.held = [Held() for _ in range(4)]
        self.port, self.own, self.back, self.counted = (one.port for one in self.held)
        self.process: subprocess.Popen[bytes] | None = None

    def __enter__(self) -> Nginx:
        self.start()
        return self

    def __exit__(self, *_: object) -> None:
        self.stop()
        for one in self.held:
            one.let_go()

    @property
    def base(self) -> str:
        return f"https://{SITE}:{self.port}" if self.tls else f"http://127.0.0.1:{self.port}"

    @property
    def log(self) -> str:
        """What nginx wrote of requests."""
        file = self.room / "kovelamiru-desk.log"
        return file.read_text() if file.exists() else ""

    @property
    def errors(self) -> str:
        file = self.room / "error.log"
        return file.read_text() if file.exists() else ""

    def site(self, name: str) -> str:
        """A site of packaging/, with this room's ports, files and folders."""
        site = (ROOT / "packaging" / name).read_text()
        site = re.sub(r"(?m)^ *#.*\n", "", site)
        for place in PLACES[name]:
            if site.count(place) != 1:
                fail(f"packaging/{name} has no place for {place}, or two")
        site = re.sub(r"(?m)^ *listen \[::\]:\d+.*\n", "", site)
        for port, here in ((880, self.desk_port), (881, self.counted)):
            site = site.replace(f"127.0.0.1:{port};", f"127.0.0.1:{here};")
        if not self.tls:
            site = re.sub(r"(?m)^ *ssl_.*\n", "", site).replace(" ssl;", ";")
        # (the system keeps so little of a response on its way to a peer that nginx has to)
        kept = " ssl sndbuf=65536" if self.tls else ""
        site = re.sub(r"listen 443[^;]*;", f"listen 127.0.0.1:{self.port}{kept};", site)
        for port, own in ((8443, self.own), (8444, self.back)):
            site = site.replace(f"listen {port}", f"listen 127.0.0.1:{own}")
        for theirs, ours in {
            f"/etc/ssl/certs/{SITE}.pem": "site.pem", f"/etc/ssl/private/{SITE}.key": "site.key",
            f"/etc/ssl/certs/people.{SITE}.pem": "people.pem",
            f"/etc/ssl/private/people.{SITE}.key": "people.key",
            "/etc/ssl/certs/kovelamiru-desk-people.pem": "ca.pem",
            "/etc/ssl/certs/kovelamiru-desk-people.crl": "ca.crl",
            "/etc/nginx/": "", "/var/log/nginx/": "",
        }.items():
            site = site.replace(theirs, f"{self.room}/{ours}")
        site = site.replace("root /usr/share/kovelamiru-desk;", f"root {ROOT};")
        site = site.replace("include /usr/share/kovelamiru-desk/", f"include {ROOT}/packaging/")
        if re.search(r"/etc/|/usr/share/", site.replace(str(ROOT), "")):
            fail(f"packaging/{name} has other files than this knows:\n{site}")
        return site

    def write(self) -> None:
        if self.tls:
            make_certificate(self.room)
        for name in self.sites:
            (self.room / f"site-{name}").write_text(self.site(name))
        user = "user root root;\n" if os.geteuid() == 0 else ""
        kinds = ("client_body", "proxy", "fastcgi", "uwsgi", "scgi")
        paths = "".join(f"{kind}_temp_path {self.room}/{kind};\n" for kind in kinds)
        (self.room / "nginx.conf").write_text(
            f"{user}daemon off;\nworker_processes 2;\npid {self.room}/nginx.pid;\n"
            f"error_log {self.room}/error.log warn;\nevents {{ worker_connections 512; }}\n"
            f"http {{\naccess_log {self.room}/access.log;\n{self.more}\n{paths}"
            f"include {self.room}/site-*.conf;\n}}\n"
        )

    def start(self) -> None:
        """Always at the same port."""
        self.write()
        words = ["nginx", "-p", f"{self.room}/", "-e", f"{self.room}/error.log", "-c", "nginx.conf"]
        begun = subprocess.Popen(words, stderr=subprocess.PIPE, preexec_fn=end_with_parent)
        self.process = begun
        until = time.monotonic() + 60
        while not listens(begun.pid, self.port):
            if begun.poll() is not None or time.monotonic() > until:
                _, said = begun.communicate()
                fail(f"nginx: status {begun.returncode}, {said.decode()} {self.errors[-1000:]}")
            time.sleep(0.01)

    def stop(self) -> None:
        if self.process:
            self.process.terminate()
            with contextlib.suppress(subprocess.TimeoutExpired):
                self.process.wait(20)
            self.process.kill()
            self.process.communicate()
            self.process = None

    def workers(self) -> set[str]:
        """The processes that answer."""
        assert self.process
        number = self.process.pid
        return set(Path(f"/proc/{number}/task/{number}/children").read_text().split())

    def reload(self) -> None:
        """nginx reads its files anew, as they are written now; none of the workers of before is
        left."""
        before = self.workers()
        ran("nginx", "-s", "reload", "-p", f"{self.room}/", "-e", f"{self.room}/error.log", "-c",
            "nginx.conf")
        until(30, "nginx reads anew", lambda: not before & self.workers(), self.workers)
