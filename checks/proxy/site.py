"""nginx over TLS before a served desk, and curl as people use it."""
from __future__ import annotations

import subprocess
from concurrent.futures import ThreadPoolExecutor
from pathlib import Path
from typing import Callable, Iterable, NamedTuple, Sequence

from checks.support.images import CERTIFICATE
from checks.support.messages import PEOPLE, got, said, token
from checks.support.nginx import SITE, Nginx
from checks.support.program import Program
from checks.support.says import expect, fail, note, short
from checks.support.server import Server
from checks.support.steps import takes
from checks.support.waits import until
from checks.support.wire import REFUSALS

LEVEL = b"sbat,1,2021030218\n"
STRICT = "Strict-Transport-Security: max-age=63072000"
NOSNIFF = "X-Content-Type-Options: nosniff"
OWN = "Cross-Origin-Resource-Policy: same-origin"
# The body is sent at once, without asking first.
AT_ONCE = ("-H", "Expect:")
PEOPLES = f"people.{SITE}"


def refusal(number: int) -> tuple[int, bytes]:
    """The status and the body of a refusal."""
    name, status = REFUSALS[number]
    return status, said({"name": name, "refused": number})


def with_oscar(program: Program, name: str) -> str:
    """PEOPLE, two officers more, and a listed certificate."""
    path = program.founded(name)
    for one in ("oscar", "olga-2"):
        program.add(path, one, "officer")
    step = takes("olga", "k-listed", "/db/certificates", CERTIFICATE, {"reply": "listed"})
    program.answers(path, step.given, step.due, "a listed certificate")
    return path


class Answer(NamedTuple):
    """A response, or why there was none."""

    status: int
    body: bytes
    fields: str

    def strictly(self) -> None:
        """It forbids HTTP without TLS, and to be a script or a picture of another site."""
        assert {STRICT, NOSNIFF, OWN} <= {*self.fields.splitlines()}, self.fields


class Site:
    """A desk, its server and nginx before it. `room` has the certificates, the lists that nginx
    reads, and its logs."""

    def __init__(self, desk: Program, path: str, server: Server, nginx: Nginx) -> None:
        self.desk, self.path, self.server, self.nginx = desk, path, server, nginx
        self.room, self.asked = nginx.room, 0
        self.statuses: set[int] = set()

    def curl(self, words: Iterable[str | Path], ca: str = "site.pem") -> bytes:
        """What curl writes."""
        asked = ["curl", "-sS", "--no-progress-meter", "--max-time", "120", "--cacert", ca]
        for name, port in (
            (SITE, self.nginx.port), (SITE, self.nginx.back), (PEOPLES, self.nginx.own),
            (PEOPLES, self.nginx.port),
        ):
            asked += ["--resolve", f"{name}:{port}:127.0.0.1"]
        asked += map(str, words)
        done = subprocess.run(
            asked, cwd=self.room, capture_output=True, timeout=150, check=False
        )
        if done.returncode:
            fail(f"{' '.join(asked)}: {done.stderr!r} {self.nginx.errors[-1000:]}")
        return done.stdout

    def sent(self, url: str, *words: str | Path, ca: str = "site.pem") -> Answer:
        """The response to a request with these words of curl."""
        self.asked += 1
        fields, body = (self.room / f"{name}.{self.asked}" for name in ("fields", "body"))
        code = self.curl(["-D", fields, "-o", body, "-w", "%{http_code}", *words, url], ca)
        data = body.read_bytes() if body.exists() else b""
        found = Answer(int(code), data, fields.read_text(encoding="latin-1"))
        note(f"curl {' '.join(map(str, words))} {url}", "", (found.status, short(data, 300)))
        self.statuses.add(found.status)
        return found

    def ask(
        self, who: str | None, path: str, *words: str | Path, port: int | None = None
    ) -> Answer:
        """By somebody's token, or without one."""
        by = [] if who is None else ["-H", f"Desk-Token: {token(who)}"]
        return self.sent(f"https://{SITE}:{port or self.nginx.port}{path}", *by, *words)

    def show(self, who: str, path: str, *words: str | Path) -> Answer:
        """By somebody's certificate."""
        by = ["--cert", f"{who}.pem", "--key", f"{who}.key"]
        url = f"https://{PEOPLES}:{self.nginx.own}{path}"
        return self.sent(url, *by, *words, ca="people.pem")

    def post(
        self, who: str, key: str, path: str, body: bytes, *words: str, by: str = "token"
    ) -> Answer:
        given = self.room / f"given.{self.asked}"
        given.write_bytes(body)
        words = ("-H", f"Desk-Key: {key}", "--data-binary", f"@{given}", *words)
        return self.show(who, path, *words) if by == "certificate" else self.ask(who, path, *words)

    def accepts(
        self, who: str, key: str, path: str, body: bytes, reply: dict[str, object], *words: str,
        by: str = "token"
    ) -> None:
        found = self.post(who, key, path, body, *words, by=by)
        expect(found[:2], (200, said(reply)), f"{who} at {path}")

    def minutes(self) -> bytes:
        """Those of the desk that serves, without nginx."""
        return self.server.ask(got("olga", "/minutes/1")).partition(b"\r\n\r\n")[2]

    # ---- what nginx keeps

    def kept(self) -> int:
        """When nginx made or removed the last file of a body."""
        return (self.room / "client_body").stat().st_mtime_ns

    def of_size(self, name: str, size: int) -> str:
        """curl's word for a body of so many zeros."""
        with open(self.room / name, "wb") as file:
            file.truncate(size)
        return f"@{self.room / name}"

    def lists(self, name: str, *lines: tuple[str, str]) -> None:
        """A list that nginx reads at its next start or reload: patterns and texts."""
        text = "".join(f'"~^\\Q{one}\\E$" "{other}";\n' for one, other in lines)
        (self.room / f"kovelamiru-desk.{name}").write_text(text)

    # ---- many at once

    def flood(self, clients: Sequence[Sequence[str]]) -> dict[int, int]:
        """How many requests of clients beside one another had which status."""
        words = ["-w", "%{http_code}\n"]
        with ThreadPoolExecutor(len(clients)) as pool:
            said_of = list(pool.map(lambda one: self.curl([*words, *one]), clients))
        codes = [int(one) for text in said_of for one in text.split()]
        note(f"{len(clients)} clients, as curl {clients[0]}", "", codes)
        return {code: codes.count(code) for code in set(codes)}


def no_token_is_logged(site: Site, more: Sequence[str] = ()) -> None:
    """Nor one of these texts; the log has each status, if not at once: nginx answers first."""
    for status in site.statuses:
        line = f" {status} "
        until(10, f"{line}in the log", lambda: line in site.nginx.log, lambda: site.nginx.log)
    logs = "".join(one.read_text(encoding="latin-1") for one in site.room.glob("*.log"))
    for text in (*map(token, (*PEOPLE, "oscar", "olga-2")), *more):
        assert text not in logs, f"a token stands in a log: {text}"


Proxied = Callable[..., Site]
