"""A folder that stands for a machine: its desk behind nginx, the people's homes, and programs in
place of the system's. As root each person has an account of their own, that nobody else's files are
open to; so have the desk, its publication and nginx. It is for a process that has its mounts and
its processes to itself: see run.py."""
from __future__ import annotations

import http.client
import os
import pwd
import re
import secrets
import signal
import subprocess
from pathlib import Path
from typing import Any

from checks.runbooks.standins import LISTENS, RUNS_AS, SUPERVISE, SYSTEMCTL
from checks.support.images import OWNER, sha256
from checks.support.ports import Held, listening
from checks.support.says import fail
from checks.support.tools import ROOT
from checks.support.typed import Command, Shell
from checks.support.waits import until

PEOPLE = {
    "ann": "submitter", "rita": "reviewer", "raul": "reviewer", "sid": "signer",
    "olga": "officer", "otto": "officer",
}
# Who has an account: the desk, its publication, people, and somebody who comes later.
DESK, PUBLISH = "kovelamiru-desk", "kovelamiru-publish"
ACCOUNTS = [DESK, PUBLISH, *PEOPLE, "nadia", "rosa"]
FOLDERS = {
    "state": (0o700, DESK), "standby": (0o700, DESK), "publish": (0o755, PUBLISH),
    "witness": (0o755, DESK),
    "root": (0o700, ""), "tmp": (0o1777, ""),
    **dict.fromkeys(
        ("bin", "etc/default", "etc/nginx/sites-enabled", "srv", "home", "nginx", "examples"),
        (0o755, ""),
    ),
}


def accounts(room: Path) -> dict[str, int]:
    """The number of each account, as root: in a passwd that only this process and its children see.
    None, as anybody else."""
    if os.getuid() != 0:
        return {}
    rows, known = Path("/etc/passwd").read_text(), {one.pw_name for one in pwd.getpwall()}
    for number, name in enumerate(ACCOUNTS, 64100):
        if name not in known:
            rows += f"{name}:x:{number}:{number}::/nonexistent:/bin/sh\n"
    (room / "passwd").write_text(rows)
    subprocess.run(["mount", "--bind", str(room / "passwd"), "/etc/passwd"], check=True)
    return {name: pwd.getpwnam(name).pw_uid for name in ACCOUNTS}


def reachable(room: Path) -> Path:
    """The repository where any account gets at it, wherever it lies."""
    if os.getuid() != 0:
        return ROOT
    (room / "repository").mkdir()
    subprocess.run(["mount", "--bind", str(ROOT), str(room / "repository")], check=True)
    return room / "repository"


def replaced(text: str, names: dict[str, str]) -> str:
    """Each of these names by its other one, the longest first."""
    longest = sorted(names, key=len, reverse=True)
    return re.sub("|".join(map(re.escape, longest)), lambda found: names[found[0]], text)


class Machine:
    """`told` is the SHA-256 that somebody read out last; this is the standby of `old`, if it is
    one."""

    def __init__(self, program: Path, room: Path) -> None:
        self.program, self.room = str(program), room / "machine"
        self.users, self.repository = accounts(room), reachable(room)
        self.held = [Held() for _ in range(5)]
        self.port, self.proxy, self.back, self.counted, self.own = (one.port for one in self.held)
        self.shells: dict[str, Shell] = {}
        self.tokens: dict[str, str] = {}
        self.keys, self.told = 0, ""
        self.old: Machine | None = None
        for folder, (mode, name) in FOLDERS.items():
            (self.room / folder).mkdir(parents=True)
            self.owned(self.room / folder, name, mode)
        self.write_scripts()
        # What a page calls a path, and what it is here.
        site, var, own = "https://desk.example.org", "/var/lib/kovelamiru", self.room
        self.paths = {
            site: f"http://127.0.0.1:{self.proxy}", f"{site}:8444": f"http://127.0.0.1:{self.back}",
            f"{var}-desk": f"{own}/state", f"{var}-publish": f"{own}/publish",
            f"{var}-standby": f"{own}/standby", "/var/log/nginx": f"{own}/nginx",
            f"{var}-witness": f"{own}/witness",
            "/usr/share/doc/kovelamiru-desk/examples": f"{own}/examples",
            **{f"/{name}/": f"{own}/{name}/" for name in ("etc", "root", "srv", "tmp")},
        }

    # ---- its programs

    def write_scripts(self) -> None:
        """In place of the system's programs; and the repository's own."""
        own = {"room": self.room, "bin": self.room / "bin", "port": self.port}
        for name, account in (("as_desk", DESK), ("as_publish", PUBLISH)):
            own[name] = RUNS_AS.format(self.users[account]) if self.users else ""
        self.script("systemctl", SYSTEMCTL.format(**own))
        self.script("supervise", SUPERVISE.format(program=self.program, **own))
        self.script("listens", LISTENS)
        change = RUNS_AS.format('"$(id -u "$user")"') if self.users else ""
        self.script("runuser", f'#!/bin/sh\nuser=$2\nshift 3\nexec {change} "$@"\n')
        if not self.users:
            self.script("chown", "#!/bin/sh\n")
        # `journalctl -t PROGRAM -n LINES -o cat`
        self.script("journalctl", f'#!/bin/sh\ntail -n "$4" "{self.room}/journal.$2"\n')
        for path in ("client/deskctl", "packaging/desk-publish", "packaging/desk-standby"):
            (self.room / "bin" / Path(path).name).symlink_to(self.repository / path)
        (self.room / "bin" / "desk").symlink_to(self.program)

    def script(self, name: str, text: str) -> None:
        (self.room / "bin" / name).write_text(text)
        (self.room / "bin" / name).chmod(0o755)

    def owned(self, path: Path, name: str, mode: int) -> Path:
        """The path belongs to this account, or to root."""
        if self.users:
            os.chown(path, *[self.users.get(name, 0)] * 2)
        path.chmod(mode)
        return path

    def writes(self, path: str, data: str | bytes, name: str = "", mode: int = 0o600) -> Path:
        """A file in the room that is this account's, or root's."""
        at = self.room / path
        at.write_bytes(data.encode() if isinstance(data, str) else data)
        return self.owned(at, name, mode)

    def account(self, name: str) -> dict[str, Any]:
        """How a process becomes this account's."""
        number = self.users.get(name)
        if number is None:
            return {}
        return {"user": number, "group": number, "extra_groups": []}

    def run(self, *words: str, given: bytes = b"") -> bytes:
        done = subprocess.run(
            [self.program, *words], cwd=self.room / "state", input=given, capture_output=True,
            timeout=600, check=False, **self.account(DESK),
        )
        if done.returncode:
            fail(f"desk {' '.join(words)}: {done.returncode} {done.stderr.decode()}")
        return bytes(done.stdout)

    def system(self, *words: str) -> None:
        subprocess.run([str(self.room / "bin" / "systemctl"), *words], check=True, timeout=600)

    # ---- its desk

    def make_desk(self) -> None:
        self.run("init", "desk.db", OWNER)
        for name, role in PEOPLE.items():
            self.enrol(name, role)
            self.home(name)
            self.writes(f"home/{name}/desk.token", f"{self.tokens[name]}\n", name)

    def enrol(self, name: str, role: str) -> None:
        """A person with a token of their own, while nobody serves the desk."""
        self.tokens[name] = secrets.token_hex(32)
        hashed = sha256(self.tokens[name].encode()).encode()
        self.run("enrol", "desk.db", name, role, f"enrol-{name}", given=hashed)

    def home(self, name: str) -> Path:
        path = self.room / "home" / name
        if not path.exists():
            path.mkdir()
            self.owned(path, name, 0o700)
        return path

    def asks(
        self, name: str, path: str, body: bytes | None = None, port: int = 0, **fields: str
    ) -> tuple[int, bytes]:
        """What comes of this person's request to the desk itself, or through the proxy's port."""
        given = {field.replace("_", "-"): value for field, value in fields.items()}
        given["Desk-Token"] = self.tokens[name]
        connection = http.client.HTTPConnection("127.0.0.1", port or self.port, timeout=300)
        try:
            connection.request("GET" if body is None else "POST", path, body, given)
            answer = connection.getresponse()
            return answer.status, answer.read()
        finally:
            connection.close()

    def does(self, name: str, path: str, body: bytes, port: int = 0, **fields: str) -> None:
        """This person's command, which the desk accepts."""
        self.keys += 1
        status, said = self.asks(name, path, body, port, Desk_Key=f"key-{self.keys}", **fields)
        if status != 200:
            fail(f"{name} at {path}: {status} {said.decode()}")

    def burn(self) -> None:
        """The desk and whoever starts it again end at once, in the middle of whatever they do."""
        supervisor = int((self.room / "supervise.pid").read_text())
        children = Path(f"/proc/{supervisor}/task/{supervisor}/children").read_text().split()
        for process in (supervisor, *map(int, children)):
            os.kill(process, signal.SIGKILL)
        (self.room / "supervise.pid").unlink()
        until(60, "the desk is gone", lambda: not listening(self.port))

    def moves_out(self) -> Machine:
        """Its desk is another machine's now, which serves it; it has none."""
        self.system("stop", "kovelamiru-desk")
        (self.room.parent / "old").mkdir()
        self.old = old = Machine(Path(self.program), self.room.parent / "old")
        old.tokens, old.keys = self.tokens, self.keys
        for file in (self.room / "state").iterdir():
            old.writes(f"state/{file.name}", file.read_bytes(), DESK)
            file.unlink()
        old.start_proxy()
        old.system("start", "kovelamiru-desk")
        return old

    # ---- nginx

    def site(self, name: str, tls: str = "") -> str:
        """A site of packaging/ at this machine's ports, without its TLS, or with ` ssl`."""
        site = (self.repository / "packaging" / name).read_text()
        for port, here in ((880, self.port), (881, self.counted)):
            site = site.replace(f"127.0.0.1:{port};", f"127.0.0.1:{here};")
        gone = r"^ *listen \[.*\n" if tls else r"^ *(ssl_|listen \[).*\n"
        site = re.sub(gone, "", site, flags=re.M)
        for port, here in ((443, self.proxy), (8444, self.back), (8443, self.own)):
            site = site.replace(f"listen {port} ssl;", f"listen 127.0.0.1:{here}{tls};")
        site = site.replace("include /usr/share/kovelamiru-desk/", f"include {self.room}/nginx/")
        return re.sub("/var/log/nginx|/etc/", lambda found: self.paths[found[0]], site)

    def start_proxy(self) -> None:
        folder = self.room / "nginx"
        part = (self.repository / "packaging/nginx-desk.conf").read_text()
        shown = {path: here for path, here in self.paths.items()
                 if path.endswith(("-witness", "-publish"))}
        (folder / "nginx-desk.conf").write_text(replaced(part, shown))
        (folder / "site.conf").write_text(self.site("nginx.conf"))
        closed = self.room / "examples" / "nginx-maintenance.conf"
        closed.write_text(self.site("nginx-maintenance.conf"))
        kinds = ("client_body", "proxy", "fastcgi", "uwsgi", "scgi")
        temporary = "".join(f"{kind}_temp_path {folder}/{kind}; " for kind in kinds)
        user = "user www-data;" if self.users else ""
        (folder / "nginx.conf").write_text(
            f"{user} daemon off; worker_processes 1; pid {folder}/pid;\n"
            f"error_log {folder}/error.log warn; events {{ worker_connections 256; }}\n"
            f"http {{ access_log off; {temporary}\ninclude {folder}/site.conf;\n"
            f"include {self.room}/etc/nginx/sites-enabled/*; }}\n"
        )
        words = ["nginx", "-p", f"{folder}/", "-e", f"{folder}/error.log", "-c", "nginx.conf"]
        subprocess.Popen(words)
        until(60, "nginx listens", lambda: listening(self.proxy))

    # ---- its shells

    def shell(self, who: str) -> Shell:
        if who not in self.shells:
            home = self.room / "root" if who == "root" else self.home(who)
            given = {
                "HOME": str(home), "PATH": f"{self.room}/bin:{os.environ['PATH']}:/usr/sbin:/sbin",
                "DESK_URL": f"http://127.0.0.1:{self.proxy}", "DESK_NAME": who,
                "DESK_TOKEN_FILE": str(home / "desk.token"), "LC_ALL": "C.UTF-8",
                "TMPDIR": str(self.room / "tmp"),
            }
            script = self.writes(f"typed-{who}", "", who)
            self.shells[who] = Shell(
                home, given, script, stderr=subprocess.STDOUT, umask=0o022, **self.account(who)
            )
        return self.shells[who]

    def typed(self, command: Command) -> list[str]:
        """What comes of a command, as the page would call it."""
        if command.who == "old" and self.old:
            return self.old.typed(command._replace(who="root"))
        here = re.sub(r"\bSHA256\b", self.told, replaced(command.text, self.paths))
        lines = self.shell(command.who).typed(here)
        read_out = [one for one in lines if re.fullmatch("[0-9a-f]{64}", one)]
        self.told = next(iter(read_out), self.told)
        named = {path: name for name, path in self.paths.items()}
        return [replaced(one, named) for one in lines]
