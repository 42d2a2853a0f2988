"""A machine that follows another one by its certificate, as *A standby* of packaging/README.md has
it."""
from __future__ import annotations

from pathlib import Path

from checks.runbooks.machine import DESK, Machine
from checks.support.certificates import authority, issued, revoked_none
from checks.support.images import OWNER
from checks.support.tools import ran

SITE = "people.desk.example.org"


def shows(machine: Machine, made: Path) -> None:
    """The site of nginx-certificates.conf, where the standby reads with olga's token."""
    (machine.room / "etc/ssl/private").mkdir(parents=True)
    (machine.room / "etc/ssl/certs").mkdir()
    for name, path in (
        ("people.pem", f"certs/{SITE}.pem"), ("people.key", f"private/{SITE}.key"),
        ("ca.pem", "certs/kovelamiru-desk-people.pem"),
        ("ca.crl", "certs/kovelamiru-desk-people.crl"),
    ):
        machine.writes(f"etc/ssl/{path}", (made / name).read_bytes())
    machine.writes("etc/nginx/kovelamiru-desk.people", "")
    line = '"~^\\QCN=standby,O=Example\\E$" "%s";\n' % machine.tokens["olga"]
    machine.writes("etc/nginx/kovelamiru-desk.machines", line)
    site = machine.site("nginx-certificates.conf", " ssl")
    machine.writes("etc/nginx/sites-enabled/nginx-certificates.conf", site)
    machine.system("reload", "nginx")


def follows(machine: Machine, old: Machine) -> None:
    """A standby and a witness, after two runs."""
    (made := machine.room / "certificates").mkdir()
    authority(made)
    revoked_none(made)
    issued(made, "people", "", "IP:127.0.0.1")
    issued(made, "standby", "/O=Example/CN=standby")
    ran("ssh-keygen", "-q", "-t", "ed25519", "-N", "", "-f", made / "witness")
    shows(old, made)
    for name, path, account, mode in (
        ("ca.pem", "etc/ca.pem", "", 0o644), ("standby.pem", "etc/standby.pem", "", 0o644),
        ("standby.key", "etc/kovelamiru-standby.key", "", 0o600),
        ("witness", "standby/witness", DESK, 0o600),
        ("witness.pub", "standby/witness.pub", DESK, 0o600),
    ):
        machine.writes(path, (made / name).read_bytes(), account, mode)
    room = machine.room
    words = f"--url https://127.0.0.1:{old.own} --owner {OWNER} --ca {room}/etc/ca.pem" \
        f" --cert {room}/etc/standby.pem --program {room}/bin/desk" \
        f" --sign {room}/standby/witness --statement {room}/witness"
    machine.writes("etc/default/kovelamiru-standby", f'STANDBY="{words}"\n', mode=0o644)
    for _ in range(2):
        machine.system("start", "kovelamiru-standby")
