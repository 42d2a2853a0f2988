"""/usr/bin/python3 -m checks.cluster.evening ROOM [STRIKE..]: types *Setting it up* and *Upgrading*
of packaging/cluster/README.md on the machines of checks/cluster/lab, which are on and new, and
strikes at them while a client on q proposes. After each strike one desk serves, and never did two;
the minutes go on from those before it, and have each acknowledged call once, with its answer; and a
revocation goes through and is published. With names only these strikes come, on machines that are
set up."""
from __future__ import annotations

import json
import sys
import time
from pathlib import Path
from typing import Callable, NamedTuple

from checks.cluster.machines import Lab
from checks.support.images import OWNER, sha256
from checks.support.tools import ROOT
from checks.support.typed import commands, section

PAGE = ROOT / "packaging/cluster/README.md"
DESK, PEM = "/var/lib/kovelamiru-desk", "/etc/ssl/certs/desk.example.org.pem"
AS_DESK = "runuser -u kovelamiru-desk --"
SITE, AS_PUBLISHER = "https://desk.example.org", "runuser -u kovelamiru-publish --"
PUBLISHED = "/var/lib/kovelamiru-publish"
PEOPLE = ("olga", "otto", "oscar", "publisher")
# What stands in the files to be changed; and a virtual machine without KVM is slow, so its cluster
# waits longer.
CHANGES = (
    "sed -i s/SECRET/secret/ desk.res",
    "sed -i 's/host_list=192.0.2.254/host_list=192.0.2.3/' desk.crm",
    "sed -i 's/^SBD_WATCHDOG_TIMEOUT=5/SBD_WATCHDOG_TIMEOUT=20/' sbd.default",
    "sed -i 's/stonith-watchdog-timeout=20s/stonith-watchdog-timeout=45s/' desk.crm",
    "sed -i 's/cluster_name: desk/cluster_name: desk\\n    token: 10000/' corosync.conf",
)
SITES = (
    "openssl req -x509 -newkey ec -pkeyopt ec_paramgen_curve:P-256 -nodes -days 3650 -out"
    f" {PEM} -keyout /etc/ssl/private/desk.example.org.key -subj /CN=desk.example.org"
    " -addext subjectAltName=DNS:desk.example.org",
    f"scp -p {PEM} b:{PEM} && scp -p {PEM} q:{PEM}",
    "scp -p /etc/ssl/private/desk.example.org.key b:/etc/ssl/private",
)
EXAMPLE = "/usr/share/doc/kovelamiru-desk/examples/nginx.conf"


class Evening(Lab):
    def __init__(self, room: Path) -> None:
        super().__init__(room)
        self.minutes: list[str] = []

    # ---- the page

    def page(self, title: str) -> None:
        """Types a part of the page; what it says of waiting and of a desk that is there is done."""
        before = {"kovelamiru-desk/. /srv": self.founds, "corosync-quorumtool": self.votes,
                  "crm -w resource stop desk": self.settles}
        for command in commands(section(PAGE, title)):
            for text, does in before.items():
                if text in command.text:
                    does()
            # (without a network apt has what it needs)
            text = command.text.replace("apt install", "apt-get install -y")
            self.both(text, *(("a", "b") if command.who == "both" else (command.who,)))

    def sets_up(self) -> None:
        for text in CHANGES:
            self.both(text, "a", "b", "q")
        for text in SITES:
            self.does("a", text)
        self.page("Setting it up")
        self.does("q", "apt-get install -y ./kovelamiru-desk_*_amd64.deb")
        self.does("q", f"install -d {PUBLISHED}")
        for who in PEOPLE:
            path = PUBLISHED if who == "publisher" else "/root"
            self.does("q", f"umask 077; echo {who}-of-the-lab > {path}/{who}.token")
        self.does("q", f"chown -R kovelamiru-publish {PUBLISHED}")
        self.serves()
        self.publishes("--first")

    def founds(self) -> None:
        """A desk, and nginx's site before it."""
        self.does("a", f"{AS_DESK} desk init {DESK}/desk.db {OWNER}")
        for one in PEOPLE:
            digest = sha256(f"{one}-of-the-lab".encode())
            words = f"desk enrol {DESK}/desk.db {one} officer {one}"
            self.does("a", f"echo {digest} | {AS_DESK} {words}")
        for name in ("a", "b"):
            self.does(name, f"cp {EXAMPLE} /etc/nginx/sites-enabled/default && nginx -t")

    # ---- the desk

    def curl(self, who: str, path: str, *words: str) -> str:
        # (the desk may still be on its way)
        asks = f"curl -sSf --retry 9 --retry-all-errors --max-time 60 --cacert {PEM}"
        token = f"-H 'Desk-Token: {who}-of-the-lab'"
        return self.does("q", f"{asks} {token} {' '.join(words)} {SITE}{path}", quiet=True)

    def acknowledged(self) -> list[list[str]]:
        said = self.does("q", "cat /root/acknowledged", quiet=True)
        return [line.split() for line in said.splitlines()]

    def has_all(self) -> None:
        acknowledged, lines = self.acknowledged(), list[str]()
        while more := self.curl("olga", f"/minutes/{len(lines) + 1}").splitlines():
            lines += more
        if lines[:len(self.minutes)] != self.minutes:
            sys.exit("the minutes don't go on from those before")
        self.minutes, replies = lines, dict[str, list[str]]()
        for line in lines:
            _, _, key, _, reply = line.split("\t")
            replies.setdefault(key, []).append(reply)
        lost = [key for _, key, number in acknowledged
                if replies.get(key) != [f"proposed {number}"]]
        if lost:
            sys.exit(f"lost, there twice, or elsewhere: {lost}")
        print(f"{len(acknowledged)} acknowledged calls are there once, of {len(lines)} lines")

    def publishes(self, *words: str) -> None:
        words = ("published", "--token-file publisher.token", f"--owner {OWNER} --url {SITE}",
                 f"--ca {PEM}", *words)
        self.does("q", f"cd {PUBLISHED} && {AS_PUBLISHER} desk-publish {' '.join(words)}")

    def revokes(self) -> None:
        digest, key = sha256(f"revoked {self.typed}".encode()), f"revokes-{self.typed}"
        body = f"-d '{json.dumps({'digest': digest})}'"
        said = self.curl("olga", "/dbx/digests", f"-H 'Desk-Key: {key}'", body)
        path = f"/proposals/{json.loads(said)['proposal']}/confirm"
        self.curl("otto", path, f"-H 'Desk-Key: {key}-too'", "-d ''")
        self.publishes()
        reads = f"od -An -v -tx1 {PUBLISHED}/published/dbx.esl | tr -d ' \\n'"
        self.does("q", f"{reads} | grep -qF {digest}", quiet=True)

    # ---- strikes

    def now(self) -> float:
        return float(self.does("q", "cut -d ' ' -f 1 /proc/uptime", quiet=True))

    def waits(self, after: float) -> None:
        """Until two calls are acknowledged after this time of q's; meanwhile no two desks serve."""
        def there() -> bool:
            self.serving()
            return sum(float(at) > after for at, _, _ in self.acknowledged()) > 1

        self.until("calls are acknowledged", there)

    def struck(self, name: str) -> tuple[str, float, int]:
        """What a strike cost: who serves then, and the longest time between two acknowledged calls.
        """
        strike, first = STRIKES[name], self.serves()
        other = "b" if first == "a" else "a"
        print(f"==== {name}: {first} serves", flush=True)
        self.types("q", "systemctl start client || systemd-run --unit=client client")
        self.waits(began := self.now())
        strike.does(self, first, other)
        self.waits(self.now())
        second = self.serves()
        strike.mends(self, first, other)
        self.settles()
        self.waits(self.now())
        times = [float(at) for at, _, _ in self.acknowledged() if float(at) > began]
        self.has_all()
        self.revokes()
        self.does(self.serves(), "crm_mon -1rf; crm_resource --cleanup", quiet=True)
        return second, max(b - a for a, b in zip(times, times[1:])), len(times)


Act = Callable[[Evening, str, str], None]


def in_turn(*acts: Act) -> Act:
    def does(lab: Evening, first: str, other: str) -> None:
        for act in acts:
            act(lab, first, other)

    return does


def typed(*texts: str, at: int = 0) -> Act:
    """Types this on the machine that serves; with 1 on the other one."""
    def does(lab: Evening, *names: str) -> None:
        for text in texts:
            lab.types(names[at], text, 60)

    return does


def powers(*lines: str) -> Act:
    """Words of `lab`; `first` is the machine that served, `other` the other one."""
    def does(lab: Evening, first: str, other: str) -> None:
        for line in lines:
            lab.power(*line.replace("first", first).replace("other", other).split())

    return does


def fills(lab: Evening, first: str, _other: str) -> None:
    """No call is acknowledged for a minute, but the level is shown; then there is room again."""
    filler = "/srv/desk/state/filler"
    lab.types(first, f"dd if=/dev/zero of={filler} bs=1M; dd if=/dev/zero of={filler}-2 bs=512")
    for _ in range(6):
        time.sleep(10)
        lab.curl("olga", "/level")
    lab.does(lab.serves(), f"rm {filler} {filler}-2")


def upgrades(lab: Evening, first: str, _other: str) -> None:
    """a serves, as on the page; both machines get the newer package."""
    for name in ("a", "b"):
        lab.does(name, "rm kovelamiru-desk_*.deb && mv newer/*.deb .")
    if first == "b":
        lab.does("b", "crm -w node standby b && crm node online b")
        lab.settles()
    lab.page("Upgrading")


class Strike(NamedTuple):
    does: Act
    mends: Act = typed()


STRIKES = {
    "power off": Strike(powers("off first"), powers("on first")),
    "the line is cut": Strike(powers("cut first l"), powers("heal first l")),
    "the people's network is cut": Strike(powers("cut first n"), powers("heal first n")),
    "both are cut": Strike(powers("cut first l", "cut first n"),
                           powers("heal first l", "heal first n")),
    "both are cut at the other one": Strike(powers("cut other l", "cut other n"),
                                            powers("heal other l", "heal other n")),
    "a full disk": Strike(fills),
    "the desk hangs": Strike(typed("systemctl kill -s STOP kovelamiru-desk")),
    "corosync is killed": Strike(typed("killall -9 corosync")),
    "clocks apart": Strike(
        in_turn(typed("date -s '+20 hours'", at=1), powers("off first")),
        in_turn(typed("date -s '-20 hours'", at=1), powers("on first"))),
    "an upgrade": Strike(upgrades),
}


def main(room: str, *names: str) -> None:
    lab = Evening(Path(room))
    if not names:
        lab.sets_up()
    rows = []
    for name in names or STRIKES:
        rows.append((name, *lab.struck(name)))
        print("%s: then %s serves; %.0f seconds without service; %d calls" % rows[-1], flush=True)
    print(f"{len(rows)} strikes, {len(lab.acknowledged())} calls, and each is there once")


if __name__ == "__main__":
    main(*sys.argv[1:])
