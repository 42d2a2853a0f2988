"""The package's scripts around an upgrade, a removal and a purge, as dpkg runs them: on a root of
their own, with scripts in place of systemd and nginx."""
from __future__ import annotations

import gzip
import os
import subprocess
from pathlib import Path

import pytest

from checks.support.program import Program
from checks.support.says import expect, note
from checks.support.tools import EXAMPLES, ROOT

DESK, STANDBY = "kovelamiru-desk.service", "kovelamiru-standby.timer"
FOLLOWS = "kovelamiru-standby.timer kovelamiru-standby.service"
TRY_RESTART = f"try-restart {DESK}"
UPGRADE = ("preinst", "upgrade", "0.0.9", "0.1.0")
# `did` has what they were asked, and `units` the state of each unit that isn't inactive. No desk is
# copied that serves or follows; users are made by systemd-sysusers.
STAND_INS = {
    "systemctl": """[ "$1" != --quiet ] || shift
if [ "$1" = is-active ]; then
    cat "$ROOM/units/$2" 2> /dev/null || echo inactive
    grep -qsx active "$ROOM/units/$2" && exit 0 || exit 3
fi
echo "$*" >> "$ROOM/did"
what=$1
shift
for unit in "$@"; do
    case $what in
        start)
            [ ! -e "$ROOM/no-start" ] || exit 1
            echo active > "$ROOM/units/$unit"
            ;;
        stop) rm -f "$ROOM/units/$unit" ;;
    esac
done""",
    "deb-systemd-invoke": 'echo "$*" >> "$ROOM/did"',
    "nginx": 'echo "nginx $*" >> "$ROOM/did"; [ ! -e "$ROOM/wrong-site" ]',
    "systemd-sysusers": ":",
    "install": """for word in "$@"; do
    case $word in -o | -g) exec mkdir -p "$DPKG_ROOT/var/lib/kovelamiru-desk" ;; esac
done
exec /usr/bin/install "$@\"""",
    "cp": """if grep -qs "^activ" "$ROOM"/units/kovelamiru-*; then
    echo "the file is still written" >&2
    exit 1
fi
for to; do :; done
if [ -e "$ROOM/full" ]; then : > "$to/desk.db"; echo "no space" >&2; exit 1; fi
exec /bin/cp "$@\"""",
}


def files(folder: Path) -> dict[str, bytes]:
    return {one.name: one.read_bytes() for one in folder.iterdir()}


class Machine:
    """A root, and what was asked of systemd and nginx there."""

    def __init__(self, room: Path) -> None:
        self.room, self.own = room, room / "own"
        self.state = self.own / "var/lib/kovelamiru-desk"
        self.copies = self.own / "var/backups/kovelamiru-desk"
        for folder in (
            room / "bin", room / "units", self.state, self.own / "run/systemd/system",
            self.copies.parent,
        ):
            folder.mkdir(parents=True)
        for name, text in STAND_INS.items():
            (room / "bin" / name).write_text(f"#!/bin/sh\n{text}\n")
            (room / "bin" / name).chmod(0o755)

    def unit(self, name: str, state: str = "active") -> None:
        (self.room / "units" / name).write_text(f"{state}\n")

    def marked(self, name: str) -> None:
        """Something is so on this machine."""
        (self.room / name).touch()

    def ends(self, words: tuple[str, ...], *did: str, status: int = 0, says: str = "") -> None:
        """The script ends so, and systemd was asked for these, but for reading its units anew."""
        asked = self.room / "did"
        asked.write_text("")
        path = f"{self.room}/bin:{os.environ['PATH']}"
        done = subprocess.run(
            ["sh", ROOT / "packaging" / words[0], *words[1:]], stdout=subprocess.PIPE, text=True,
            stderr=subprocess.STDOUT, check=False,
            env={**os.environ, "DPKG_ROOT": str(self.own), "ROOM": str(self.room), "PATH": path},
        )
        lines = [one for one in asked.read_text().splitlines() if "daemon-reload" not in one]
        note(" ".join(words), "", done.stdout)
        expect((done.returncode, lines), (status, [*did]), " ".join(words))
        assert says in done.stdout

    def configured(self, *did: str) -> None:
        self.ends(("postinst", "configure", "0.0.9"), *did)

    def copy(self) -> Path:
        """The only copy of the desk; others can't read it."""
        found = [*self.copies.iterdir()]
        assert [one.name[:6] for one in found] == ["0.0.9-"]
        assert [oct(one.stat().st_mode & 0o777) for one in (self.copies, *found)] == ["0o700"] * 2
        return found[0]

    def forgets(self) -> None:
        """Nothing counts as stopped any more."""
        assert not [*(self.own / "run").rglob("*.stopped")]


@pytest.fixture
def empty(room: Path) -> Machine:
    return Machine(room)


@pytest.fixture
def machine(empty: Machine) -> Machine:
    """It has a desk of version 1, with a log."""
    packed = (EXAMPLES / "version-1" / "desk.db.gz").read_bytes()
    (empty.state / "desk.db").write_bytes(gzip.decompress(packed))
    (empty.state / "desk.db-wal").write_text("a log\n")
    return empty


@pytest.fixture(params=["active", "activating", "inactive"])
def serves(request: pytest.FixtureRequest, machine: Machine) -> bool:
    """Whether the desk serves."""
    machine.unit(DESK, request.param)
    return bool(request.param != "inactive")


# ---- the desk


def test_the_desk_is_stopped_and_copied_with_its_log_before_an_upgrade(
    machine: Machine, serves: bool
) -> None:
    machine.ends(UPGRADE, *[f"stop {DESK}"] * serves)
    expect(files(machine.copy()), files(machine.state), "the copy")
    machine.configured(f"start {DESK}" if serves else TRY_RESTART)
    machine.forgets()


def test_it_goes_on_after_an_upgrade_that_comes_to_nothing(machine: Machine, serves: bool) -> None:
    machine.ends(UPGRADE, *[f"stop {DESK}"] * serves)
    machine.ends(("postinst", "abort-upgrade", "0.1.0"), *[f"start {DESK}"] * serves)
    machine.forgets()


def test_where_no_copy_can_be_made_there_is_no_upgrade_and_it_goes_on(
    machine: Machine, serves: bool
) -> None:
    machine.marked("full")
    did = [f"stop {DESK}", f"start {DESK}"] if serves else []
    machine.ends(UPGRADE, *did, status=1, says="no copy of the desk")
    assert [*machine.copies.iterdir()] == [], "part of a copy"
    machine.forgets()


@pytest.mark.parametrize("name", ["desk.db", "desk.db-wal"])
def test_a_link_in_place_of_a_file_of_the_desk_is_not_followed(machine: Machine, name: str) -> None:
    """The desk's own user could have put it there."""
    (machine.room / "secret").write_text("a secret\n")
    (machine.state / name).unlink()
    (machine.state / name).symlink_to(machine.room / "secret")
    machine.ends(UPGRADE, status=1, says="no copy of the desk")
    assert [*machine.copies.iterdir()] == [], "part of a copy"


def test_the_new_program_changes_the_file_and_the_copy_is_the_old_one(
    machine: Machine, desk: Program
) -> None:
    (machine.state / "desk.db-wal").unlink()
    before = files(machine.state)
    machine.ends(UPGRADE)
    desk.minutes(str(machine.state / "desk.db"))
    assert files(machine.state)["desk.db"] != before["desk.db"]
    expect(files(machine.copy()), before, "the copy")


# ---- a standby


def test_a_standby_goes_on_after_an_upgrade_and_where_there_is_none(machine: Machine) -> None:
    machine.unit(STANDBY)
    machine.unit("kovelamiru-standby.service", "activating")
    machine.ends(UPGRADE, f"stop {FOLLOWS}")
    machine.configured(TRY_RESTART, f"start {STANDBY}")
    machine.marked("full")
    machine.ends(UPGRADE, f"stop {FOLLOWS}", f"start {STANDBY}", status=1)
    machine.forgets()


# ---- nginx


def test_nginx_reads_the_new_file_unless_its_files_are_wrong(machine: Machine) -> None:
    machine.unit("nginx.service")
    machine.configured(TRY_RESTART, "nginx -t -q", "reload nginx.service")
    machine.ends(("postinst", "configure", ""))
    machine.marked("wrong-site")
    words = ("postinst", "configure", "0.0.9")
    machine.ends(words, TRY_RESTART, "nginx -t -q", says="reload it once")


def test_a_desk_that_does_not_begin_again_is_a_fault_of_the_upgrade(machine: Machine) -> None:
    machine.unit(DESK)
    machine.ends(UPGRADE, f"stop {DESK}")
    machine.marked("no-start")
    machine.ends(("postinst", "configure", "0.0.9"), f"start {DESK}", status=1)


# ---- the package goes, and comes again


def test_a_removal_stops_all_and_names_the_sites_of_nginx(machine: Machine) -> None:
    sites = machine.own / "etc/nginx/sites-enabled"
    sites.mkdir(parents=True)
    (sites / "desk").write_bytes((ROOT / "packaging" / "nginx.conf").read_bytes())
    (sites / "other").write_text("server { }\n")
    mirrors = "kovelamiru-mirror.timer kovelamiru-mirror.service"
    publishes = "kovelamiru-publish.timer kovelamiru-publish.service"
    units = f"{publishes} {FOLLOWS} {mirrors} {DESK}"
    named = f"so take them out: {sites}/desk \n"
    machine.ends(("prerm", "remove"), f"stop {units}", says=named)


def test_a_purge_takes_the_token_and_the_links_of_units_and_no_desk(machine: Machine) -> None:
    machine.ends(UPGRADE)
    for link in (
        f"multi-user.target.wants/{DESK}", "timers.target.wants/kovelamiru-publish.timer",
        f"timers.target.wants/{STANDBY}", "timers.target.wants/kovelamiru-mirror.timer",
    ):
        path = machine.own / "etc/systemd/system" / link
        path.parent.mkdir(parents=True, exist_ok=True)
        path.symlink_to(f"/usr/lib/systemd/system/{path.name}")
    (machine.own / "etc/kovelamiru-publish.token").write_text("token\n")
    before = files(machine.state)
    machine.ends(("postrm", "purge"))
    assert [one for one in (machine.own / "etc").rglob("*") if not one.is_dir()] == []
    expect((files(machine.state), files(machine.copy())), (before, before), "the desk, its copy")
