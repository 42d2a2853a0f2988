"""A machine that systemd runs, as PID 1 of namespaces of its own, over the files of this machine.
What it writes is in memory, and goes with it."""
from __future__ import annotations

import contextlib
import secrets
import subprocess
from pathlib import Path
from typing import Sequence

from checks.support.says import fail, note
from checks.support.tools import end_with_parent, ran
from checks.support.waits import until

# Its cgroup is one of its own below that of this process. The words are the folder, the cgroup's
# name, the machine's, and what follows.
CGROUP = """
set -eu
mount --make-rprivate /
mount -t tmpfs -o mode=0755 tmpfs "$1"
mkdir "$1/cgroup" "$1/upper" "$1/work" "$1/root"
mount -t cgroup2 cgroup2 "$1/cgroup"
"""
BEGIN = CGROUP + """
mkdir -p "$1/cgroup/$2"
echo $$ > "$1/cgroup/$2/cgroup.procs"
exec unshare --pid --net --uts --ipc --cgroup --fork --kill-child sh -c "$4" sh "$1" "$3"
"""
END = CGROUP + """
[ ! -e "$1/cgroup/$2" ] || find "$1/cgroup/$2" -depth -type d -exec rmdir {} +
"""
# The kernel's settings, which all machines share, can't be written. Nothing of /tmp, of fstab and
# of timers is taken over.
BOOT = """
set -eu
mount -t overlay -o "lowerdir=/,upperdir=$1/upper,workdir=$1/work" overlay "$1/root"
cd "$1/root"
mount -t proc proc proc
mount --bind proc/sys proc/sys
mount -o remount,bind,ro proc/sys
mount -t sysfs -o ro sysfs sys
mount -t cgroup2 cgroup2 sys/fs/cgroup
mount -t tmpfs -o mode=0755 tmpfs dev
mkdir dev/pts dev/shm
mount -t devpts -o newinstance,ptmxmode=0666,mode=0620 devpts dev/pts
ln -s pts/ptmx dev/ptmx
ln -s /proc/self/fd dev/fd
for one in null zero full random urandom tty; do cp -a "/dev/$one" dev; done
mount -t tmpfs -o mode=0755 tmpfs run
mount -t tmpfs -o mode=1777 tmpfs tmp
rm -rf var/log/journal usr/sbin/policy-rc.d
: > etc/fstab
tr -d - < /proc/sys/kernel/random/uuid > etc/machine-id
echo "$2" > etc/hostname
hostname "$2"
ip link set lo up
mkdir run/before
pivot_root . run/before
exec env -i container=checks PATH=/usr/sbin:/usr/bin:/sbin:/bin chroot . sh -c '
umount -l /run/before
mount --make-rshared /
exec /usr/lib/systemd/systemd --unit=sysinit.target --log-target=journal --show-status=no'
"""


class Booted:
    """It is up once it is made. NAME is its host name, too."""

    def __init__(self, room: Path, name: str) -> None:
        self.room, self.name = room / f"machine-{name}", name
        self.room.mkdir()
        self.cgroup = f"desk-checks-{secrets.token_hex(4)}"
        words = ["unshare", "--mount", "sh", "-c", BEGIN, "sh", str(self.room), self.cgroup, name,
                 BOOT]
        self.process = subprocess.Popen(
            words, stdin=subprocess.DEVNULL, stdout=subprocess.PIPE, stderr=subprocess.STDOUT,
            preexec_fn=end_with_parent,
        )
        until(30, "systemd begins", lambda: self.up() or self.process.poll() is not None)
        if self.process.poll() is not None:
            fail(f"no machine: {self.process.communicate()[0]!r}")
        until(60, "it is up", lambda: self.sum() in ("running", "degraded"), self.sum)

    def sum(self) -> str:
        """Of all units."""
        return self.run("systemctl", "is-system-running", status=None)

    def up(self) -> str:
        """The number of its first process, once that is systemd."""
        children = Path(f"/proc/{self.process.pid}/task/{self.process.pid}/children")
        with contextlib.suppress(OSError):
            for one in children.read_text().split():
                if Path(f"/proc/{one}/comm").read_text() == "systemd\n":
                    return one
        return ""

    def words(self, *words: str | Path) -> list[str]:
        """To run these there."""
        first = self.up() or fail(f"{self.name} is off")
        into = ("nsenter", "-t", first, "-m", "-p", "-n", "-u", "-i", "-C", "-r", "-w")
        clean = ("env", "-i", "PATH=/usr/sbin:/usr/bin:/sbin:/bin", "LC_ALL=C.UTF-8", "HOME=/root")
        return [*into, *clean, *map(str, words)]

    def run(
        self, *words: str | Path, status: int | None = 0, given: bytes | str = b"",
    ) -> str:
        """What a command says there, which ends with this status."""
        done = subprocess.run(
            self.words(*words), input=given.encode() if isinstance(given, str) else given,
            stdout=subprocess.PIPE, stderr=subprocess.STDOUT, timeout=100, check=False,
        )
        said, asked = done.stdout.decode(errors="replace"), " ".join(map(str, words))
        note(f"{self.name}# {asked}", given, (done.returncode, said))
        if status is not None and done.returncode != status:
            fail(f"{self.name}# {asked}: status {done.returncode}, {said}")
        return said.rstrip("\n")

    def has(self, path: str) -> bool:
        return self.run("sh", "-c", f"[ -e '{path}' ] && echo yes || :") == "yes"

    def writes(self, path: str, text: bytes | str, mode: str = "0644") -> None:
        self.run("install", "-D", "-m", mode, "/dev/stdin", path, given=text)

    def told(self, unit: str, *keys: str) -> Sequence[str]:
        """What systemd says of a unit."""
        return [self.run("systemctl", "show", "-P", key, unit) for key in keys]

    def log(self, unit: str) -> str:
        return self.run("journalctl", "-o", "cat", "--no-pager", "-u", unit)

    def close(self) -> None:
        """Its processes are killed, at once."""
        first = self.up()
        self.process.kill()
        self.process.communicate()
        until(20, "it is off", lambda: not Path(f"/proc/{first or 'none'}").exists())
        ran("unshare", "--mount", "sh", "-c", END, "sh", self.room, self.cgroup)
