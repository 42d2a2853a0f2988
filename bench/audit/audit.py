"""Measures audits of minutes: see ../audit.sh."""
import os
import sys
import time
from typing import NamedTuple

from rows import History, filled

from checks.support.images import OWNER, sha256
from checks.support.program import Program, alone
from checks.support.says import expect, fail

sys.stdout.reconfigure(line_buffering=True)
ROOM = sys.argv[2]
SIZES = [int(it) for it in sys.argv[3:]] or [1_000, 10_000, 100_000, 1_000_000]
# An audit may take so many times the file's length in memory.
MOST_MEMORY = 3


class Run(NamedTuple):
    """Seconds of the processor and of the clock, and the most memory, in bytes."""

    processor: float
    clock: float
    memory: int

    def told(self, base: "Run") -> str:
        return (
            f"{self.processor:.2f} s of processor time, {self.clock:.2f} by the clock,"
            f" {(self.memory - base.memory) / 1e6:.1f} MB of memory"
        )


def ran(program: Program, out: str, *words: str) -> Run:
    """A run of the program, which writes what it prints to a file."""
    begun = time.monotonic()
    given = (os.POSIX_SPAWN_OPEN, 1, out, os.O_WRONLY | os.O_CREAT | os.O_TRUNC, 0o600)
    pid = os.posix_spawn(program.path, [program.path, *words], program.env, file_actions=[given])
    _, status, used = os.wait4(pid, 0)
    if status:
        fail(f"desk {' '.join(words)}: status {os.waitstatus_to_exitcode(status)}")
    return Run(used.ru_utime + used.ru_stime, time.monotonic() - begun, used.ru_maxrss * 1024)


def sum_of(path: str) -> str:
    with open(path, "rb") as file:
        return sha256(file.read())


def measured(program: Program, count: int, base: dict[str, Run]) -> dict[str, Run]:
    minutes, path, out = (os.path.join(ROOM, it) for it in ("minutes.txt", "desk.db", "out"))
    for it in (path, f"{path}-wal"):
        if os.path.exists(it):
            os.remove(it)
    filled(program, path, minutes, History(), count)
    told = [f"calls {count}", f"minutes {sum_of(minutes)}"]
    found: dict[str, Run] = {}
    for name in ("minutes", "dbx", "db", "level"):
        found[name] = ran(program, out, name, path)
        if name == "minutes":
            expect(sum_of(out), sum_of(minutes), "the minutes of the file")
        else:
            told.append(f"{name} {sum_of(out)}")
    found["audit"] = ran(program, out, "audit", OWNER, minutes)
    with open(out, encoding="ascii") as lines:
        expect(lines.read().splitlines(), told, "what the audit tells")
    if not base:
        return found
    size = os.path.getsize(path)
    print(
        f"{count:,} calls, minutes of {os.path.getsize(minutes) / 1e6:.1f} MB, a file of"
        f" {size / 1e6:.1f} MB"
    )
    for name in ("audit", "minutes", "level"):
        print(f"  desk {name}: {found[name].told(base[name])}")
    memory = found["audit"].memory - base["audit"].memory
    print(
        f"  an audit: {found['audit'].processor / count * 1e6:.0f} us of processor time a call,"
        f" {memory / size:.2f} of the file in memory"
    )
    if memory > MOST_MEMORY * size:
        fail(f"an audit takes more than {MOST_MEMORY} of the desk's file in memory")
    return found


with alone(sys.argv[1]) as program:
    print(f"load {os.getloadavg()[0]:.1f} on {os.cpu_count()} processors")
    base = measured(program, 0, {})
    for size in SIZES:
        measured(program, size, base)
    print(f"load {os.getloadavg()[0]:.1f}")
