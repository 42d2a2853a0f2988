#!/bin/sh
# bench/large_pages.sh [PROGRAM] [DIGESTS] [ROUNDS]: the cost of a subcommand with its memory in
# large pages, as the service runs the program, and without: `desk level` on a new desk and on one
# of 100,000 revoked digests, or the given number, with and without in turn, 100 rounds. For each
# the least and the median of processor time, of the clock and of the most memory (getrusage). A
# kernel that always or never gives large pages shows no difference. Not part of the gate: it needs
# sqlite3 and python3.
set -eu
. "$(dirname -- "$(readlink -f -- "$0")")/../checks/common.sh"
needs python3 sqlite3
find_program "$@"
enter_room
for desk in small large; do
    "$program" init "$room/$desk.db" 00112233-4455-6677-8899-aabbccddeeff
done
cat /sys/kernel/mm/transparent_hugepage/enabled
python3 - "$program" "$room" "${2:-100000}" "${3:-100}" << 'PYTHON'
import hashlib, os, statistics, subprocess, sys, time

PROGRAM, ROOM = sys.argv[1:3]
DIGESTS, ROUNDS = map(int, sys.argv[3:])
rows = "".join(
    f"INSERT INTO revoked_digests VALUES (X'{hashlib.sha256(b'%d' % n).hexdigest()}');\n"
    for n in range(DIGESTS)
)
subprocess.run(
    ["sqlite3", f"{ROOM}/large.db"], input=f"BEGIN;\n{rows}COMMIT;\n".encode(), check=True
)


def run(desk, large):
    """Milliseconds of the processor and of the clock, and the most memory in MB."""
    words = [PROGRAM, "level", f"{ROOM}/{desk}.db"]
    start = time.perf_counter()
    child = subprocess.Popen(
        words, stdout=subprocess.DEVNULL,
        env={**os.environ, "GLIBC_TUNABLES": f"glibc.malloc.hugetlb={large}"}
    )
    _, status, used = os.wait4(child.pid, 0)
    clock = time.perf_counter() - start
    child.returncode = os.waitstatus_to_exitcode(status)
    if child.returncode:
        sys.exit(f"{words} ended with {child.returncode}")
    return (used.ru_utime + used.ru_stime) * 1e3, clock * 1e3, used.ru_maxrss / 1024


KINDS = [(desk, large) for desk in ("small", "large") for large in (0, 1)]
runs = {kind: [] for kind in KINDS}
for _ in range(ROUNDS):
    for kind in KINDS:
        runs[kind].append(run(*kind))
for desk in ("small", "large"):
    columns = {large: list(zip(*runs[desk, large])) for large in (0, 1)}
    for at, what in enumerate(("processor, ms", "clock, ms", "memory, MB")):
        cells = []
        for name, of in (("least", min), ("median", statistics.median)):
            without, beside = (of(columns[large][at]) for large in (0, 1))
            cells.append(
                f"{name} {without:8.1f} without, {beside:8.1f} with ({beside / without:.2f})"
            )
        print(f"{desk:6}{what:14}" + "; ".join(cells))
PYTHON
