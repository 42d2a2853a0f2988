#!/bin/sh
# bench/small.sh [PROGRAM] [ROUNDS]: the cost of a subcommand on a new desk: `desk level` beside the
# shell of SQLite, which reads the same rows of the same file, in turn, 100 rounds. For each the
# least and the median of the clock, of processor time and of the most memory (getrusage), and the
# ratio of the medians. Not part of the gate: it needs sqlite3 and python3.
set -eu
. "$(dirname -- "$(readlink -f -- "$0")")/../checks/common.sh"
needs python3 sqlite3
find_program "$@"
enter_room
"$program" init "$room/new.db" 00112233-4455-6677-8899-aabbccddeeff
python3 - "$program" "$room/new.db" "${2:-100}" << 'PYTHON'
import os, statistics, subprocess, sys, time

PROGRAM, DESK = sys.argv[1:3]
ROUNDS = int(sys.argv[3])
RUNS = {
    "desk level": [PROGRAM, "level", DESK],
    "sqlite3": [
        "sqlite3", DESK,
        "SELECT stamp FROM desk; SELECT name, generation FROM components ORDER BY name;"
    ],
}


def run(words):
    """Milliseconds of the clock and of the processor, and the most memory in MB."""
    start = time.perf_counter()
    child = subprocess.Popen(words, stdout=subprocess.DEVNULL)
    _, status, used = os.wait4(child.pid, 0)
    clock = time.perf_counter() - start
    child.returncode = os.waitstatus_to_exitcode(status)
    if child.returncode:
        sys.exit(f"{words} ended with {child.returncode}")
    return clock * 1e3, (used.ru_utime + used.ru_stime) * 1e3, used.ru_maxrss / 1024


came = {name: [] for name in RUNS}
for _ in range(ROUNDS):
    for name, words in RUNS.items():
        came[name].append(run(words))
columns = {name: list(zip(*runs)) for name, runs in came.items()}
for at, what in enumerate(("clock, ms", "processor, ms", "memory, MB")):
    cells = [
        f"{name} least {min(columns[name][at]):.1f},"
        f" median {statistics.median(columns[name][at]):.1f}" for name in RUNS
    ]
    ours, theirs = (statistics.median(columns[name][at]) for name in RUNS)
    print(f"{what:14}" + "; ".join(cells) + f"; ratio {ours / theirs:.2f}")
PYTHON
