#!/bin/sh
# bench/export.sh [PROGRAM] [DIGESTS] [ROUNDS]: the cost of an export of dbx, of 100,000 digests or
# the given number, in one run with sqlite3's shell on the same file, `SELECT .. ORDER BY digest`
# into `xxd -r -p`, which writes the same entries:
#   time     median seconds of processor and clock over the rounds, in turn; whole, and less what
#            opening takes (`desk level`, and a SELECT of the desk's row)
#   memory   the most that malloc had given while dbx was written, beyond what it had given when the
#            level's first byte was
# Fails if the two write different bytes, or if that is over 1 MiB. sqlite3 inserts the digests into
# the desk's file. Not part of the gate: it needs sqlite3, xxd, python3 and a C compiler, for a
# malloc that counts.
set -eu
. "$(dirname -- "$(readlink -f -- "$0")")/../checks/common.sh"
needs cc python3 sqlite3 xxd
find_program "$@"
enter_room

cc -shared -fPIC -O1 -o "$room/heap.so" "$root/bench/heap.c" -ldl
"$program" init "$room/desk.db" 00112233-4455-6677-8899-aabbccddeeff
python3 - "$program" "$room" "${2:-100000}" "${3:-9}" << 'PYTHON'
import hashlib, os, shlex, statistics, subprocess, sys, time

PROGRAM, ROOM = sys.argv[1:3]
DIGESTS, ROUNDS = map(int, sys.argv[3:])
FILE, OWNER = f"{ROOM}/desk.db", "33221100554477668899AABBCCDDEEFF"
rows = "".join(
    f"INSERT INTO revoked_digests VALUES (X'{hashlib.sha256(b'%d' % n).hexdigest()}');\n"
    for n in range(DIGESTS)
)
subprocess.run(["sqlite3", FILE], input=f"BEGIN;\n{rows}COMMIT;\n".encode(), check=True)


class Run:
    """Seconds of processor and clock, and both outputs."""

    def __init__(self, line, preload=""):
        with open(f"{ROOM}/out", "wb") as out, open(f"{ROOM}/err", "wb") as err:
            start = time.perf_counter()
            child = subprocess.Popen(
                ["sh", "-c", line], stdout=out, stderr=err,
                env={**os.environ, "LD_PRELOAD": preload} if preload else None
            )
            _, status, used = os.wait4(child.pid, 0)
            self.clock = time.perf_counter() - start
        child.returncode = os.waitstatus_to_exitcode(status)
        self.processor = used.ru_utime + used.ru_stime
        self.out, self.err = open(f"{ROOM}/out", "rb").read(), open(f"{ROOM}/err").read()
        if child.returncode:
            sys.exit(f"{line} ended with {child.returncode}: {self.err}")


at, desk = shlex.quote(FILE), shlex.quote(PROGRAM)
LINES = {
    "desk dbx": f"exec {desk} dbx {at}",
    "desk level": f"exec {desk} level {at}",
    "sqlite3 | xxd": (
        f"sqlite3 {at} \"SELECT '{OWNER}' || hex(digest) FROM revoked_digests ORDER BY digest\""
        " | xxd -r -p"
    ),
    "sqlite3": f"sqlite3 {at} 'SELECT stamp FROM desk'",
}
runs = {name: [] for name in LINES}
for _ in range(ROUNDS):
    for name, line in LINES.items():
        runs[name].append(Run(line))
ours, theirs = runs["desk dbx"][0].out, runs["sqlite3 | xxd"][0].out
if ours[28:] != theirs or len(ours) != 28 + 48 * DIGESTS:
    sys.exit("the shell and the desk write other entries")
times = {
    name: [statistics.median(getattr(run, what) for run in all) for what in ("processor", "clock")]
    for name, all in runs.items()
}
for name, (processor, clock) in times.items():
    print(f"{name:14} processor {processor:.3f} s, clock {clock:.3f} s")
ratios = [a / b for a, b in zip(times["desk dbx"], times["sqlite3 | xxd"])]
print("whole: processor %.2f, clock %.2f of the shell's" % tuple(ratios))
alone = [(a - b) / (c - d) for a, b, c, d in zip(*(times[name] for name in LINES))]
print("less opening: processor %.2f, clock %.2f of the shell's" % tuple(alone))
heap = {
    name: [int(word) for word in Run(LINES[name], f"{ROOM}/heap.so").err.split("heap")[-1].split()]
    for name in ("desk dbx", "desk level")
}
beyond = heap["desk dbx"][1] - heap["desk level"][0]
print(f"{len(ours)} bytes; memory beyond the open desk: {beyond} bytes, of {heap['desk level'][0]}")
if beyond > 1 << 20:
    sys.exit("more than 1 MiB")
PYTHON
