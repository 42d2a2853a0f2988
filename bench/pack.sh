#!/bin/sh
# Times `desk pack` against `sort -u` followed by `xxd -r -p` on the same lines, in one run.
# Prints, for 10,000 and 100,000 lines, the least of 7 rounds of each in milliseconds and their
# ratio.
set -eu
. "$(dirname -- "$(readlink -f -- "$0")")/../checks/common.sh"
needs python3 sort xxd
find_program
exec python3 - "$program" <<'PYTHON'
import hashlib, os, subprocess, sys, tempfile, time

DESK = sys.argv[1]
OWNER = "00112233-4455-6677-8899-aabbccddeeff"
ROUNDS = 7


def least(command, lines, out):
    times = []
    for _ in range(ROUNDS):
        with open(lines, "rb") as given, open(out, "wb") as taken:
            start = time.perf_counter()
            subprocess.run(
                command, stdin=given, stdout=taken, check=True, env={**os.environ, "LC_ALL": "C"}
            )
            times.append(time.perf_counter() - start)
    return min(times) * 1000


with tempfile.TemporaryDirectory() as room:
    lines, list_, plain = (os.path.join(room, name) for name in ("lines", "list", "plain"))
    for count in (10_000, 100_000):
        with open(lines, "w") as file:
            for n in range(count):
                print(hashlib.sha256(b"%d" % n).hexdigest(), file=file)
        desk = least([DESK, "pack", OWNER], lines, list_)
        peer = least(["sh", "-c", "sort -u | xxd -r -p"], lines, plain)
        with open(list_, "rb") as one, open(plain, "rb") as other:
            packed, sorted_ = one.read(), other.read()
        digests = b"".join(packed[at + 16 : at + 48] for at in range(28, len(packed), 48))
        assert digests == sorted_, "the list holds the sorted digests"
        print(
            f"{count} lines: desk pack {desk:.1f} ms, sort -u | xxd -r -p {peer:.1f} ms, ratio"
            f" {desk / peer:.2f}"
        )
PYTHON
