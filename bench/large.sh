#!/bin/sh
# bench/large.sh [REQUESTS]: a desk of 100,000 requests, or the given number, as its people meet
# it. All but the last ten are signed, each with two votes; of 500 proposals, which revoke a digest
# each, five are open. The file is written row by row, without the desk. In one run: the processor
# time of the desk for what waits and for the whole lists, and the bytes of each behind nginx; for
# a reviewer and an officer the bytes of a sign-in, and when its first row, and that of the list of
# requests, stood in Chromium, whose network is made as slow as fast 3G (1.6 Mbit/s, 150 ms); and
# the processor time of deskctl's inbox, watch and confirm. The program is ./desk's, or the one
# that $DESK_BENCH_PROGRAM names. Not part of the gate: it needs python3, nginx, selenium and
# Chromium.
set -eu
. "$(dirname -- "$(readlink -f -- "$0")")/../checks/common.sh"
needs chromedriver nginx python3
find_program ${DESK_BENCH_PROGRAM:+"$DESK_BENCH_PROGRAM"}
export PYTHONPATH="$root:$root/python:$root/bench/audit"
exec /usr/bin/python3 -B "$root/bench/large/large.py" "$program" "$@"
