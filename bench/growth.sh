#!/bin/sh
# bench/growth.sh [REQUESTS]: what requests make grow, in one run, on a desk that is filled over
# HTTP with 10,000 requests of a plain image, or the given number, and on one with as many requests
# of 256 components as give a file of about 22 MB. For each desk: the file's bytes for each request;
# the time and the memory of an opening (`desk level`), and the time of sqlite3's `PRAGMA
# integrity_check` on the same file; and for GET /requests its length, its time, and the most memory
# that the server took above an idle one, as a ratio to the length; for the first desk also the
# memory of `desk minutes` above that of `desk level`. The last part does the same for GET
# /proposals, with a tenth as many proposals. Times are of the clock; they and the memory of a list
# are medians of five. The program is ./desk's, or the one that $DESK_BENCH_PROGRAM names. It fails
# where a list takes more than 1.5 times its length, an opening more than 1.5 times the file's, or a
# request or a proposal more bytes of the file than packaging/README.md says. Not part of the gate:
# it needs python3 and sqlite3, and takes two minutes.
set -eu
. "$(dirname -- "$(readlink -f -- "$0")")/../checks/common.sh"
needs python3 sqlite3
find_program ${DESK_BENCH_PROGRAM:+"$DESK_BENCH_PROGRAM"}
PYTHONPATH=$root exec python3 -B "$root/bench/growth/growth.py" "$program" "$@"
