#!/bin/sh
# bench/audit.sh [CALLS ..]: time and memory of `desk audit` where the minutes have 1,000, 10,000,
# 100,000 and 1,000,000 calls, or those given, beside `desk minutes` and `desk level` of a desk that
# has them. Of each hundred calls ten are proposals, of which nine are confirmed and one is dropped;
# forty submit ten images, review and return them; forty list and unlist digests. Minutes and file
# are written row by row, without the desk; what the audit tells has to be what the file's exports
# are, and `desk minutes` the minutes. Time is the processor's and the clock's, of one run each;
# memory is the most that a process had beyond one of the same subcommand on a desk without calls.
# The program is ./desk's, or the one that $DESK_BENCH_PROGRAM names; the files are in
# $DESK_BENCH_DISK, or TMPDIR or /tmp, and take 600 MB where there are a million calls. It fails
# where an audit takes more memory than three times the desk's file. Not part of the gate: it needs
# python3.
set -eu
. "$(dirname -- "$(readlink -f -- "$0")")/../checks/common.sh"
needs python3
find_program ${DESK_BENCH_PROGRAM:+"$DESK_BENCH_PROGRAM"}
TMPDIR=${DESK_BENCH_DISK:-${TMPDIR:-/tmp}}
export TMPDIR
enter_room
PYTHONPATH=$root within 86400 python3 -B "$root/bench/audit/audit.py" "$program" "$room" "$@"
