#!/bin/sh
# bench/requests.sh [SIZE ..]: the instructions of a request to `desk serve`, from its connection to
# its response, on desks of 1,000, 10,000 and 100,000 accepted calls, or those given; by valgrind's
# callgrind, which neither other work nor the processor's cache changes. The program is ./desk's, or
# the one that $DESK_BENCH_PROGRAM names. The desks are filled over HTTP: of each hundred calls 42
# are RevokeDigest and their Confirms, 5 are proposed and dropped, the others are submissions,
# reviews and listed digests. Then every kind of request is made some twenty times, with new
# digests, components and proposals; the ratio to the first size follows each. It fails if a head of
# 16,000 line ends takes more than three times the instructions of one with a field as long. Not
# part of the gate: it needs valgrind and python3. The three sizes took two minutes of one
# processor.
set -eu
. "$(dirname -- "$(readlink -f -- "$0")")/../checks/common.sh"
needs callgrind_control python3 valgrind
find_program ${DESK_BENCH_PROGRAM:+"$DESK_BENCH_PROGRAM"}
PYTHONPATH=$root exec python3 -B "$root/bench/requests/instructions.py" "$program" "$@"
