#!/bin/sh
# bench/impact.sh [SIZE ..]: the cost of GET /proposals/N/impact on desks of 1,000 and 100,000
# accepted calls, or those given, of three histories that are filled over HTTP: that of
# bench/requests.sh, where one call in a hundred submits an image, and two where each call submits
# an image of its own. Of an impact without images, and of one with a hundred or so:
#   instructions  from the connection to the response, by valgrind's callgrind, which neither other
#                 work nor the processor's cache changes; and for each further call, from the first
#                 size to the last
#   memory        the most that malloc had given during the request, beyond what it had given when
#                 the connection was accepted
# The program is ./desk's, or the one that $DESK_BENCH_PROGRAM names. It fails if a further call
# takes more than 1.1 times the instructions of one of the first, or if an impact without images
# takes more memory where there are more calls. Not part of the gate: it needs valgrind, python3 and
# a C compiler.
set -eu
. "$(dirname -- "$(readlink -f -- "$0")")/../checks/common.sh"
needs callgrind_control cc python3 valgrind
find_program ${DESK_BENCH_PROGRAM:+"$DESK_BENCH_PROGRAM"}
enter_room
cc -shared -fPIC -O1 -o "$room/heap.so" "$root/bench/heap.c" -ldl
PYTHONPATH=$root:$root/bench/requests within 86400 python3 -B "$root/bench/impact/impact.py" \
    "$program" "$room/heap.so" "$@"
