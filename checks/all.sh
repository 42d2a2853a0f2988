#!/bin/sh
# Every check of the program that ./desk runs, or of the named one: all.sh [PROGRAM [WORD..]]. It is
# pytest over checks/ with a process for each processor; the words are pytest's (`-k http`). It
# prints each failure with its output; the last line is `N passed, M failed`, and the status isn't 0
# if one failed. After 45 minutes what still runs is ended. docs/TESTS.md says what it needs.
set -eu
cd "$(dirname -- "$(readlink -f -- "$0")")/.."
if [ $# -gt 0 ]; then
    program=$1
    shift
else
    program=$(./desk --which)
fi
exec timeout --foreground -k 30 2700 /usr/bin/python3 -B -m pytest -q -n "$(nproc)" \
    --program="$program" checks "$@"
