#!/usr/bin/env bash
# checks/wrong_bodies.sh [CRATE ..]: that the prover refuses each wrong body of these crates, or of
# all: those of the gate (crates/CRATE/must-fail/) and those of the second tier
# (checks/wrong_bodies/CRATE/). It works on a copy of the checkout and begins with what rt kept
# there. A refusal only because a proof file names what the edit took away shows nothing of a
# contract, and neither does one only by a limit of the prover, which gave no verdict: by rt's words
# both count as not refused. The last lines are `L only by a lost name, P only by a limit of the
# prover`, or that this rt tells no limit, and `N refused, M not`, where M includes these; the status
# is 1 if one isn't refused or can't be applied, and if a named crate has none, or one of the same
# name in both tiers.
set -u
. "$(dirname -- "$(readlink -f -- "$0")")/common.sh"
needs rt
top=$root
crates=$(sed -n 's/^\([a-z_0-9]*\)[^#:]*:.*/\1/p' "$top/crates.txt")
for crate in "$@" $(cd "$top/checks/wrong_bodies" && ls -d -- */ | tr -d /); do
    grep -qx "$crate" <<< "$crates" || fail "there is no crate $crate"
done

# bodies CRATE: its wrong bodies, of both tiers.
bodies() { find "$top/crates/$1/must-fail" "$top/checks/wrong_bodies/$1" -name '*.edit' 2> /dev/null; }
chosen=("$@") tried=() wanted=0
[ $# -gt 0 ] || mapfile -t chosen <<< "$crates"
for crate in "${chosen[@]}"; do
    count=$(bodies "$crate" | wc -l)
    [ "$count" != 0 ] || [ $# = 0 ] || fail "of $crate there is no wrong body"
    twice=$(bodies "$crate" | sed 's|.*/||' | sort | uniq -d)
    [ -z "$twice" ] || fail "$crate has $twice in both tiers"
    wanted=$((wanted + count))
    [ "$count" = 0 ] || tried+=("$crate")
done
[ "$wanted" -gt 0 ] || fail 'there is no wrong body'

enter_room
mkdir "$room/crates" && cp -a "$top/crates.txt" "$top/HANDLES" "$room" || exit 1
for crate in $crates; do
    cp -a --reflink=auto "$top/crates/$crate" "$room/crates" || exit 1
done
for crate in "${tried[@]}"; do
    mkdir -p "$room/crates/$crate/must-fail"
    bodies "$crate" | xargs cp -t "$room/crates/$crate/must-fail" 2> /dev/null
done

(cd "$room" && rt must-fail "${tried[@]}" < /dev/null 2>&1) | tee "$room/said" | sed "s|$room/||g"
# said_so WORDS: of how many bodies rt says that they are refused, in these words too.
said_so() { grep -c "^rt: must-fail .*: refused, as it must be$1" "$room/said"; }
by_name=$(said_so '.*only because a proof file names')
by_limit=$(said_so '.*only by a limit of the prover')
refused=$(($(said_so '') - by_name - by_limit))
limits="$by_limit only by a limit of the prover"
grep -q 'only by a limit of the prover' "$(command -v rt)" || limits='this rt tells no limit of the prover from a refusal'
echo "$by_name only by a lost name, $limits"
echo "$refused refused, $((wanted - refused)) not"
[ "$refused" = "$wanted" ]
