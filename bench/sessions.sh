#!/usr/bin/env bash
# Times scripts of many check-sats, beside cvc5 where it is installed: each asks again behind one assertion more, so what
# a check-sat costs beyond its own problem shows.
#
# bench/sessions.sh [PROGRAM]: the program is crates/setcard/out/setcard, unless another is named.
set -euo pipefail
# shellcheck source=common.sh
. "$(dirname "${BASH_SOURCE[0]}")/common.sh"
setcard=$(program_of setcard "${1:-}")

# N: sets each of which is the one before with one element more
inserts() {
  local i
  declared "$1" $(( $1 + 1 ))
  for (( i = 1; i <= $1; i++ )); do
    echo "(assert (= A$(( i + 1 )) (set.insert e$i A$i)))"
    echo '(check-sat)'
  done
}

# N: constants, each equal to the next
equivalences() {
  local i
  constants 0 "$1"
  for (( i = 0; i < $1; i++ )); do
    echo "(assert (= p$i p$(( i + 1 ))))"
    echo '(check-sat)'
  done
}

# N: elements that are put into one set, one after the other
members() {
  local i
  declared "$1" 1
  for (( i = 1; i <= $1; i++ )); do
    echo "(assert (set.member e$i A1))"
    echo '(check-sat)'
  done
}

begin_scripts "$setcard"
for n in 50 100 200; do
  inserts $n > "$work/inserts"
  row "$n inserts, asked behind each" "$work/inserts" "$n sat"
done
for n in 200 1000; do
  equivalences $n > "$work/equivalences"
  row "$n equivalences, asked behind each" "$work/equivalences" "$n sat"
done
members 500 > "$work/members"
row '500 members of a set, asked behind each' "$work/members" '500 sat'
