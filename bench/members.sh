#!/usr/bin/env bash
# Times the search on memberships, beside cvc5 where it is installed: up to 1,000 elements of a declared sort and 100
# sets, with memberships that pass on along chains of subsets, unions and equal sets, left open or with one denied.
#
# bench/members.sh [PROGRAM]: the program is crates/setcard/out/setcard, unless another is named.
set -euo pipefail
# shellcheck source=common.sh
. "$(dirname "${BASH_SOURCE[0]}")/common.sh"
setcard=$(program_of setcard "${1:-}")

# ELEMENTS SETS: each element in one set, the sets taken in turn
in_turn() {
  local i
  for (( i = 1; i <= $1; i++ )); do echo "(assert (set.member e$i A$(( (i - 1) % $2 + 1 ))))"; done
}

# SETS: chains of ten sets, each a subset of the next
chains() {
  local i
  for (( i = 1; i <= $1; i++ )); do
    if (( i % 10 != 0 )); then echo "(assert (set.subset A$i A$(( i + 1 ))))"; fi
  done
}

# SETS: each set from the third on, of ten, is the union of the two before it
unions() {
  local i
  for (( i = 1; i <= $1; i++ )); do
    if (( (i - 1) % 10 >= 2 )); then echo "(assert (= A$i (set.union A$(( i - 1 )) A$(( i - 2 )))))"; fi
  done
}

# SETS: chains of ten sets, each equal to the next
equals() {
  local i
  for (( i = 1; i <= $1; i++ )); do
    if (( i % 10 != 0 )); then echo "(assert (= A$i A$(( i + 1 ))))"; fi
  done
}

# KIND ELEMENTS SETS END: where the end is 'denied', the first element is not in the tenth set, in which it is
script() {
  declared "$2" "$3"
  "$1" "$3"
  in_turn "$2" "$3"
  if [[ $4 == denied ]]; then echo '(assert (not (set.member e1 A10)))'; fi
  echo '(check-sat)'
}

begin_scripts "$setcard"
for size in '10 10' '100 20' '1000 100'; do
  read -r elements sets <<< "$size"
  for kind in chains unions equals; do
    script "$kind" "$elements" "$sets" open > "$work/members"
    row "$elements elements, $sets sets, $kind, open" "$work/members" sat
    script "$kind" "$elements" "$sets" denied > "$work/members"
    row "$elements elements, $sets sets, $kind, one denied" "$work/members" unsat
  done
done
