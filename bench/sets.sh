#!/usr/bin/env bash
# Times the search on pure sets, beside cvc5 where it is installed: laws of sets over 2 to 8 sets, denied and left
# open, chains of 2 to 30 subsets, and 10 to 40 sets that all differ.
#
# bench/sets.sh [PROGRAM]: the program is crates/setcard/out/setcard, unless another is named.
set -euo pipefail
# shellcheck source=common.sh
. "$(dirname "${BASH_SOURCE[0]}")/common.sh"
setcard=$(program_of setcard "${1:-}")

# N sets A1 .. AN of a declared sort, and a set B
sets() {
  declared 0 "$1"
  echo '(declare-const B (Set U))'
}

# N OPERATOR: B with each of the sets under the operator
each() {
  local i
  for (( i = 1; i <= $1; i++ )); do printf '(%s B A%d) ' "$2" "$i"; done
}

# N: the sets
all() {
  local i
  for (( i = 1; i <= $1; i++ )); do printf 'A%d ' "$i"; done
}

# B without the union is the intersection of the differences
de_morgan() {
  sets "$1"
  echo "(assert (not (= (set.minus B (set.union $(all "$1"))) (set.inter $(each "$1" set.minus)))))"
  echo '(check-sat)'
}

# B with the union is the union of the intersections
distributivity() {
  sets "$1"
  echo "(assert (not (= (set.inter B (set.union $(all "$1"))) (set.union $(each "$1" set.inter)))))"
  echo '(check-sat)'
}

# the union with the intersection of some of its parts is the union
absorption() {
  sets "$1"
  echo "(assert (not (= (set.union $(all "$1") (set.inter $(all "$1"))) (set.union $(all "$1")))))"
  echo '(check-sat)'
}

# the intersection lies in B, and B in the union, and it differs from both
between() {
  sets "$1"
  echo "(assert (set.subset (set.inter $(all "$1")) B))"
  echo "(assert (set.subset B (set.union $(all "$1"))))"
  echo "(assert (distinct B (set.inter $(all "$1")) (set.union $(all "$1"))))"
  echo '(check-sat)'
}

# N KIND: each set lies in the next; where the kind is 'denied', the first does not lie in the last, and where it is
# 'strict', each differs from the next
chain() {
  local n=$1 kind=$2 i
  sets "$n"
  for (( i = 2; i <= n; i++ )); do echo "(assert (set.subset A$(( i - 1 )) A$i))"; done
  if [[ $kind == denied ]]; then echo "(assert (not (set.subset A1 A$n)))"; fi
  if [[ $kind == strict ]]; then
    for (( i = 2; i <= n; i++ )); do echo "(assert (distinct A$(( i - 1 )) A$i))"; done
  fi
  echo '(check-sat)'
}

# the sets all differ
different() {
  declared 0 "$1"
  echo "(assert (distinct $(all "$1")))"
  echo '(check-sat)'
}

begin_scripts "$setcard"
for n in 2 4 8; do
  for law in de_morgan distributivity absorption; do
    $law $n > "$work/law"
    row "$law over $n sets, denied" "$work/law" unsat
  done
  between $n > "$work/between"
  row "B between $n sets" "$work/between" sat
done
for n in 2 10 30; do
  chain $n denied > "$work/chain"
  row "a chain of $n subsets, its end denied" "$work/chain" unsat
  chain $n strict > "$work/chain"
  row "a chain of $n strict subsets" "$work/chain" sat
  chain $n open > "$work/chain"
  row "a chain of $n subsets, left open" "$work/chain" sat
done
for n in 10 20 40; do
  different $n > "$work/different"
  row "$n sets that all differ" "$work/different" sat
done
