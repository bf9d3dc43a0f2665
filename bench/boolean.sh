#!/usr/bin/env bash
# Times the Boolean search, beside cvc5 where it is installed: implications, disjunctions, pigeons and clauses of three
# literals of Boolean constants, and implications between memberships.
#
# bench/boolean.sh [PROGRAM]: the program is crates/setcard/out/setcard, unless another is named.
set -euo pipefail
# shellcheck source=common.sh
. "$(dirname "${BASH_SOURCE[0]}")/common.sh"
setcard=$(program_of setcard "${1:-}")

# eight pairs of constants: of each pair one is true, and of none both
pairs() {
  local i
  constants 1 16
  for (( i = 1; i <= 16; i += 2 )); do echo "(assert (or p$i p$(( i + 1 ))))"; done
  echo '(assert (not (or'
  for (( i = 1; i <= 16; i += 2 )); do echo "(and p$i p$(( i + 1 )))"; done
  echo ')))'
  echo '(check-sat)'
}

# N END: p0, and each constant implies the next; where the end is 'denied', the last one is
chain() {
  local i
  constants 0 "$1"
  for (( i = 0; i < $1; i++ )); do echo "(assert (=> p$i p$(( i + 1 ))))"; done
  echo '(assert p0)'
  if [[ $2 == denied ]]; then echo "(assert (not p$1))"; fi
  echo '(check-sat)'
}

# N disjunctions of two constants each
disjunctions() {
  local i
  constants 0 $(( 2 * $1 - 1 ))
  for (( i = 0; i < $1; i++ )); do echo "(assert (or p$(( 2 * i )) p$(( 2 * i + 1 ))))"; done
  echo '(check-sat)'
}

# N pigeons into N - 1 holes, no two into one
pigeons() {
  local n=$1 pigeon other hole
  echo '(set-logic ALL)'
  for (( pigeon = 1; pigeon <= n; pigeon++ )); do
    for (( hole = 1; hole < n; hole++ )); do echo "(declare-const p${pigeon}_$hole Bool)"; done
  done
  for (( pigeon = 1; pigeon <= n; pigeon++ )); do
    printf '(assert (or'
    for (( hole = 1; hole < n; hole++ )); do printf ' p%d_%d' "$pigeon" "$hole"; done
    echo '))'
  done
  for (( hole = 1; hole < n; hole++ )); do
    for (( pigeon = 1; pigeon <= n; pigeon++ )); do
      for (( other = pigeon + 1; other <= n; other++ )); do
        echo "(assert (not (and p${pigeon}_$hole p${other}_$hole)))"
      done
    done
  done
  echo '(check-sat)'
}

# N M: M clauses of three literals of N constants, by chance that is the same each time
clauses() {
  constants 1 "$1"
  awk -v n="$1" -v m="$2" '
    function next_below(k) { x = (x * 25173 + 13849) % 65536; return int(x / 65536 * k) }
    BEGIN {
      x = 1
      for (i = 0; i < m; i++) {
        printf "(assert (or"
        for (j = 0; j < 3; j++) {
          literal = "p" next_below(n) + 1
          printf next_below(2) ? " " literal : " (not " literal ")"
        }
        print "))"
      }
    }'
  echo '(check-sat)'
}

# N implications, from an element's membership in one set to that in the next; it is in the first and not in the last
memberships() {
  local i
  declared 1 $(( $1 + 1 ))
  for (( i = 1; i <= $1; i++ )); do echo "(assert (=> (set.member e1 A$i) (set.member e1 A$(( i + 1 )))))"; done
  echo '(assert (set.member e1 A1))'
  echo "(assert (not (set.member e1 A$(( $1 + 1 )))))"
  echo '(check-sat)'
}

begin_scripts "$setcard"
pairs > "$work/pairs"
row 'eight pairs, one of each' "$work/pairs" sat
for n in 1000 2000; do
  chain $n denied > "$work/chain"
  row "a chain of $n implications, its end denied" "$work/chain" unsat
  chain $n open > "$work/chain"
  row "a chain of $n implications" "$work/chain" sat
done
for n in 200 2000; do
  disjunctions $n > "$work/disjunctions"
  row "$n disjunctions" "$work/disjunctions" sat
done
for n in 4 6 8; do
  pigeons $n > "$work/pigeons"
  row "$n pigeons into $(( n - 1 )) holes" "$work/pigeons" unsat
done
for n in 50 100; do
  clauses $n $(( 4 * n )) > "$work/clauses"
  row "$(( 4 * n )) clauses of three of $n constants" "$work/clauses" sat
done
memberships 1000 > "$work/memberships"
row 'a chain of 1000 memberships, its end denied' "$work/memberships" unsat
