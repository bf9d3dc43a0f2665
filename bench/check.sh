#!/usr/bin/env bash
# Times how fast derivations are checked: one long branch, and many cuts inside one another, each at three sizes, so
# that growth shows. No other program reads these derivations, so there is nothing to compare with.
#
# bench/check.sh [PROGRAM]: the program is crates/setcard/out/setcard, unless another is named.
set -euo pipefail
# shellcheck source=common.sh
. "$(dirname "${BASH_SOURCE[0]}")/common.sh"
setcard=$(program_of setcard "${1:-}")

# two memberships that contradict one another, and one get-proof
contradiction() {
  declared 1 1
  printf '%s\n' '(assert (set.member e1 A1))' '(assert (not (set.member e1 A1)))' '(check-sat)' '(get-proof)' '(exit)'
}

# COUNT LINE: the line so many times
lines() { awk -v n="$1" -v line="$2" 'BEGIN { for (i = 0; i < n; i++) print line }'; }

# COUNT: one branch, so many times the same step, and the clash
steps() {
  contradiction
  printf '(derivation\n(tree\n'
  lines "$1" '(unit 2 1)'
  printf '(clash (sign 1))\n)\n)\n'
}

# COUNT: so many cuts, each on the first branch of the one before, and a clash on each second branch
cuts() {
  contradiction
  printf '(derivation\n(tree\n'
  lines "$1" '(cut (sign 1))'
  echo '(unit 2 1)'
  lines $(( $1 + 1 )) '(clash (sign 1))'
  printf ')\n)\n'
}

# NAME NODES INPUT: times the check of one derivation, which is to be accepted
check_row() {
  local name=$1 nodes=$2 input=$3 time=- by_nodes=- by_bytes=-
  measure_line "$input" "$setcard" check
  if judge 'derivation 1: accepted'; then
    time=$(milliseconds "$us")
    by_nodes=$(quotient $(( nodes * 1000000 )) "$us" 0)
    by_bytes=$(quotient "$(stat -c %s "$input")" "$us" 1)
  fi
  printf '%-46s %9s %12s %8s   %s\n' "$name" "$time" "$by_nodes" "$by_bytes" "$outcome"
}

printf '%-46s %9s %12s %8s   %s\n' "derivation (least of up to $runs runs)" ms nodes/s MB/s outcome
for n in 50000 100000 200000; do
  steps $n > "$work/steps"
  check_row "$n steps on one branch" $(( n + 1 )) "$work/steps"
done
for n in 25000 50000 100000; do
  cuts $n > "$work/cuts"
  check_row "$n cuts" $(( 2 * n + 2 )) "$work/cuts"
done
