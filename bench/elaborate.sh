#!/usr/bin/env bash
# Times elaboration: scripts without a check-sat, of many assertions, one formula of many parts, one term of many sets,
# each at two sizes, so that growth shows. Where cvc5 is installed, it reads the same scripts; without a check-sat it
# parses them and does little more, so the ratio compares elaboration with parsing.
#
# bench/elaborate.sh [PROGRAM]: the program is crates/setcard/out/setcard, unless another is named.
set -euo pipefail
# shellcheck source=common.sh
. "$(dirname "${BASH_SOURCE[0]}")/common.sh"
setcard=$(program_of setcard "${1:-}")

# COUNT assertions, each an `or` of two constants, no two the same
assertions() {
  constants 0 399
  awk -v n="$1" 'BEGIN { for (k = 0; k < n; k++) print "(assert (or p" int(k / 400) " p" k % 400 "))" }'
}

# one `and` of COUNT parts, each an `or` of two constants, no two the same
conjunction() {
  constants 0 399
  awk -v n="$1" 'BEGIN {
    printf "(assert (and"
    for (k = 0; k < n; k++) printf " (or p%d p%d)", int(k / 400), k % 400
    print "))"
  }'
}

# COUNT memberships of 1,000 elements in 100 sets, no two the same
memberships() {
  declared 1000 100
  awk -v n="$1" 'BEGIN {
    for (k = 0; k < n; k++) print "(assert (set.member e" k % 1000 + 1 " A" int(k / 1000) + 1 "))"
  }'
}

# one union of COUNT sets, of which 1,000 differ
union() {
  declared 0 1000
  awk -v n="$1" 'BEGIN {
    printf "(assert (set.subset (set.union"
    for (k = 0; k < n; k++) printf " A%d", k % 1000 + 1
    print ") A1))"
  }'
}

# COUNT equations of 1,000 sets
equations() {
  declared 0 1000
  awk -v n="$1" 'BEGIN { for (k = 0; k < n; k++) print "(assert (= A" k % 1000 + 1 " A" int(k / 1000) + 1 "))" }'
}

begin_scripts "$setcard" speed
for n in 50000 100000; do
  assertions $n > "$work/script"
  row "$n assertions of (or p q)" "$work/script" 'done'
  conjunction $n > "$work/script"
  row "one and of $n parts" "$work/script" 'done'
  memberships $n > "$work/script"
  row "$n memberships" "$work/script" 'done'
  union $(( n / 2 )) > "$work/script"
  row "one union of $(( n / 2 )) sets" "$work/script" 'done'
  equations $n > "$work/script"
  row "$n equations of 1000 sets" "$work/script" 'done'
done
