#!/usr/bin/env bash
# Times setcard from the first byte of a script to its last answer where there is next to nothing to search: on 16 MiB
# of white space, and on one token that is no command or is too long, which are only read; and on scripts of 1,000
# commands (declarations, memberships and one check-sat), satisfiable and not. The outcomes are compared with those that
# are expected, and with cvc5 where it is installed.
#
# bench/first-path.sh [PROGRAM]: the program is crates/setcard/out/setcard, unless another is named.
set -euo pipefail
# shellcheck source=common.sh
. "$(dirname "${BASH_SOURCE[0]}")/common.sh"
setcard=$(program_of setcard "${1:-}")
limit=16777216

# 999 commands, and the check-sat: 500 memberships of 400 elements in 97 sets
satisfiable() {
  local i
  declared 400 97
  for (( i = 1; i <= 500; i++ )); do echo "(assert (set.member e$(( i % 400 + 1 )) A$(( i % 97 + 1 ))))"; done
  echo '(check-sat)'
}

# the same, but for the last membership, in place of which the first one is denied
unsatisfiable() {
  satisfiable | sed '999s/.*/(assert (not (set.member e2 A2)))/'
}

repeat ' ' $limit > "$work/blanks"
repeat a $limit > "$work/token"
repeat a $(( limit + 1 )) > "$work/long_token"
satisfiable > "$work/sat.smt2"
unsatisfiable > "$work/unsat.smt2"

begin_scripts "$setcard" speed
row '16 MiB of white space' "$work/blanks" 'done'
row 'one token of 16 MiB, no command' "$work/token" '(error "line 1: E5 malformed command")' alone
row 'one token of 16 MiB and a byte, too long' "$work/long_token" "(error \"line 1: E16 limit $limit passed\")" alone
row '1000 commands, satisfiable' "$work/sat.smt2" sat
row '1000 commands, unsatisfiable' "$work/unsat.smt2" unsat
