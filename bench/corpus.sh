#!/usr/bin/env bash
# Runs the scripts of crates/corpus/data by hand. Each script says before each check-sat what is expected, as
# (set-info :status unsat). For each, the answers are compared with that; the derivation behind each unsat is checked by
# 'check'; and where cvc5 is installed, its answers are compared too. The gate runs the same scripts through the calls
# of the solver (crates/corpus), and compares their answers with crates/corpus/stdout.
#
# bench/corpus.sh [PROGRAM]: the program is crates/setcard/out/setcard, unless another is named.
set -euo pipefail
# shellcheck source=common.sh
. "$(dirname "${BASH_SOURCE[0]}")/common.sh"
setcard=$(program_of setcard "${1:-}")
cvc5=$(type -P cvc5 || true)
corpus=$top/crates/corpus

# SCRIPT: what is expected of its check-sats
expected_of() { sed -n 's/^(set-info :status \([a-z]*\))$/\1/p' "$1"; }

# WORDS: what stands in the row
differ() {
  printf '%-40s FAILED: %s\n' "$name" "$1"
  failures=$(( failures + 1 ))
  is_right=false
}

# SCRIPT: the script with a get-proof behind each check-sat that is to be unsat, and an exit
asking() {
  awk '/^\(set-info :status / { is_unsat = /unsat/ } { print } /^\(check-sat\)$/ && is_unsat { print "(get-proof)" }
    END { print "(exit)" }' "$1"
}

# the scripts, one after the other, with what is to be answered: what the gate expects
for script in "$corpus"/data/*.smt2; do
  printf '%s\n' "${script##*/}"
  expected_of "$script"
done > "$work/all"
if ! cmp -s -- "$work/all" "$corpus/stdout"; then
  echo "crates/corpus/stdout and args don't list the scripts of data with what they expect:" >&2
  diff -- "$work/all" "$corpus/stdout" >&2 || true
  failures=$(( failures + 1 ))
fi

count=0
derivations=0
for script in "$corpus"/data/*.smt2; do
  name=${script##*/}
  is_right=true
  expected=$(expected_of "$script" | tr '\n' ' ')
  expected=${expected% }
  timeout "$seconds" "$setcard" solve < "$script" > "$work/out" 2> /dev/null || true
  answers=$(tr '\n' ' ' < "$work/out")
  if [[ -z $expected || ${answers% } != "$expected" ]]; then differ "setcard: ${answers% } (expected: $expected)"; fi
  asking "$script" > "$work/asking"
  timeout "$seconds" "$setcard" solve < "$work/asking" > "$work/transcript" 2> /dev/null || true
  proofs=$(grep -c '^(get-proof)$' "$work/asking" || true)
  lines=0
  if (( proofs > 0 )); then
    cat "$work/asking" "$work/transcript" | timeout "$seconds" "$setcard" check > "$work/out" 2> /dev/null || true
    lines=$(grep -cxE 'derivation [0-9]+: accepted' "$work/out" || true)
  fi
  if (( lines != proofs )); then differ "check: $lines of $proofs derivations are accepted"; fi
  derivations=$(( derivations + lines ))
  if [[ -n $cvc5 ]]; then
    theirs=$(timeout "$seconds" "$cvc5" --lang smt2 --incremental "$script" 2> /dev/null | tr '\n' ' ' || true)
    if [[ ${theirs% } != "$expected" ]]; then differ "cvc5: ${theirs% } (expected: $expected)"; fi
  fi
  if $is_right; then printf '%-40s %s\n' "$name" "$expected"; fi
  count=$(( count + 1 ))
done
printf '%d scripts, %d derivations accepted; cvc5: %s\n' "$count" "$derivations" "${cvc5:-not installed}"
