#!/usr/bin/env bash
# Prints the table of figures that README shows: some rows of boolean.sh, members.sh and sets.sh in Markdown, in time of
# the processor (user and system, the least of five runs), beside cvc5 where it is installed, with the kind of machine
# and the date. It measures what those scripts measure, so a wrong answer ends it with status 1.
#
# bench/figures.sh [PROGRAM]: the program is crates/setcard/out/setcard, unless another is named.
set -euo pipefail
here=$(dirname "${BASH_SOURCE[0]}")
rows='^(a chain of 2000 implications, its end denied|8 pigeons|400 clauses|1000 elements, 100 sets, (chains, (open|one denied)|equals, open)|distributivity over 8 sets, denied|a chain of 30 strict subsets|40 sets that all differ)'
status=0
lines=''
for script in boolean members sets; do
  table=$(BENCH_CLOCK=cpu BENCH_ROWS=$rows "$here/$script.sh" "$@") || status=$?
  if (( status == 2 )); then exit 2; fi
  lines+=$table$'\n'
done

kind=$(awk -F': *' '/^model name/ { print $2; exit }' /proc/cpuinfo 2> /dev/null || true)
printf 'Measured on %s: %s, %s processors, Linux.\n\n' "$(date -u +%Y-%m-%d)" "${kind:-unknown processor}" "$(nproc)"
printf '%s\n' "$lines" | grep -m 1 '^cvc5: ' || true
printf '\n| script | setcard, ms | cvc5, ms | setcard/cvc5 | answer |\n|---|---|---|---|---|\n'
# the name has 46 columns, then three numbers and the outcome
printf '%s\n' "$lines" | awk -v rows="$rows" '{
  name = substr($0, 1, 46)
  sub(/ +$/, "", name)
  if (name !~ rows) next
  $0 = substr($0, 47)
  outcome = $4
  for (i = 5; i <= NF; i++) outcome = outcome " " $i
  sub(/\.00$/, "", $1)
  sub(/\.00$/, "", $2)
  printf "| %s | %s | %s | %s | %s |\n", name, $1, $2, $3, outcome
}'
exit "$status"
