#!/usr/bin/env bash
# Times sets of many runs, more than a script can bring about, and the value of the last of a long chain of terms, each
# at several sizes, so that growth shows. A library is timed here, by the program crates/bench_runs; there is nothing to
# compare with. What the program prints is compared with what is expected.
#
# bench/runs.sh [PROGRAM]: the program is crates/bench_runs/out/bench_runs, unless another is named.
set -euo pipefail
# shellcheck source=common.sh
. "$(dirname "${BASH_SOURCE[0]}")/common.sh"
bench_runs=$(program_of bench_runs "${1:-}")

# NAME WORK COUNT EXPECTED [BUILDING]: times a work, which is to print what is expected; the microseconds of the
# building with which it begins are taken off in a second column
work_row() {
  local name=$1 expected=$4 building=${5:-} time=- rest=-
  measure_line /dev/null "$bench_runs" "$2" "$3"
  if judge "$expected"; then
    time=$(milliseconds "$us")
    if [[ -n $building ]]; then rest=$(milliseconds $(( us > building ? us - building : 0 ))); fi
  fi
  printf '%-46s %9s %17s   %s\n' "$name" "$time" "$rest" "$outcome"
}

printf '%-46s %9s %17s   %s\n' "work (least of up to $runs runs)" ms 'ms less building' outcome
for n in 1000 10000 100000; do
  work_row "build two sets of $n runs" build $n "$(( n * 600000 )) $(( n * 600000 ))"
  building=$us
  work_row 'their union, intersection, difference' combine $n \
    "$(( n * 1000000 )) $(( n * 200000 )) $(( n * 400000 ))" "$building"
  work_row "has, $n times" has $n $(( n / 2 )) "$building"
  work_row 'nth, 1000 times' nth $n 1000 "$building"
done
for n in 1000 10000 100000 190000; do
  work_row "a chain of $n unions" chain $n 1000000000001
done
