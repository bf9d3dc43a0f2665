#!/usr/bin/env bash
# Runs the gate and tells the processor seconds of each crate: of its proof, of its tests, and of its edits that must
# fail. Twice a second it looks at the provers that the gate has started, so up to half a second of each is missed. The
# times of other commands, of what rt does itself, and of the programs that are run aren't in it; those of what the gate
# kept from an earlier run are none. rt gives no times of single functions, so none are told.
#
# bench/gate.sh LOG [COMMAND ..]: what the command prints goes to LOG; the command is 'rt ci', unless another is named.
# It reads /proc, and ends with the command's status.
set -euo pipefail
# shellcheck source=common.sh
. "$(dirname "${BASH_SOURCE[0]}")/common.sh"
if (( $# < 1 )); then
  printf '%s: name the file for what the gate prints\n' "${0##*/}" >&2
  exit 2
fi
log=$(realpath -- "$1")
shift
if (( $# == 0 )); then
  cd "$top"
  set -- rt ci
fi
declare -A ticks=() crate_of=() kind_of=()

# ROOT: prints, for each prover below the process that no other prover started, its number, when it started, and the
# ticks that it and those below it have taken
provers() {
  { cat /proc/[0-9]*/stat 2> /dev/null || true; } | awk -v root="$1" '
    {
      pid = $1
      name[pid] = substr($0, index($0, "(") + 1)
      sub(/\) .*/, "", name[pid])
      sub(/^.*\) /, "")
      parent[pid] = $2
      took[pid] = $12 + $13 + $14 + $15
      start[pid] = $20
    }
    END {
      for (pid in name) {
        if (name[pid] != "rattle") continue
        prover = pid
        while (name[parent[prover]] == "rattle") prover = parent[prover]
        above = prover
        while (above in parent && above != root) above = parent[above]
        if (above == root) sum[prover] += took[pid]
      }
      for (prover in sum) print prover, start[prover], sum[prover]
    }'
}

# PROCESS KEY: notes which crate a prover works on, and for what
recognize() {
  local -a words=()
  local folder i
  mapfile -d '' -t words < "/proc/$1/cmdline" || return 0
  folder=$(readlink "/proc/$1/cwd") || return 0
  kind_of[$2]=proof
  for i in "${!words[@]}"; do
    case ${words[i]} in
      --crate-name) crate_of[$2]=${words[i + 1]:-} ;;
      --test) kind_of[$2]=tests ;;
    esac
  done
  if [[ $folder == */rt-edit* ]]; then kind_of[$2]=edits; fi
}

"$@" > "$log" 2>&1 &
running=$!
while kill -0 "$running" 2> /dev/null; do
  while read -r process start took; do
    key=$process:$start
    if [[ ! -v "crate_of[$key]" ]]; then recognize "$process" "$key" 2> /dev/null || true; fi
    if (( took > ${ticks[$key]:-0} )); then ticks[$key]=$took; fi
  done < <(provers "$running")
  sleep 0.5
done
status=0
wait "$running" || status=$?
running=''

printf '%-16s %8s %8s %8s %8s\n' crate proof tests edits seconds
for key in "${!ticks[@]}"; do
  printf '%s %s %s\n' "${crate_of[$key]:-unknown}" "${kind_of[$key]:-proof}" "${ticks[$key]}"
done | awk -v second="$(getconf CLK_TCK)" '
  { took[$1, $2] += $3; all[$1] += $3; took["together", $2] += $3; all["together"] += $3 }
  END {
    for (crate in all)
      printf "%-16s %8.0f %8.0f %8.0f %8.0f\n", crate, took[crate, "proof"] / second, took[crate, "tests"] / second,
        took[crate, "edits"] / second, all[crate] / second
  }' | sort -k 5,5nr -k 1,1
exit "$status"
