# shellcheck shell=bash
# What the benchmarks share: finding the programs, a folder for inputs, runs, and rows. It is read by the other scripts
# and needs bash 5, GNU coreutils and awk. Nothing is built here.
#
# BENCH_RUNS is how often each input is run at most (5), BENCH_SECONDS how many seconds a run has (60). Times are by the
# clock, or with BENCH_CLOCK=cpu those of the processor, user and system, in milliseconds: they stay the same on a machine
# that does other work too. With BENCH_ROWS, a regular expression, only the rows whose names match are measured.
#
# A script ends with status 0; with 1 where a row failed: an answer is wrong or differs from that of cvc5, or a program
# refused its input, crashed or printed another thing than it should; and with 2 where it could not begin. A run that
# isn't ended in time and the answer 'unknown' are shown in the row and are no failures.

export LC_ALL=C
top=$(cd "$(dirname "${BASH_SOURCE[0]}")/.." && pwd)
runs=${BENCH_RUNS:-5}
seconds=${BENCH_SECONDS:-60}
for number in "$runs" "$seconds"; do
  if [[ ! $number =~ ^[1-9][0-9]{0,5}$ ]]; then
    printf '%s: BENCH_RUNS and BENCH_SECONDS are numbers from 1 to 999999\n' "${0##*/}" >&2
    exit 2
  fi
done
clock=${BENCH_CLOCK:-wall}
if [[ $clock != wall && $clock != cpu ]]; then
  printf '%s: BENCH_CLOCK is wall or cpu\n' "${0##*/}" >&2
  exit 2
fi
failures=0
running=''
work=$(mktemp -d)

# ends what still runs, removes the folder, and gives the script its exit status
at_end() {
  local status=$?
  if [[ -n $running ]]; then kill "$running" 2> /dev/null || true; fi
  rm -rf -- "$work"
  if (( status == 0 && failures > 0 )); then
    printf '%s: failures: %d\n' "${0##*/}" "$failures" >&2
    status=1
  fi
  exit "$status"
}
trap at_end EXIT

# CRATE [PROGRAM]: prints the path of the program that is named, else of the one that was built of the crate
program_of() {
  local name=${2:-$top/crates/$1/out/$1} path=''
  if [[ -f $name && -x $name ]]; then path=$name; else path=$(type -P -- "$name" || true); fi
  if [[ -z $path ]]; then
    printf "%s: no program at %s: build it by 'rt run' in crates/%s, or name another\n" "${0##*/}" "$name" "$1" >&2
    return 2
  fi
  realpath --no-symlinks -- "$path"
}

# A B DIGITS: a quotient
quotient() { awk -v a="$1" -v b="$2" -v form="%.$3f" 'BEGIN { printf form, a / b }'; }

# MICROSECONDS: the same in milliseconds
milliseconds() { quotient "$1" 1000 2; }

# CHARACTER COUNT: the character so many times
repeat() { head -c "$2" /dev/zero | tr '\0' "$1"; }

# FIRST LAST: Boolean constants pFIRST .. pLAST
constants() {
  local i
  echo '(set-logic ALL)'
  for (( i = $1; i <= $2; i++ )); do echo "(declare-const p$i Bool)"; done
}

# ELEMENTS SETS: a script's head, with elements e1 .. and sets A1 .. of a declared sort
declared() {
  local i
  echo '(set-logic ALL)'
  echo '(declare-sort U 0)'
  for (( i = 1; i <= $1; i++ )); do echo "(declare-const e$i U)"; done
  for (( i = 1; i <= $2; i++ )); do echo "(declare-const A$i (Set U))"; done
}

# FILE FILE: the processor's time, in microseconds, that programs took between two outputs of 'times'
between_times() {
  awk 'FNR == 2 {
    gsub("s", "")
    for (i = 1; i <= 2; i++) { split($i, part, "m"); sum[FILENAME] += part[1] * 60 + part[2] }
  }
  END { printf "%.0f", (sum[ARGV[2]] - sum[ARGV[1]]) * 1000000 }' "$1" "$2"
}

# INPUT COMMAND ..: runs the command on the input, several times. Afterwards us is the least time in microseconds, and
# of the last run status is the exit status, $work/out what was printed, answers the answers to check-sats, and outcome
# what came of it in words. Once a run failed, or the runs took 10 s together, there are no more of them.
measure() {
  local input=$1 run begin took spent total=0 is_late=false
  shift
  us=0
  for (( run = 0; run < runs && total < 10000000; run++ )); do
    status=0
    times > "$work/begin"
    begin=${EPOCHREALTIME//[!0-9]/}
    timeout --kill-after=5 "$seconds" "$@" < "$input" > "$work/out" 2> /dev/null &
    running=$!
    { wait "$running" || status=$?; } 2> /dev/null
    took=$(( ${EPOCHREALTIME//[!0-9]/} - begin ))
    running=''
    total=$(( total + took ))
    spent=$took
    if [[ $clock == cpu ]]; then
      times > "$work/end"
      spent=$(between_times "$work/begin" "$work/end")
      if (( spent < 1000 )); then spent=1000; fi
    fi
    if (( us == 0 || spent < us )); then us=$spent; fi
    if (( status != 0 )); then
      if (( took >= seconds * 1000000 )); then is_late=true; fi
      break
    fi
  done
  describe $is_late
}

# ANSWERS: the answers, or how many there are of each kind where they are many, or 'done' where there is none
in_short() {
  local -a all
  read -ra all <<< "$1"
  if (( ${#all[@]} <= 20 )); then
    printf '%s' "${1:-done}"
  else
    printf '%s\n' "${all[@]}" | sort | uniq -c | awk '{ printf "%s%d %s", (NR > 1 ? ", " : ""), $1, $2 }'
  fi
}

# IS_LATE: sets answers and outcome for the last run
describe() {
  answers=$({ grep -xE 'sat|unsat|unknown' "$work/out" || true; } | head -c 100000 | tr '\n' ' ')
  answers=${answers% }
  if $1; then
    outcome="no end after $seconds s"
  elif (( status == 0 )); then
    outcome=$(in_short "$answers")
  elif (( status > 128 )); then
    outcome="signal $(( status - 128 ))"
  else
    outcome=''
    if (( status == 1 )); then outcome=$({ grep -am 1 '^(error' "$work/out" || true; } | cut -c 1-60); fi
    outcome=${outcome:-status $status, $(last_line)}
  fi
}

# the last line that was printed, or as much of it as a row shows
last_line() {
  local line
  line=$(tail -n 1 "$work/out" | cut -c 1-60)
  printf '%s' "${line:-nothing printed}"
}

# INPUT COMMAND ..: as measure, for a command that prints one line; where it ends with status 0, the line is the outcome
measure_line() {
  measure "$@"
  if (( status == 0 )); then outcome=$(last_line); fi
}

# ANSWERS ANSWERS: whether one check-sat has sat in the one and unsat in the other
contradict() {
  local -a first second
  local i
  read -ra first <<< "$1"
  read -ra second <<< "$2"
  for i in "${!first[@]}"; do
    case "${first[i]} ${second[i]:-}" in 'sat unsat' | 'unsat sat') return 0 ;; esac
  done
  return 1
}

# EXPECTED: whether the last run did what was expected; else outcome says what was, and unless the program only found no
# answer or did not end in time, it is counted as a failure
judge() {
  if [[ $outcome == "$1" ]]; then return 0; fi
  if [[ $outcome == 'no end after '* || $answers == *unknown* ]] && ! contradict "$answers" "$1"; then
    outcome="$outcome (expected: $1)"
  else
    outcome="FAILED: $outcome (expected: $1)"
    failures=$(( failures + 1 ))
  fi
  return 1
}

# INPUT: the time of cvc5 on a script
measure_cvc5() {
  local -a words=(--lang smt2)
  if (( $(grep -c '^(check-sat)' "$1" || true) > 1 )); then words+=(--incremental); fi
  measure "$1" "$cvc5" "${words[@]}"
}

# SETCARD [speed]: begins a table of scripts for the program, beside cvc5 where it is installed; with 'speed' it has a
# column of megabytes a second
begin_scripts() {
  program=$1
  has_speed=false
  if [[ ${2:-} == speed ]]; then has_speed=true; fi
  cvc5=$(type -P cvc5 || true)
  printf 'setcard: %s, repository at %s\n' "$program" \
    "$(git -C "$top" describe --always --dirty 2> /dev/null || echo 'no commit')"
  echo '(set-logic ALL)' > "$work/start"
  measure "$work/start" "$program" solve
  printf 'least of up to %d runs, by the %s; %s ms of each time are the start of setcard' "$runs" "$([[ $clock == cpu ]] && echo processor || echo clock)" "$(milliseconds "$us")"
  judge 'done' || printf ' (%s)' "$outcome"
  if [[ -n $cvc5 ]]; then
    measure_cvc5 "$work/start"
    printf ', %s ms that of cvc5\ncvc5: version %s' "$(milliseconds "$us")" \
      "$("$cvc5" --version 2> /dev/null | awk 'NR == 1 { print $NF }')"
  else
    printf '\ncvc5: not installed'
  fi
  printf '\n\n'
  cells script 'setcard ms' MB/s 'cvc5 ms' setcard/cvc5 outcome
}

# NAME SETCARD SPEED CVC5 RATIO OUTCOME: a line of the table
cells() {
  printf '%-46s %11s' "$1" "$2"
  if $has_speed; then printf ' %8s' "$3"; fi
  printf ' %11s %13s   %s\n' "$4" "$5" "$6"
}

# NAME INPUT EXPECTED [alone]: times the program on a script whose outcome is expected; and cvc5, unless 'alone'
row() {
  local name=$1 input=$2 expected=$3 ours our_outcome our_answers speed theirs=- ratio=- note='' is_right=false
  if [[ ! $name =~ ${BENCH_ROWS:-} ]]; then return; fi
  measure "$input" "$program" solve
  ours=$us
  our_answers=$answers
  speed=$(quotient "$(stat -c %s "$input")" "$us" 1)
  if judge "$expected"; then is_right=true; fi
  our_outcome=$outcome
  if [[ -n $cvc5 && ${4:-} != alone ]]; then
    mv -- "$work/out" "$work/ours"
    measure_cvc5 "$input"
    theirs=$(milliseconds "$us")
    if contradict "$our_answers" "$answers" || contradict "$expected" "$answers"; then
      note="; FAILED: cvc5 answers $answers"
      failures=$(( failures + 1 ))
    elif $is_right && (( status == 0 )) && cmp -s -- "$work/out" "$work/ours"; then
      ratio=$(quotient "$ours" "$us" 2)
    else
      note="; cvc5: $outcome"
    fi
  fi
  cells "$name" "$(milliseconds "$ours")" "$speed" "$theirs" "$ratio" "$our_outcome$note"
}
