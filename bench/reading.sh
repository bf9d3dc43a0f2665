#!/usr/bin/env bash
# Times how fast 16 MiB of text are read: white space, comments, long and deep lists, long symbols, single tokens of
# that length, and many short commands.
#
# First splitting (into top items) and lexing (into tokens) alone, by the program crates/bench_reading. The time in
# which it only reads its input is taken off; where nothing is left, 'too short' stands for the speed. What it counts is
# compared with what is expected, so no speed is shown where a fault ended the work early. Then setcard on scripts of
# comments, of commands with lists and symbols, and of echoes; where cvc5 is installed, it reads the same scripts. The
# texts take some 250 MB of TMPDIR.
#
# bench/reading.sh [PROGRAM [READER]]: the programs are crates/setcard/out/setcard and
# crates/bench_reading/out/bench_reading, unless others are named.
set -euo pipefail
# shellcheck source=common.sh
. "$(dirname "${BASH_SOURCE[0]}")/common.sh"
setcard=$(program_of setcard "${1:-}")
reader=$(program_of bench_reading "${2:-}")
size=16777216

# NAME FRONT UNIT END: makes a text of 16 MiB: a front, the unit again and again, each time with a line feed, an end,
# and white space for what is left. Afterwards count tells how often the unit stands there.
fill() {
  local name=$1 front=$2 unit=$3 end=$4 feeds room
  room=$(( size - ${#front} - ${#end} ))
  count=$(( room / (${#unit} + 1) ))
  feeds=${unit//[!$'\n']/}
  {
    printf '%s' "$front"
    head -n $(( count * (${#feeds} + 1) )) < <(yes "$unit")
    printf '%s' "$end"
    repeat ' ' $(( room - count * (${#unit} + 1) ))
  } > "$work/$name"
}

# NAME FRONT END: makes a text of 16 MiB: a front, one letter again and again, and an end
stretch() {
  local name=$1 front=$2 end=$3
  {
    printf '%s' "$front"
    repeat a $(( size - ${#front} - ${#end} ))
    printf '%s' "$end"
  } > "$work/$name"
}

# NAME INPUT ITEMS TOKENS: the speed of splitting and of lexing a text of so many top items and tokens
alone_row() {
  local name=$1 input=$work/$2 items=$3 tokens=$4 reading split=- lex=- note=''
  measure_line "$input" "$reader" read
  reading=$us
  judge $size || note="; read: $outcome"
  measure_line "$input" "$reader" split
  if judge "$items"; then split=$(speed_but "$reading"); else note="$note; split: $outcome"; fi
  measure_line "$input" "$reader" lex
  if judge "$tokens"; then lex=$(speed_but "$reading"); else note="$note; lex: $outcome"; fi
  printf '%-46s %9s %11s %11s   %s\n' "$name" "$(milliseconds "$reading")" "$split" "$lex" \
    "$items items, $tokens tokens$note"
}

# READING: the megabytes a second of the last run, without the microseconds of reading
speed_but() {
  if (( us > $1 )); then quotient $size $(( us - $1 )) 1; else printf 'too short'; fi
}

deep=$(repeat '(' 998)a$(repeat ')' 998)
list=$(head -n 1000 < <(yes 'a bb 17') | tr '\n' ' ')

printf '%-46s %9s %11s %11s   %s\n' "16 MiB of text (least of up to $runs runs)" 'read ms' 'split MB/s' 'lex MB/s' counted
repeat ' ' $size > "$work/blanks"
alone_row 'white space' blanks 0 0
fill comments '' '; a comment of some words that is passed over by the reader' ''
alone_row 'comments' comments 0 0
stretch comment '; ' ''
alone_row 'one comment' comment 0 0
fill commented '' $'; what is asked here\n; and why, in some words more\n(set-info :status unknown) ; and so on' ''
alone_row 'commands with comments' commented "$count" $(( 5 * count ))
stretch literal '"' '"'
alone_row 'one string literal' literal 1 1
fill symbols '(set-info :notes (' "$(repeat a 4000)" '))'
alone_row 'symbols of 4000 bytes' symbols 1 $(( count + 6 ))
fill lists '' "(set-info :notes ($list))" ''
alone_row 'lists of 3000 tokens' lists "$count" $(( 3006 * count ))
fill list '(set-info :notes (' 'a bb 17' '))'
alone_row 'one list of short tokens' list 1 $(( 3 * count + 6 ))
fill inside "(set-info :notes $(repeat '(' 998)" 'a bb 17' "$(repeat ')' 998))"
alone_row 'one list, 998 deep' inside 1 $(( 3 * count + 2000 ))
fill deep '(set-info :notes (' "$deep" '))'
alone_row 'lists that are 998 deep' deep 1 $(( 1997 * count + 6 ))
fill commands '' '(set-info :status unknown)' ''
alone_row 'short commands' commands "$count" $(( 5 * count ))
fill echoes '' '(echo "hello world")' ''
alone_row 'echoes' echoes "$count" $(( 4 * count ))
stretch echo '(echo "' '")'

echo
begin_scripts "$setcard" speed
row '16 MiB of comments' "$work/comments" 'done'
row '16 MiB in one comment' "$work/comment" 'done'
row '16 MiB of commands with comments' "$work/commented" 'done'
row '16 MiB of symbols of 4000 bytes' "$work/symbols" 'done'
row '16 MiB of lists of 3000 tokens' "$work/lists" 'done'
row '16 MiB in one list of short tokens' "$work/list" 'done'
row '16 MiB in one list, 998 deep' "$work/inside" 'done'
row '16 MiB of lists that are 998 deep' "$work/deep" 'done'
row '16 MiB of short commands' "$work/commands" 'done'
row '16 MiB of echoes' "$work/echoes" 'done'
row '16 MiB in one echo' "$work/echo" 'done'
