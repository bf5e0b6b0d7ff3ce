#!/usr/bin/env bash
# Gives the program what it must withstand, and counts how its runs end: nearly programs and nearly trees (bench/changed.py);
# less and less memory; a program and trees that are at all limits at once (bench/limits.py), with the stack that a process
# usually has; and an output that can't be written. A run must end with a status from 0 to 7, write nothing on standard error,
# and end its report with a line feed where the status is 0 to 4; each row says what else it must. The last column counts the
# runs that don't, and each of them is told. Under the table stands the least stack with which the limits do as well. Ends with
# 0 where no run ends wrongly.
#
# usage: hostile.sh [COUNT [SEED]]; 2,000 texts, if no number is given.
. "$(dirname "${BASH_SOURCE[0]}")/common.sh"
count=${1-2000}
seed=${2-1}
examples=$here/crates/examples/data
kept=$(mktemp -d)
seconds=20
ulimit -c 0
declare -A runs
stacks=()

# Runs the words under these limits, and gives the status: `limits` is a command of the shell, as `ulimit -s 1024` or `true`.
# A run that takes too long has the status 124.
run() {
  local limits=$1
  shift
  # the shell's own word on a signal is left out
  { (eval "$limits" && exec timeout "$seconds" "$program" "$@") >"$folder/report" 2>"$folder/errors" </dev/null; } 2>/dev/null
}

# Counts a run of a row, by its status and by whether all is well, and tells one that isn't, by these words.
note() {
  local row=$1 status=$2 is_well=$3
  shift 3
  runs[$row,$status]=$((${runs[$row,$status]-0} + 1))
  if [ "$is_well" = no ]; then
    runs[$row,wrong]=$((${runs[$row,wrong]-0} + 1))
    echo "wrong: $row: status $status: $*"
  fi
}

# Whether the last run ended as each run must, with this status.
ended_well() {
  [ ! -s "$folder/errors" ] || return 1
  case $1 in
    # a file without trees gives a report without lines
    0) [ ! -s "$folder/report" ] || [ "$(tail -c 1 "$folder/report" | od -An -tx1)" = ' 0a' ] ;;
    [1-4]) [ "$(tail -c 1 "$folder/report" | od -An -tx1)" = ' 0a' ] ;;
    5 | 6 | 7 | 124) true ;;
    *) false ;;
  esac
}

# Whether the report is a front of what stands in the file.
is_front() {
  cmp -s -n "$(stat -c %s "$folder/report")" "$folder/report" "$1"
}

# A program whose report grows line by line, and which needs more memory the longer it runs.
large_program() {
  awk 'BEGIN {
    print "type L[x : Int, s : String]{nil(0), cons(1)}"
    for (k = 0; k < 20; k++) printf "lang p%d : L { nil() where x = %d | cons(y) where x %% 7 = %d and s != \"%d\" given (p%d y) }\n", k, k, k % 7, k, (k + 1) % 20
    for (k = 0; k < 20; k++) printf "tree t%d : L := (cons [%d, \"a\"] (nil [%d, \"\"]))\nassert-true t%d in (complement p%d)\n", k, k, k, k, k
    for (k = 0; k < 200; k++) printf "def d%d : L := (union p%d p%d)\n", k, k % 20, (k + 7) % 20
    print "assert-false (is-empty p0)"
  }'
}

# Ever less memory, down to what a run without words needs: the whole report, or want of memory with a front of it.
less_memory() {
  local limit whole status
  large_program >"$folder/large"
  run true run "$folder/large"
  whole=$?
  cp "$folder/report" "$folder/whole"
  for ((limit = 262144; limit > 1024; limit = limit * 15 / 16)); do
    run "ulimit -v $limit"
    [ $? = 2 ] || break
    run "ulimit -v $limit" run "$folder/large"
    status=$?
    if ended_well "$status" && { [ "$status" = "$whole" ] && cmp -s "$folder/report" "$folder/whole" ||
      [ "$status" = 7 ] && is_front "$folder/whole"; }; then
      note 'less memory: run' "$status" yes
    else
      note 'less memory: run' "$status" no "$limit kilobytes: $(head -c 200 "$folder/errors")"
    fi
  done
}

# Runs the words with the usual stack, 8 megabytes: status 0. Then looks for the least one with which the report is the same.
limited() {
  local row=$1 status low=128 high=8192 middle
  shift
  seconds=600 run "ulimit -s $high" "$@"
  status=$?
  cp "$folder/report" "$folder/whole"
  if ! ended_well "$status" || [ "$status" != 0 ]; then
    note "$row" "$status" no "$* $(head -c 200 "$folder/report")"
    return
  fi
  note "$row" "$status" yes
  while [ $((high - low)) -gt 128 ]; do
    middle=$(((low + high) / 2))
    if seconds=600 run "ulimit -s $middle" "$@" && cmp -s "$folder/report" "$folder/whole"; then high=$middle; else low=$middle; fi
  done
  stacks+=("${*//$folder\//}: $high kilobytes of stack")
}

all_limits() {
  local trees
  python3 "$here/bench/limits.py" "$folder"
  limited 'all limits: check' check "$folder/program"
  limited 'all limits: run' run "$folder/program"
  for trees in deep wide; do
    limited 'all limits: accepts' accepts "$folder/program" all "$folder/$trees"
    limited 'all limits: apply' apply "$folder/program" copy "$folder/$trees"
  done
}

# A run whose output can't be written must say so by its status.
refused() {
  local row=$1 status=$2
  if [ "$status" = 6 ] && [ ! -s "$folder/errors" ]; then
    note "$row" "$status" yes
  else
    note "$row" "$status" no "$(head -c 200 "$folder/errors")"
  fi
}

no_output() {
  local example
  for example in "$examples"/*.fast; do
    "$program" run "$example" >/dev/full 2>"$folder/errors"
    refused 'full device: run' $?
    "$program" run "$example" >&- 2>"$folder/errors"
    refused 'closed output: run' $?
    # the reader is gone before the first line is written
    (sleep 0.2 && exec "$program" run "$example" 2>"$folder/errors") | true
    refused 'closed pipe: run' "${PIPESTATUS[0]}"
  done
}

summary() {
  local row status others
  printf '\n%-20s' ''
  printf '%7s' 0 1 2 3 4 5 6 7 late others wrong
  printf '\n'
  for row in "$@"; do
    printf '%-20s' "$row"
    for status in 0 1 2 3 4 5 6 7 124; do printf '%7s' "${runs[$row,$status]-0}"; done
    others=0
    for status in "${!runs[@]}"; do
      case $status in
        "$row",[0-7] | "$row",124 | "$row",wrong) ;;
        "$row",*) others=$((others + runs[$status])) ;;
      esac
    done
    printf '%7s%7s\n' "$others" "${runs[$row,wrong]-0}"
  done
}

python3 "$here/bench/changed.py" "$program" "$count" "$seed" "$kept"
changed=$?
less_memory
all_limits
no_output
summary 'less memory: run' all\ limits:\ {check,run,accepts,apply} \
  {full\ device,closed\ output,closed\ pipe}:\ run
printf '%s\n' "${stacks[@]}"
rmdir "$kept" 2>/dev/null
total=0
for row in "${!runs[@]}"; do
  case $row in *,wrong) total=$((total + runs[$row])) ;; esac
done
echo "$total of these runs ended wrongly"
[ "$total" = 0 ] && [ "$changed" = 0 ]
