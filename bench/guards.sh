#!/usr/bin/env bash
# Measures how guards are decided together: one language with K rules, or with one rule whose guard has K comparisons. Where
# z3 is there, the same questions are asked of its command line, in one process for all questions of a text.
. "$(dirname "${BASH_SOURCE[0]}")/common.sh"

# A program whose language has the rules that are read, each a guard, over these fields.
rules() {
  awk -v fields="$1" 'BEGIN { printf "type N[%s]{z(0)}\nlang p : N { ", fields }
    { printf "%sz() where %s", (NR > 1 ? " | " : ""), $0 }
    END { print " }\nassert-true (is-empty p)" }'
}

# For each number from 0 on, the line of awk's expression over k.
each() { awk -v count="$1" "BEGIN { for (k = 0; k < count; k++) print $2 }"; }

# The lines as one, with a word between them.
joined() { awk -v word="$1" '{ printf "%s%s", (NR > 1 ? " " word " " : ""), $0 } END { print "" }'; }

equal() { each "$1" '"x = " k' | rules "x : Int"; }
above() { each "$1" '"x = " k " and y > " k' | rules "x : Int, y : Int"; }
overlapping() { each "$1" '"x > " k " and x < " k + 10' | rules "x : Int"; }
remainders() { each "$1" '"x % " k + 2 " = 1"' | rules "x : Int"; }
one_text() { each "$1" '"s = \"t" k "\""' | rules "s : String"; }
two_texts() { each "$1" '"s = \"t" k "\" and s != t"' | rules "s : String, t : String"; }
some_equal() { each "$1" '"x = " k' | joined or | rules "x : Int"; }
none_equal() { each "$1" '"x != " k' | joined and | rules "x : Int"; }
bools() {
  each "$1" '"(b" k " or not b" (k + 1) % count ")"' | joined and |
    rules "$(each "$1" '"b" k " : Bool"' | paste -sd, -)"
}
mixed() { each "$1" '"x = " k " and s = \"t" k "\" and b"' | rules "x : Int, s : String, b : Bool"; }

# Questions in the language of z3, in one process for all questions of a text: for each rule, whether it holds where no earlier
# one does. The line of awk's expression over k is one rule's guard.
questions() {
  local count=$1 sort=$2 guard=$3 name
  for name in x y; do echo "(declare-const $name $sort)"; done
  awk -v count="$count" "function guard(k) { return $guard } BEGIN { for (k = 0; k < count; k++) {
    print \"(push)\"
    print \"(assert \" guard(k) \")\"
    for (j = 0; j < k; j++) print \"(assert (not \" guard(j) \"))\"
    print \"(check-sat)(pop)\"
  } }"
}

z3_equal() { questions "$1" Int '"(= x " k ")"'; }
z3_above() { questions "$1" Int '"(and (= x " k ") (> y " k "))"'; }
z3_overlapping() { questions "$1" Int '"(and (> x " k ") (< x " k + 10 "))"'; }
z3_one_text() { questions "$1" String '"(= x \"t" k "\")"'; }
z3_remainders() { questions "$1" Int '"(= (mod x " k + 2 ") 1)"'; }

ask_z3() {
  command -v z3 >/dev/null || return
  printf '%-12s %8s %14s\n' "z3 $1" K milliseconds
  local kind=$1 count TIMEFORMAT=%U
  shift
  for count in "$@"; do
    "z3_$kind" "$count" >"$folder/question"
    printf '%-12s %8s %14s\n' "" "$count" "$( { time timeout 20 z3 -smt2 "$folder/question" >/dev/null; } 2>&1 | tr -d .)"
  done
}

for kind in equal above overlapping one_text two_texts some_equal none_equal mixed; do
  table run "$kind" 10 20 40 80 160 320
done
table run remainders 2 4 6 8 10 11 12
table run bools 2 4 8
for kind in equal above overlapping one_text; do
  ask_z3 "$kind" 10 20 40 80 160 320
done
ask_z3 remainders 2 4 6 8 10 11 12
