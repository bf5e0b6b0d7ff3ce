#!/usr/bin/env bash
# Measures what asks which inputs a transformation takes to outputs of some shape: a sanitiser that drops K tag names is
# checked against the documents without them, as it is and with one name forgotten; a pipeline with K cases over lists of
# whole numbers is checked against a range; and pre-images of chains and cycles of K languages. Where z3 is there, the cases
# of a pipeline are asked of its command line one by one, in one process.
. "$(dirname "${BASH_SOURCE[0]}")/common.sh"

# For each number from 0 on, the line of awk's expression over k, with a word between the lines. It may call a rule.
each() {
  awk -v count="$1" -v word="$2" "function rule(l, k, n) { ${4:-return \"\"} }
    BEGIN { for (k = 0; k < count; k++) { if (k) printf \"%s\", word; printf \"%s\", $3 }; print \"\" }"
}

# A sanitiser of so many names, and the documents without K of them.
tags() {
  local dropped=$1 names=$2
  cat <<PROGRAM
type Html[tag : String]{nil(0), val(1), attr(2), node(3)}
lang text : Html { nil() | val(x) given (text x) | attr(x, y) given (text x) (text y) }
lang page : Html { nil() | node(x, y, z) given (text x) (page y) (page z) }
lang clean : Html { nil() | node(x, y, z) where $(each "$names" ' and ' '"tag != \"t" k "\""') given (text x) (clean y) (clean z) }
trans drop : Html -> Html {
    nil() to (nil [tag])
  | node(x, y, z) where $(each "$dropped" ' and ' '"tag != \"t" k "\""') to (node [tag] x (drop y) (drop z))
  $(each "$dropped" ' ' '"| node(x, y, z) where tag = \"t" k "\" to (drop z)"')
}
PROGRAM
}

sanitiser() {
  tags "$1" "$1"
  echo 'assert-true (type-check page drop clean)'
}

forgotten() {
  tags "$(($1 - 1))" "$1"
  echo 'assert-false (type-check page drop clean)'
}

# Numbers below 10 * K are taken to 0 to 9, case by case.
pipeline() {
  cat <<PROGRAM
type L[x : Int]{nil(0), cons(1)}
lang taken : L { nil() | cons(y) where x >= 0 and x < 10 * $1 given (taken y) }
lang digits : L { nil() | cons(y) where x >= 0 and x <= 9 given (digits y) }
trans reduce : L -> L {
    nil() to (nil [0])
  $(each "$1" ' ' '"| cons(y) where x >= " 10 * k " and x < " 10 * k + 10 " to (cons [x - " 10 * k "] (reduce y))"')
}
assert-true (type-check taken reduce digits)
PROGRAM
}

z3_pipeline() {
  echo '(declare-const x Int)'
  each "$1" ' ' '"(push)(assert (and (>= x " 10 * k ") (< x " 10 * k + 10 ")))(assert (not (and (>= (- x " 10 * k ") 0) (<= (- x " 10 * k ") 9))))(check-sat)(pop)"'
}

# Lists of 0, 1, .. K - 1, or such lists one behind another; those of numbers that are less by one, and a transformation that
# adds one. A language's rule by awk's expression over its own letter l, k and the number n that stands there.
languages() {
  cat <<PROGRAM
type L[x : Int]{nil(0), cons(1)}
$(each "$1" $'\n' "\"lang a\" k \" : L { \" rule(\"a\", k, k) \" }\"" "$2")
$(each "$1" $'\n' "\"lang b\" k \" : L { \" rule(\"b\", k, k - 1) \" }\"" "$2")
trans add : L -> L { nil() to (nil [0]) | cons(y) to (cons [x + 1] (add y)) }
assert-true (pre-image add a0) == b0
PROGRAM
}

chain() { languages "$1" 'return k == count - 1 ? "nil()" : "cons(y) where x = " n " given (" l k + 1 " y)"'; }
cycle() { languages "$1" 'return (k == 0 ? "nil() | " : "") "cons(y) where x = " n " given (" l (k + 1) % count " y)"'; }

for kind in sanitiser forgotten; do table run "$kind" 5 10 20 40 80; done
table run pipeline 5 10 20 40
for kind in chain cycle; do table run "$kind" 10 20 40 80 160; done
if command -v z3 >/dev/null; then
  printf '%-12s %8s %14s\n' "z3 pipeline" K milliseconds
  TIMEFORMAT=%U
  for count in 5 10 20 40; do
    z3_pipeline "$count" >"$folder/question"
    printf '%-12s %8s %14s\n' "" "$count" "$( { time timeout 20 z3 -smt2 "$folder/question" >/dev/null; } 2>&1 | tr -d .)"
  done
fi
