#!/usr/bin/env bash
# Measures operations on languages: a cycle of K languages over lists, each of which takes the lists whose length has its
# remainder by K, against a second cycle, and with its complement; random alternating languages over binary trees, with
# their complements; and Boolean formulas as trees. Where MONA is there, it is asked the same, as a formula over sets of
# positions or nodes, with ten seconds and four gigabytes a question.
. "$(dirname "${BASH_SOURCE[0]}")/common.sh"

# K languages of lists under names that begin so.
a_cycle() {
  local count=$1 name=$2 own
  echo "lang ${name}0 : L { nil() | cons(y) given ($name$((count - 1)) y) }"
  for ((own = 1; own < count; own++)); do
    echo "lang $name$own : L { cons(y) given ($name$((own - 1)) y) }"
  done
}

equal_cycles() {
  echo 'type L[]{nil(0), cons(1)}'
  a_cycle "$1" m
  a_cycle "$1" n
  echo 'assert-true m0 == n0'
}

complemented_cycle() {
  echo 'type L[]{nil(0), cons(1)}'
  a_cycle "$1" m
  echo 'def other : L := (complement m0)'
  echo 'assert-true (is-empty (intersect m0 other))'
  echo 'assert-true m0 == (complement other)'
}

random_complement() {
  python3 "$here/bench/random_languages.py" "$1" 1 | sed '/^assert/d'
  echo 'def other : B := (complement r0)'
  echo 'assert-true (is-empty (intersect r0 other))'
}

# Which formulas over K nested operators are true: each is true or false, and none is both.
formulas() {
  echo 'type F[]{yes(0), no(0), neg(1), all(2), any(2)}'
  echo 'lang true0 : F { yes() }'
  echo 'lang false0 : F { no() }'
  local own
  for ((own = 1; own <= $1; own++)); do
    local t="true$((own - 1))" f="false$((own - 1))"
    echo "lang true$own : F { yes() | neg(x) given ($f x) | all(x, y) given ($t x) ($t y) | any(x, y) given ($t x) | any(x, y) given ($t y) }"
    echo "lang false$own : F { no() | neg(x) given ($t x) | any(x, y) given ($f x) ($f y) | all(x, y) given ($f x) | all(x, y) given ($f y) }"
  done
  echo "assert-true (is-empty (difference true$1 (union true$1 false$1)))"
}

# The cycle of K sets of positions under a name, in the language of MONA: position p is in the first one, the second one and
# so on where the list of length p is in that language.
mona_cycle() {
  awk -v count="$1" -v name="$2" 'BEGIN {
    printf "var2 %s0", name
    for (k = 1; k < count; k++) printf ", %s%d", name, k
    print ";"
    printf "assert all1 p: (p in %s0 <=> (p = 0 | (p > 0 & p - 1 in %s%d)));\n", name, name, count - 1
    for (k = 1; k < count; k++) printf "assert all1 p: (p in %s%d <=> (p > 0 & p - 1 in %s%d));\n", name, k, name, k - 1
  }'
}

mona_equal_cycles() {
  echo 'm2l-str;'
  mona_cycle "$1" X
  mona_cycle "$1" Y
  echo 'all1 p: (p in X0 <=> p in Y0);'
}

mona_complemented_cycle() {
  echo 'm2l-str;'
  mona_cycle "$1" X
  echo 'var2 Z; assert all1 p: (p in Z <=> p notin X0);'
  echo '(all1 p: ~(p in X0 & p in Z)) & (all1 p: (p in X0 <=> p notin Z));'
}

# As sets of nodes of a tree, of which D has all.
mona_random_complement() {
  python3 "$here/bench/random_languages.py" "$1" 1 mona
  echo 'var2 Z; assert all1 p: (p in Z <=> (p in D & p notin R0));'
  echo '~(root in R0 & root in Z);'
}

# Y has the leaves that are yes, O the nodes with two children that are or.
mona_formulas() {
  awk -v count="$1" 'BEGIN {
    print "ws2s;"
    printf "var2 D, Y, O"
    for (k = 0; k <= count; k++) printf ", T%d, F%d", k, k
    print ";"
    print "assert root in D & (all1 p: p in D & p ~= root => p^ in D) & (all1 p: p.1 in D => p.0 in D);"
    print "assert all1 p: (p in T0 <=> (p in D & p.0 notin D & p in Y));"
    print "assert all1 p: (p in F0 <=> (p in D & p.0 notin D & p notin Y));"
    for (k = 1; k <= count; k++) {
      t = "T" k - 1; f = "F" k - 1
      leaf = "p.0 notin D & p %s Y"; negation = "p.0 in D & p.1 notin D & p.0 in %s"
      all = "p.1 in D & p %s O & p.0 in %s & p.1 in %s"; some = "p.1 in D & p %s O & (p.0 in %s | p.1 in %s)"
      printf "assert all1 p: (p in T%d <=> (p in D & ((" leaf ") | (" negation ") | (" all ") | (" some "))));\n", k, "in", f, "notin", t, t, "in", t, t
      printf "assert all1 p: (p in F%d <=> (p in D & ((" leaf ") | (" negation ") | (" all ") | (" some "))));\n", k, "notin", t, "in", f, f, "notin", f, f
    }
    printf "~(root in T%d & ~(root in T%d | root in F%d));\n", count, count, count
  }'
}

ask_mona() {
  command -v mona >/dev/null || return
  printf '%-12s %8s %14s\n' "mona $1" K milliseconds
  local kind=$1 count took TIMEFORMAT=%U
  shift
  for count in "$@"; do
    "mona_$kind" "$count" >"$folder/question.mona"
    took=$( { time (ulimit -v 4000000; timeout 10 mona -q "$folder/question.mona" >"$folder/answer" 2>/dev/null); } 2>&1 | tr -d .)
    grep -q valid "$folder/answer" || took="no answer in"
    printf '%-12s %8s %14s\n' "" "$count" "${took#"${took%%[!0]*}"}"
  done
}

table run equal_cycles 50 100 200 400
table run complemented_cycle 50 100 200 400
table run random_complement 4 6 8 10
table run formulas 4 8 16 32 64
ask_mona equal_cycles 4 8 12 16
ask_mona complemented_cycle 4 8 16 20
ask_mona random_complement 4 6 8 10
ask_mona formulas 4 8 16 32 64
