#!/usr/bin/env bash
# Measures `fast check`: programs of K items, each a language, definition or assertion that names earlier and later ones,
# programs of one language with K rules, and both at once.
. "$(dirname "${BASH_SOURCE[0]}")/common.sh"

items() {
  awk -v count="$1" 'BEGIN {
    print "type L[i : Int, s : String, b : Bool]{nil(0), cons(1)}"
    for (own = 1; own < count; own += 3) {
      printf "lang p%d : L { nil() where i %% 7 = 3 | cons(y) where s != \"%d\" and (b or 2 * i < %d) given (p%d y) }\n", own, own, own, own + 3 < count ? own + 3 : 1
      printf "def d%d : L := (union p%d (complement p1))\n", own, own
      printf "assert-true d%d == p%d\n", own, own
    }
  }'
}

# One block of rules, as many as two fifths of the items, and languages that each name the one before.
mixed() {
  awk -v count="$1" 'BEGIN {
    print "type L[i : Int, s : String]{nil(0), cons(1)}"
    printf "lang p0 : L { nil()"
    for (own = 1; own < int(count * 0.4096); own++) printf "\n| cons(y) where i %% 97 = %d and s != \"%d\" given (p0 y)", own % 97, own
    print " }"
    for (own = 1; own < count - 1; own++) printf "lang p%d : L { nil() where i = %d | cons(y) given (p%d y) }\n", own, own, own - 1
  }'
}

rules() {
  awk -v count="$1" 'BEGIN {
    print "type L[i : Int]{nil(0), cons(1)}"
    printf "lang p : L { nil()"
    for (own = 1; own < count; own++) printf "\n  | cons(y) where i = %d given (p y)", own
    print " }"
  }'
}

table check items 1250 2500 5000 10000
table check rules 512 1024 2048 4096
table check mixed 2500 5000 10000
