#!/usr/bin/env bash
# Measures the decision of conjunctions over whole numbers, each the guard of one rule: K fields with small coefficients,
# a remainder by K, remainders by 4096 nested K deep, a chain of K remainders, K values that a field is not, an equation
# with the coefficient K, an equation beside three remainders by K, with no numbers that meet them and with some, and 24
# half-spaces of K fields: with no numbers in them, with some, and with few.
. "$(dirname "${BASH_SOURCE[0]}")/common.sh"

# A program that asks whether a label of these many fields satisfies the guard.
asks() {
  awk -v count="$1" -v guard="$2" 'BEGIN {
    for (own = 1; own <= count; own++) fields = fields (own > 1 ? ", " : "") "x" own " : Int"
    print "type N[" fields "]{z(0)}"
    print "lang p : N { z() where " guard " }"
    print "assert-true (is-empty p)"
  }'
}

# Each field is between two multiples of the next one, and all of them make an odd number.
fields() {
  asks "$1" "$(awk -v count="$1" 'BEGIN {
    for (own = 1; own < count; own++) printf "2 * x%d < 3 * x%d and 3 * x%d < 2 * x%d + 7 and ", own, own + 1, own + 1, own
    printf "x1 > 0 and x1 < 50 and 2 * x1 + 4 * x%d = 7", count
  }')"
}

# The same, with a label that satisfies it.
met() {
  asks "$1" "$(awk -v count="$1" 'BEGIN {
    for (own = 1; own < count; own++) printf "2 * x%d < 3 * x%d and 3 * x%d < 2 * x%d + 7 and ", own, own + 1, own + 1, own
    printf "x1 > 0 and x1 < 50"
  }')"
}

remainder() { asks 1 "x1 % $1 = $1 - 1 and x1 % 2 = 0 and x1 % 3 = 1"; }

nested() {
  asks 1 "$(awk -v count="$1" 'BEGIN {
    for (own = 0; own < count; own++) printf "("
    printf "x1"
    for (own = 0; own < count; own++) printf " + 1) %% 4096"
    printf " = 5 and x1 > 0"
  }')"
}

# K remainders of nothing but a remainder, which the field has at 1.
chain() {
  echo "type N[x1 : Int]{z(0)}"
  awk -v count="$1" 'BEGIN {
    printf "lang p : N { z() where x1"
    for (own = 0; own < count; own++) printf "%%%d", 2 + own % 7
    print " = 1 }"
  }'
  echo "assert-true (is-empty p)"
}

unequal() {
  asks 1 "$(awk -v count="$1" 'BEGIN {
    for (own = 0; own < count; own++) printf "x1 != %d and ", own
    printf "x1 >= 0 and x1 < %d", count
  }')"
}

equation() { asks 1 "$1 * x1 = 5"; }

# An even number whose remainder by an even one would be odd.
halved() { asks 3 "x1 % $1 = 2 * (x2 % $1 + x3 % $1) + 1 and x1 = 2 * (x3 - x2) and x2 > 5"; }
halved_met() { asks 3 "x1 % $1 = 2 * (x2 % $1 + x3 % $1) + 4 and x1 = 2 * (x3 - x2) and x2 > 5"; }

# 24 half-spaces with coefficients up to 9: of K fields, and by how much each is past a drawn point at most (0: no point).
drawn() {
  asks "$1" "$(awk -v count="$1" -v slack="$2" '
    function draw(many) { seed = (seed * 1103 + 12345) % 65536; return int(seed / 7) % many }
    function term(number, own) { return number " * x" own }
    BEGIN {
      for (own = 1; own <= count; own++) point[own] = draw(41) - 20
      for (row = 1; row <= 24; row++) {
        left = ""; right = ""; sum = 0
        for (own = 1; own <= count; own++) {
          number = draw(19) - 9; sum += number * point[own]
          if (number > 0) left = left (left == "" ? "" : " + ") term(number, own)
          if (number < 0) right = right (right == "" ? "" : " + ") term(-number, own)
        }
        constant = slack ? draw(slack + 1) - sum : draw(201) - 100
        if (constant > 0) left = left (left == "" ? "" : " + ") constant
        if (constant < 0) right = right (right == "" ? "" : " + ") (-constant)
        printf "%s%s >= %s", (row > 1 ? " and " : ""), (left == "" ? 0 : left), (right == "" ? 0 : right)
      }
    }')"
}

half_spaces() { drawn "$1" 0; }
half_spaces_met() { drawn "$1" 100; }
half_spaces_thin() { drawn "$1" 12; }

table run fields 2 3 4 5 6 7 8
table run met 2 3 4 5 6 7 8
table run remainder 16 64 256 1024 4096
table run nested 1 2 3
table run chain 25000 50000 100000 200000
table run unequal 2 4 8 16
table run halved 100 200 400 800 1600 3200
table run halved_met 100 200 400 800 1600 3200
table run equation 7 2147483647
for kind in half_spaces half_spaces_met half_spaces_thin; do
  table run "$kind" 4 5 6 7 8
done
