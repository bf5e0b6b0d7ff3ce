#!/usr/bin/env bash
# Looks for the largest size of each family that ends within a second, ten seconds and a minute of a processor: families whose
# work grows by a power, or doubles with each step.
. "$(dirname "${BASH_SOURCE[0]}")/common.sh"

rules() {
  awk -v fields="$1" 'BEGIN { printf "type N[%s]{z(0)}\nlang p : N { ", fields }
    { printf "%sz() where %s", (NR > 1 ? " | " : ""), $0 }
    END { print " }\nassert-true (is-empty p)" }'
}
each() { awk -v count="$1" "BEGIN { for (k = 0; k < count; k++) print $2 }"; }

remainders() { each "$1" '"x % " k + 2 " = 1"' | rules "x : Int"; }
equal() { each "$1" '"x = " k' | rules "x : Int"; }
overlapping() { each "$1" '"x > " k " and x < " k + 10' | rules "x : Int"; }

# Lists of numbers with a counter up to K: its complement has K classes and one more.
counted() {
  echo 'type L[]{nil(0), cons(1)}'
  awk -v count="$1" 'BEGIN { for (k = 0; k < count; k++) printf "lang c%d : L { %scons(y) given (c%d y) }\n", k, (k ? "" : "nil() | "), (k + 1) % count }'
  echo 'tree t : L := (get-witness (complement c0))'
}

# K transformations that add, and filter each second time, composed one after the other.
composed() {
  awk -v count="$1" 'BEGIN {
    print "type L[i : Int]{nil(0), cons(1)}"
    for (k = 1; k <= count; k++) {
      if (k % 2) printf "trans p%d : L -> L { nil() to (nil [0]) | cons(y) to (cons [(i + %d) %% 26] (p%d y)) }\n", k, k, k
      else printf "trans p%d : L -> L { nil() to (nil [0]) | cons(y) where i %% 2 = 0 to (cons [i] (p%d y)) | cons(y) where i %% 2 = 1 to (p%d y) }\n", k, k, k
      if (k == 1) print "def d1 : L -> L := p1"; else printf "def d%d : L -> L := (compose d%d p%d)\n", k, k - 1, k
    }
    printf "assert-false (is-empty d%d)\n", count }'
}

# A sanitiser that drops K tag names, checked against the documents without them.
sanitiser() {
  local names
  names=$(each "$1" '"tag != \"t" k "\""' | paste -sd'&' | sed 's/&/ and /g')
  echo 'type Html[tag : String]{nil(0), val(1), attr(2), node(3)}'
  echo 'lang page : Html { nil() | node(x, y, z) given (page y) (page z) }'
  echo "lang clean : Html { nil() | node(x, y, z) where $names given (clean y) (clean z) }"
  echo "trans drop : Html -> Html { nil() to (nil [tag]) | node(x, y, z) where $names to (node [tag] x (drop y) (drop z))"
  each "$1" '"| node(x, y, z) where tag = \"t" k "\" to (drop z)"'
  echo '} assert-true (type-check page drop clean)'
}

# The largest K up to `most` that ends within the seconds, by doubling and halving.
largest() {
  local kind=$1 seconds=$2 most=$3 low=0 high=1 middle
  ends() {
    "$kind" "$1" >"$folder/text"
    (ulimit -t "$seconds" && exec "$program" run "$folder/text" >/dev/null 2>&1)
    [ $? -lt 2 ]
  }
  while [ "$high" -le "$most" ] && ends "$high"; do low=$high; high=$((high * 2)); done
  if [ "$high" -gt "$most" ]; then high=$((most + 1)); fi
  while [ $((high - low)) -gt 1 ] && [ $((high - low)) -gt $((low / 10)) ]; do
    middle=$(((low + high) / 2))
    if ends "$middle"; then low=$middle; else high=$middle; fi
  done
  if [ "$low" -ge "$most" ]; then echo "$most or more"; else echo "$low"; fi
}

printf '%-14s %14s %14s %14s\n' family '1 second' '10 seconds' 'a minute'
for family in remainders:60 equal:4000 overlapping:4000 counted:990 composed:1000 sanitiser:4000; do
  printf '%-14s' "${family%:*}"
  for seconds in ${SECONDS_TRIED:-1 10 60}; do printf ' %14s' "$(largest "${family%:*}" "$seconds" "${family#*:}")"; done
  printf '\n'
done
