#!/usr/bin/env bash
# Measures whether trees are in a language whose rules demand several languages of each child, one of which is a complement:
# wide trees, lists of binary trees as deep as a tree may be, and K trees in one file.
. "$(dirname "${BASH_SOURCE[0]}")/common.sh"

cat >"$folder/program" <<'PROGRAM'
type T[x : Int]{leaf(0), node(2)}
lang even : T { leaf() where x % 2 = 0 | node(y, z) given (even y) (even z) | node(y, z) given (odd y) (odd z) }
lang odd : T { leaf() where x % 2 = 1 | node(y, z) given (even y) (odd z) | node(y, z) given (odd y) (even z) }
lang low : T { leaf() where x < 10 | node(y, z) where x < 10 given (low y) (low z) }
def other : T := (intersect even (complement low))
PROGRAM

# A complete tree of K levels, and the list of K nodes whose first children are leaves.
complete() {
  awk -v levels="$1" 'function tree(l) { if (l == 1) { printf "(leaf [%d])", n++ % 10; return }
    printf "(node [0] "; tree(l - 1); printf " "; tree(l - 1); printf ")" } BEGIN { tree(levels) }'
}

deep() {
  awk -v count="$1" 'BEGIN { for (k = 0; k < count; k++) printf "(node [%d] (leaf [%d]) ", k % 10, k % 7
    printf "(leaf [1])"; for (k = 0; k < count; k++) printf ")" }'
}

many() {
  awk -v count="$1" 'BEGIN { for (k = 0; k < count; k++) printf "(node [%d] (leaf [%d]) (leaf [3]))\n", k % 10, k % 7 }'
}

accept() {
  local kind=$1 count previous= took TIMEFORMAT=%U
  shift
  printf '%-12s %8s %8s %14s %8s\n' "$kind" K bytes milliseconds ratio
  for count in "$@"; do
    "$kind" "$count" >"$folder/trees"
    took=$( { time "$program" accepts "$folder/program" other "$folder/trees" >"$folder/report" 2>&1; } 2>&1 | tr -d .)
    grep -q '^input' "$folder/report" || head -c 200 "$folder/report"
    took=$((10#$took))
    awk -v count="$count" -v bytes="$(wc -c <"$folder/trees")" -v took="$took" -v previous="$previous" 'BEGIN {
      printf "%-12s %8s %8d %14d", "", count, bytes, took
      if (previous > 0) printf " %8.2f", took / previous
      printf "\n"
    }'
    previous=$took
  done
}

accept complete 12 13 14 15 16
accept deep 500 1000 1990
accept many 5000 10000 20000 30000
