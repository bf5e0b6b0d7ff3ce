#!/usr/bin/env bash
# Measures emptiness: a cycle of K languages over lists, each of which takes the lists whose length has its remainder by
# K; a chain of K languages whose trees double; K languages of such a cycle, of which a constructor of rank 8 demands one
# of its first child; and K random languages over binary trees, which have few sets of states or too many. Beside the
# milliseconds stands the peak of memory, where GNU time can tell it.
. "$(dirname "${BASH_SOURCE[0]}")/common.sh"

cycle() {
  local count=$1 own
  echo 'type L[]{nil(0), cons(1)}'
  echo "lang m0 : L { nil() | cons(y) given (m$((count - 1)) y) }"
  for ((own = 1; own < count; own++)); do
    echo "lang m$own : L { cons(y) given (m$((own - 1)) y) }"
  done
  echo 'assert-false (is-empty m0)'
}

chain() {
  local count=$1 own
  echo 'type B[]{a(0), n(2)}'
  echo 'lang h0 : B { a() }'
  for ((own = 1; own <= count; own++)); do
    echo "lang h$own : B { n(x, y) given (h$((own - 1)) x) (h$((own - 1)) y) }"
  done
  echo "assert-false (is-empty h$count)"
}

rank_8() {
  local count=$1 own
  echo 'type W[]{z(0), s(1), n(8)}'
  echo "lang m0 : W { z() | s(y) given (m$((count - 1)) y) }"
  for ((own = 1; own < count; own++)); do
    echo "lang m$own : W { s(y) given (m$((own - 1)) y) }"
  done
  echo 'lang k : W { n(x1, x2, x3, x4, x5, x6, x7, x8) given (m0 x1) }'
  echo 'assert-false (is-empty k)'
}

random() { python3 "$here/bench/random_languages.py" "$1" 1; }

# The most kilobytes of memory that the run on the text has at once.
peak() {
  if [ -x /usr/bin/time ]; then
    /usr/bin/time -f %M "$program" run "$1" 2>&1 >/dev/null | tail -n 1
  else
    echo -
  fi
}

# Runs texts of this kind, for each of these K.
measured() {
  local kind=$1 count took previous=
  shift
  printf '%-12s %8s %8s %14s %8s %10s\n' "$kind" K bytes milliseconds ratio kilobytes
  for count in "$@"; do
    "$kind" "$count" >"$folder/text"
    took=$(milliseconds run "$folder/text")
    awk -v count="$count" -v bytes="$(wc -c <"$folder/text")" -v took="$took" -v previous="$previous" -v peak="$(peak "$folder/text")" 'BEGIN {
      ratio = previous > 0 ? sprintf("%.2f", took / previous) : ""
      printf "%-12s %8s %8d %14d %8s %10s\n", "", count, bytes, took, ratio, peak
    }'
    previous=$took
  done
}

measured cycle 50 100 200 400 800
measured chain 50 100 200 400
measured rank_8 20 200
measured random 8 16 32 64
