#!/usr/bin/env bash
# Measures the least automata of languages: a cycle of K languages over lists, each of which takes the lists whose length has
# its remainder by K; the product of two cycles, over lists of two kinds of nodes, with K times K + 1 classes; K languages of
# which one is enough; and random alternating languages over binary trees.
. "$(dirname "${BASH_SOURCE[0]}")/common.sh"

cycle() {
  echo 'type L[]{nil(0), cons(1)}'
  echo "lang m0 : L { nil() | cons(y) given (m$(($1 - 1)) y) }"
  local own
  for ((own = 1; own < $1; own++)); do echo "lang m$own : L { cons(y) given (m$((own - 1)) y) }"; done
  echo 'def least : L := (minimize m0)'
}

# The number of nodes of one kind, by its remainder; nodes of the other kind are passed over.
counted() {
  local count=$1 name=$2 node=$3 other=$4 own
  echo "lang ${name}0 : L { nil() | $node(y) given ($name$((count - 1)) y) | $other(y) given (${name}0 y) }"
  for ((own = 1; own < count; own++)); do
    echo "lang $name$own : L { $node(y) given ($name$((own - 1)) y) | $other(y) given ($name$own y) }"
  done
}

product() {
  echo 'type L[]{nil(0), a(1), b(1)}'
  counted "$1" p a b
  counted $(($1 + 1)) q b a
  echo 'def least : L := (minimize (intersect p0 q0))'
}

# The even lengths, as a union of K remainders by twice K.
evens() {
  local all=m0 own
  cycle $((2 * $1)) | sed '/^def/d'
  for ((own = 1; own < $1 && own < 60; own++)); do all="(union m$((2 * own)) $all)"; done
  echo "def least : L := (minimize $all)"
}

random() {
  python3 "$here/bench/random_languages.py" "$1" 1 | sed '/^assert/d'
  echo 'def least : B := (minimize r0)'
}

table run cycle 50 100 200 400 800 1000
table run product 4 8 16 30
table run evens 8 16 32 60
table run random 4 6 8 10
