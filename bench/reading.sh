#!/usr/bin/env bash
# Measures the reader: programs of growing length that are refused at their end, so that only reading is measured, and
# brackets that don't match, whose nesting is counted to their end before they are refused at the first.
. "$(dirname "${BASH_SOURCE[0]}")/common.sh"

line='trans t : L -> L { nil() to (nil [0, "a\u{1F600}"]) | cons(x, y) where not ((i + 5) % 26 = 2 * i) and b given (p x) (q y) to (cons [(i + 5) % 26 "b"] x (t y)) } // comment'

# As many whole lines of the program as fit, then blanks, and a bracket at the end.
programs() {
  yes "$line" | head -c $(($1 - 300)) | sed '$d' >"$folder/text"
  head -c $(($1 - 1 - $(stat -c %s "$folder/text"))) /dev/zero | tr '\0' ' ' >>"$folder/text"
  printf ')' >>"$folder/text"
}

# A quarter of `([`, a quarter of `)`, a quarter of `where`, and a quarter of `)` and `]` in turn.
brackets() {
  local part
  : >"$folder/text"
  for part in '([' ')' 'where ' ')]'; do
    yes "$part" | tr -d '\n' | head -c $(($1 / 4)) >>"$folder/text"
  done
}

growth check programs 65536 131072 262144 524288 1048576
growth check brackets 65536 131072 262144 524288 1048576
