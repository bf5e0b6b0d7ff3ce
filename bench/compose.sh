#!/usr/bin/env bash
# Measures composition: K maps and filters over lists of whole numbers, one composed after the other, as they are built and as
# they are applied, beside applying them one after the other; the same as a list of transformations that add, without
# remainders; and a sanitiser that drops K tag names, composed with itself and with a cleaner of attributes, then type-checked.
# It prints milliseconds of a processor.
. "$(dirname "${BASH_SOURCE[0]}")/common.sh"

# For each number from 0 on, the line of awk's expression over k, with a word between the lines.
each() {
  awk -v count="$1" -v word="$2" "BEGIN { for (k = 0; k < count; k++) { if (k) printf \"%s\", word; printf \"%s\", $3 }; print \"\" }"
}

# Transformations p1 to pK, and d1 to dK that are composed of them: of awk's expression for the label that pk makes of i, and with
# a filter in each second place, if that is wanted.
pipeline() {
  local count=$1 label=$2 filters=$3
  awk -v count="$count" -v filters="$filters" "BEGIN {
      print \"type L[i : Int]{nil(0), cons(1)}\"
      for (k = 1; k <= count; k++) {
        if (filters && k % 2 == 0) printf \"trans p%d : L -> L { nil() to (nil [0]) | cons(y) where i %% 2 = 0 to (cons [i] (p%d y)) | cons(y) where i %% 2 = 1 to (p%d y) }\\n\", k, k, k
        else printf \"trans p%d : L -> L { nil() to (nil [0]) | cons(y) to (cons [%s] (p%d y)) }\\n\", k, $label, k
        if (k == 1) print \"def d1 : L -> L := p1\"; else printf \"def d%d : L -> L := (compose d%d p%d)\\n\", k, k - 1, k
      } }"
}

composed() { pipeline "$1" '"(i + " k ") % 26"' 1; echo "assert-false (is-empty d$1)"; }
adding() { pipeline "$1" '"i + " k' 0; echo "assert-false (is-empty d$1)"; }
# The last filter takes even numbers alone, so that no list with an odd number comes out.
checked() {
  pipeline "$1" '"(i + " k ") % 26"' 1
  echo 'lang all : L { nil() | cons(y) given (all y) } lang even : L { nil() | cons(y) where i % 2 = 0 given (even y) }'
  echo "assert-true (type-check all d$1 even)"
}

# A sanitiser of so many names, and a cleaner of attributes.
html() {
  cat <<PROGRAM
type Html[tag : String]{nil(0), val(1), attr(2), node(3)}
lang text : Html { nil() | val(x) given (text x) | attr(x, y) given (text x) (text y) }
lang page : Html { nil() | node(x, y, z) given (text x) (page y) (page z) }
lang clean : Html { nil() | node(x, y, z) where $(each "$1" ' and ' '"tag != \"t" k "\""') given (text x) (clean y) (clean z) }
trans drop : Html -> Html {
    nil() to (nil [tag])
  | node(x, y, z) where $(each "$1" ' and ' '"tag != \"t" k "\""') to (node [tag] x (drop y) (drop z))
  $(each "$1" ' ' '"| node(x, y, z) where tag = \"t" k "\" to (drop z)"')
}
trans bare : Html -> Html { nil() to (nil [tag]) | node(x, y, z) to (node [tag] (plain x) (bare y) (bare z)) }
trans plain : Html -> Html { nil() to (nil [tag]) | val(x) to (val [tag] (plain x)) | attr(x, y) where tag = "on" to (plain y) | attr(x, y) where tag != "on" to (attr [tag] (plain x) (plain y)) }
PROGRAM
}

twice() { html "$1"; echo 'def both : Html -> Html := (compose drop drop)'; echo 'assert-true (type-check page both clean)'; }
cleaned() { html "$1"; echo 'def both : Html -> Html := (compose drop bare)'; echo 'assert-true (type-check page both clean)'; }

# Lists of 200 numbers through all of K, and through one after the other.
applied() {
  local count=$1 k took
  composed "$count" >"$folder/program"
  awk 'BEGIN { for (k = 0; k < 200; k++) printf "(cons [%d] ", k; printf "(nil [0])"; for (k = 0; k < 200; k++) printf ")"; print "" }' >"$folder/trees"
  command time -f %U -o "$folder/cost" timeout 20 "$program" apply "$folder/program" "d$count" "$folder/trees" >"$folder/whole"
  took=$(tail -n 1 "$folder/cost")
  : >"$folder/costs"
  for ((k = 1; k <= count; k++)); do
    command time -f %U -o "$folder/cost" "$program" apply "$folder/program" "p$k" "$folder/trees" >"$folder/report"
    tail -n 1 "$folder/cost" >>"$folder/costs"
    sed -n 's/^output //p' "$folder/report" >"$folder/trees"
  done
  cmp -s <(sed -n 's/^output //p' "$folder/whole") "$folder/trees" || echo "not the same outputs at $count"
  awk -v count="$count" -v took="$took" '{ sum += $1 } END { printf "%-12s %8s %14d %14d\n", "applied", count, took * 1000, sum * 1000 }' "$folder/costs"
}

for kind in composed adding checked; do table run "$kind" 2 4 8 16 32 64; done
for kind in twice cleaned; do table run "$kind" 5 10 20 40 80; done
printf '%-12s %8s %14s %14s\n' '' K together 'one by one'
for count in 2 4 8 16 32; do applied "$count"; done
