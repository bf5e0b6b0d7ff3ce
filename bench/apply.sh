#!/usr/bin/env bash
# Measures a sanitiser on documents of K nodes, and lists that are mapped and filtered, beside a program that was written by
# hand for the sanitiser (bench/apply_by_hand.py) over the same files. It prints milliseconds of a processor, nanoseconds a
# node, and the peak of memory in kilobytes.
. "$(dirname "${BASH_SOURCE[0]}")/common.sh"

cat >"$folder/program" <<'PROGRAM'
type Html[tag : String]{nil(0), val(1), attr(2), node(3)}
lang none : Html { nil() where tag = "none" }
trans clean : Html -> Html {
    node(x, y, z) where tag != "script" to (node [tag] (escape x) (clean y) (clean z))
  | node(x, y, z) where tag = "script" to (clean z)
  | nil() to (nil [tag]) }
trans escape : Html -> Html {
    attr(x, y) to (attr [tag] (escape x) (escape y))
  | val(x) where tag = "'" to (val ["\\"] (val [tag] (escape x)))
  | val(x) where tag != "'" to (val [tag] (escape x))
  | nil() to (nil [tag]) }
PROGRAM

cat >"$folder/lists" <<'PROGRAM'
type L[x : Int]{nil(0), cons(1)}
trans map : L -> L { nil() to (nil [0]) | cons(y) to (cons [(x + 5) % 26] (map y)) }
trans filter : L -> L { nil() to (nil [0]) | cons(y) where x % 2 = 0 to (cons [x] (filter y)) | cons(y) where not (x % 2 = 0) to (filter y) }
PROGRAM

# A document of about K nodes: binary below, so that it is not deep, with a script in each eighth place.
document() {
  awk -v count="$1" 'function tree(n, l) {
      if (n < 4) { printf "(nil [\"\"])"; return }
      printf "(node [\"%s\"] ", k++ % 8 == 7 ? "script" : "div"
      if (n > 8) printf "(attr [\"a\"] (val [\"%s\"] (nil [\"\"])) (nil [\"\"])) ", k % 2 ? "\047" : "x"; else printf "(nil [\"\"]) "
      l = int((n - 5) / 2); tree(l); printf " "; tree(n - 5 - l); printf ")" }
    BEGIN { tree(count) }'
}

list() {
  awk -v count="$1" 'BEGIN { for (k = 0; k < count; k++) printf "(cons [%d] ", k % 26
    printf "(nil [0])"; for (k = 0; k < count; k++) printf ")" }'
}

# Runs the words, and prints what they took a node of the trees.
measure() {
  local label=$1 size=$2 took peak
  shift 2
  command time -f '%U %M' -o "$folder/cost" "$@" >"$folder/report" 2>&1
  read -r took peak <"$folder/cost"
  grep -q '^input' "$folder/report" || head -c 200 "$folder/report"
  awk -v label="$label" -v size="$size" -v nodes="$(grep -o '(' "$folder/trees" | wc -l)" -v took="$took" -v peak="$peak" 'BEGIN {
    printf "%-18s %8s %8d %12d %12d %10d\n", label, size, nodes, took * 1000, took * 1e9 / nodes, peak }'
}

printf '%-18s %8s %8s %12s %12s %10s\n' '' K nodes milliseconds nanoseconds kilobytes
for count in 1000 2000 4000 8000 16000 32000 64000 110000; do
  document "$count" >"$folder/trees"
  measure checked "$count" "$program" accepts "$folder/program" none "$folder/trees"
  measure clean "$count" "$program" apply "$folder/program" clean "$folder/trees"
  measure 'clean by hand' "$count" python3 "$here/bench/apply_by_hand.py" "$folder/trees"
done
for count in 250 500 1000 1990; do
  list "$count" >"$folder/trees"
  measure map "$count" "$program" apply "$folder/lists" map "$folder/trees"
  measure filter "$count" "$program" apply "$folder/lists" filter "$folder/trees"
done
